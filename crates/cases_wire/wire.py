#!/usr/bin/env python3
"""Writes the cases of this folder: `wire.py stdin` the lines, `wire.py stdout` the lines with their answers.

The replies are built here, byte by byte (RFC 1035, 4.1), and each answer stands beside its case: by RFC 1034, 1035,
2308 and 3403 and the rules of this project on the reading of replies, and by no program of this repository.
"""
import struct
import sys


def name(text):
    out = b''
    for label in text.rstrip('.').split('.'):
        if label:
            out += bytes([len(label)]) + label.encode()
    return out + b'\0'


def question(owner='a.ex.', kind=35, cls=1):
    return name(owner) + struct.pack('>HH', kind, cls)


def record(owner, kind, rdata, cls=1, ttl=60):
    owner = owner if isinstance(owner, bytes) else name(owner)
    return owner + struct.pack('>HHIH', kind, cls, ttl, len(rdata)) + rdata


def text(string):
    return bytes([len(string)]) + string.encode()


def rule(owner, order, preference, services, cls=1):
    rdata = struct.pack('>HH', order, preference) + text('u') + text(services) + text('!^.*$!sip:a@ex!') + name('.')
    return record(owner, 35, rdata, cls)


def cname(owner, target, cls=1):
    return record(owner, 5, name(target), cls)


def ns(owner, server='ns.ex.', cls=1):
    return record(owner, 2, name(server), cls)


def soa(owner='ex.'):
    return record(owner, 6, name('ns.ex.') + name('host.ex.') + struct.pack('>IIIII', 1, 2, 3, 4, 5))


def opt(extended=0):
    return record('.', 41, b'', 4096, extended << 24)


QR, TC, RD, AA, RA = 0x8000, 0x0200, 0x0100, 0x0400, 0x0080


def reply(number, answers=(), authority=(), additional=(), bits=QR | AA | RD, code=0, questions=None):
    questions = [question()] if questions is None else questions
    counts = struct.pack('>HHHH', len(questions), len(answers), len(authority), len(additional))
    message = struct.pack('>HH', number, bits | code) + counts
    return (message + b''.join(questions) + b''.join(answers) + b''.join(authority) + b''.join(additional)).hex()


FIRST = 258
SIP, WEB = rule('a.ex.', 100, 20, 'E2U+sip'), rule('a.ex.', 100, 10, 'E2U+web')
BOTH = 'rules 2 (100 10 E2U+web) (100 20 E2U+sip)'


def case(answer, steps, queries, first=FIRST, owner='a.ex.'):
    return ('reply %d %s %s' % (first, owner, ' '.join(steps)), answer + ''.join('; ' + query for query in queries))


def datagrams(count, first=FIRST):
    return ['datagram %d' % ((first + at) % 65536) for at in range(count)]


def streams(count, first):
    return ['stream %d' % ((first + at) % 65536) for at in range(count)]


def once(answer, *rest, **more):
    """A reply that is used at once."""
    return case(answer, [reply(FIRST, *rest, **more)], datagrams(1))


def thrice(answer, make):
    """A reply that cannot be used, three times."""
    return case(answer, [make(FIRST + at) for at in range(3)], datagrams(3))


H = ('4.4.e164.arpa. 3600 IN SOA ns.example. host.example. 1 7200 900 604800 300\\n'
     '4.4.e164.arpa. 3600 IN NS ns.example.\\n')
ONE = '2.4.4.e164.arpa. 3600 IN NAPTR 100 %d "u" "E2U+sip" "!^.*$!sip:%s!" .\\n'
TWELVE = ''.join(ONE % (at, 93 * 'a') for at in range(1, 13))
TOLD = 'rules 12' + ''.join(' (100 %d E2U+sip)' % at for at in range(1, 13))
EX = ('ex. 3600 IN SOA ns.ex. host.ex. 1 7200 900 604800 300\\nex. 3600 IN NS ns.ex.\\n'
      'a.ex. 60 IN NAPTR 100 20 "u" "E2U+web:http" "!^.*$!http://a.ex/!" .\\n'
      'a.ex. 60 IN NAPTR 100 20 "u" "E2U+sip" "!^.*$!sip:a@ex!" .\\n'
      'a.ex. 60 IN NAPTR 100 3 "u" "E2U+tel" "!^.*$!tel:+1!" .\\n'
      'a.ex. 60 IN TXT "a"\\nto.ex. 60 IN CNAME A.ex.\\nself.ex. 60 IN CNAME SELF.ex.\\n'
      'gone.ex. 60 IN CNAME none.ex.\\n'
      'far.ex. 60 IN CNAME x.nowhere.\\nin.ex. 60 IN CNAME b.sub.ex.\\ntext.ex. 60 IN TXT "t"\\n'
      'sub.ex. 60 IN NS ns.sub.ex.\\n'
      'ns.sub.ex. 60 IN A 192.0.2.1\\n*.w.ex. 60 IN NAPTR 1 1 "u" "E2U+sip" "!^.*$!sip:w@ex!" .\\n'
      '*.v.ex. 60 IN CNAME a.ex.\\n')
A = 'rules 3 (100 3 E2U+tel) (100 20 E2U+sip) (100 20 E2U+web:http) as zones'
N = '2.4.4.e164.arpa.'


def asked(failing, first, names, answers, exchanges, faults):
    line = 'ask %s %d %s' % (failing, first, ' '.join(names))
    return (line, '%s; exchanges %d, faults %d' % (', '.join(answers), exchanges, faults))


CASES = [
    '# The zones',
    ('zone ' + H + TWELVE, 'added'),
    ('zone ' + EX, 'added'),
    '',
    '# A reply that is too long for a datagram is had on a stream, whichever exchanges fail before',
    asked('-', 7, [N], [TOLD + ' as zones'], 2, 0),
    asked('1', 7, [N], [TOLD + ' as zones'], 3, 1),
    asked('2', 7, [N], [TOLD + ' as zones'], 3, 1),
    asked('1,2', 7, [N], [TOLD + ' as zones'], 4, 2),
    asked('2,3', 7, [N], [TOLD + ' as zones'], 4, 2),
    asked('1,2,4,5', 65533, [N], [TOLD + ' as zones'], 6, 4),
    '',
    '# Three tries of one way that fail are trouble, and the next offer begins anew',
    asked('1,2,3', 7, [N], ['trouble LinkFault'], 3, 3),
    asked('2,3,4', 7, [N], ['trouble LinkFault'], 4, 3),
    asked('1,2,4,5,6', 7, [N], ['trouble LinkFault'], 6, 5),
    asked('1,2,3', 7, [N, N], ['trouble LinkFault', TOLD + ' as zones'], 5, 3),
    asked('1,2,3,4,5,6', 7, [N, 'a.ex.', 'a.ex.'], ['trouble LinkFault', 'trouble LinkFault', A], 7, 6),
    '',
    '# Each kind of look-up',
    asked('-', 0, ['a.ex.', 'A.EX.'], [A, A], 2, 0),
    asked('-', 0, ['to.ex.', 'TO.ex.', 'self.ex.', 'gone.ex.', 'far.ex.', 'in.ex.', 'x.v.ex.'],
          ['alias A.ex. as zones', 'alias A.ex. as zones', 'alias SELF.ex. as zones', 'alias none.ex. as zones',
           'alias x.nowhere. as zones', 'alias b.sub.ex. as zones', 'alias a.ex. as zones'], 7, 0),
    asked('-', 0, ['text.ex.', 'ex.', 'w.ex.', 'none.ex.', 'x.a.ex.'], 5 * ['rules 0 as zones'], 5, 0),
    asked('-', 0, ['x.w.ex.', 'x.y.w.ex.'], 2 * ['rules 1 (1 1 E2U+sip) as zones'], 2, 0),
    asked('-', 0, ['sub.ex.', 'b.sub.ex.', 'ns.sub.ex.', 'nowhere.', '.'], 5 * ['unserved as zones'], 5, 0),
    '',
    '# Rules are sorted, each once: ties go by RDATA, whose texts have their length first',
    once(BOTH, [SIP, WEB, SIP, WEB]),
    once('rules 2 (100 10 E2U+sip) (100 10 E2U+a:bcde)',
         [rule('a.ex.', 100, 10, 'E2U+a:bcde'), rule('A.eX.', 100, 10, 'E2U+sip')]),
    once('rules 2 (9 9 E2U+sip) (10 1 E2U+sip)', [rule('a.ex.', 10, 1, 'E2U+sip'), rule('a.ex.', 9, 9, 'E2U+sip')]),
    once('rules 1 (100 20 E2U+sip)', [record(b'\xc0\x0c', 35, SIP[len(name('a.ex.')) + 10:])]),
    once('rules 0', [rule('b.ex.', 1, 1, 'E2U+sip'), rule('x.a.ex.', 1, 1, 'E2U+sip')]),
    once('rules 0', [], [SIP]),
    once('rules 0', [rule('a.ex.', 1, 1, 'E2U+sip', 3)]),
    '',
    '# A CNAME of the name comes before its rules, the first of them',
    once('alias b.ex.', [SIP, cname('a.ex.', 'b.ex.'), WEB]),
    once('alias B.ex.', [cname('A.ex.', 'B.ex.'), cname('a.ex.', 'c.ex.')]),
    once('alias b.ex.', [cname('a.ex.', 'b.ex.'), rule('b.ex.', 1, 1, 'E2U+sip')], [ns('ex.')], code=3),
    once(BOTH, [cname('b.ex.', 'c.ex.'), SIP, WEB]),
    once(BOTH, [cname('a.ex.', 'c.ex.', 3), SIP, WEB]),
    '',
    '# Servers and no SOA refer to other servers, where nothing is said of the name',
    once('unserved', [], [ns('sub.ex.')]),
    once('unserved', [cname('b.ex.', 'c.ex.')], [record('sub.ex.', 1, b'\1\2\3\4'), ns('sub.ex.')]),
    once('rules 0', [], [ns('sub.ex.'), soa()]),
    once('rules 0', [], [soa(), ns('sub.ex.')]),
    once('rules 0', [], [ns('sub.ex.', cls=3)]),
    once('rules 0', [ns('a.ex.')], []),
    once('rules 0', [], [], [ns('a.ex.')]),
    once(BOTH, [SIP, WEB], [ns('ex.')]),
    once('rules 0', [], []),
    '',
    '# Codes: REFUSED is that the name is not served, NXDOMAIN is no fault, every other one is a fault of the server',
    once('unserved', [SIP, WEB], code=5),
    once('rules 0', [], [soa()], code=3),
    once(BOTH, [SIP, WEB], code=3),
    once('unserved', [], [ns('sub.ex.')], code=3),
    once('rules 0', [], [soa()], [opt(1)]),
    thrice('trouble Server 2', lambda at: reply(at, [SIP], code=2)),
    thrice('trouble Server 1', lambda at: reply(at, code=1)),
    thrice('trouble Server 4', lambda at: reply(at, code=4)),
    thrice('trouble Server 15', lambda at: reply(at, code=15)),
    case(BOTH, [reply(FIRST, code=2), reply(FIRST + 1, [SIP, WEB])], datagrams(2)),
    '',
    '# What is no message, and what is no reply to the query',
    thrice('trouble BadReply Short 0', lambda at: reply(at)[:22]),
    thrice('trouble BadReply Trailing 22', lambda at: reply(at) + '00'),
    thrice('trouble BadReply ForwardPointer 12',
           lambda at: struct.pack('>HH', at, QR).hex() + '0001000000000000c00c00230001'),
    thrice('trouble WrongReply', lambda at: reply(at + 1, [SIP])),
    thrice('trouble WrongReply', lambda at: reply(FIRST - 1, [SIP])),
    thrice('trouble WrongReply', lambda at: reply(at, [SIP], bits=RD)),
    thrice('trouble WrongReply', lambda at: reply(at, [SIP], bits=QR | 0x0800)),
    thrice('trouble WrongReply', lambda at: reply(at, [SIP], bits=QR | 0x4000)),
    thrice('trouble WrongReply', lambda at: reply(at, [SIP], questions=[])),
    thrice('trouble WrongReply', lambda at: reply(at, [SIP], questions=[question(), question()])),
    thrice('trouble WrongReply', lambda at: reply(at, [SIP], questions=[question('b.ex.')])),
    thrice('trouble WrongReply', lambda at: reply(at, [SIP], questions=[question('x.a.ex.')])),
    thrice('trouble WrongReply', lambda at: reply(at, [SIP], questions=[question(kind=1)])),
    thrice('trouble WrongReply', lambda at: reply(at, [SIP], questions=[question(cls=3)])),
    thrice('trouble WrongReply', lambda at: reply(at, code=5, questions=[])),
    once(BOTH, [SIP, WEB], questions=[question('A.EX.')]),
    once(BOTH, [SIP, WEB], bits=QR | RA),
    once(BOTH, [SIP, WEB], bits=QR | 0x0070),
    case(BOTH, [reply(FIRST + 1), reply(FIRST + 1, [SIP, WEB])], datagrams(2)),
    '',
    '# TC: of a datagram the stream is asked, whatever else it says; on a stream it is no reply',
    case(BOTH, [reply(FIRST, bits=QR | TC), reply(FIRST + 1, [SIP, WEB])], datagrams(1) + streams(1, FIRST + 1)),
    case(BOTH, [reply(FIRST, [SIP], bits=QR | TC), reply(FIRST + 1, [SIP, WEB])],
         datagrams(1) + streams(1, FIRST + 1)),
    case('unserved', [reply(FIRST, bits=QR | TC, code=2), reply(FIRST + 1, code=5)],
         datagrams(1) + streams(1, FIRST + 1)),
    case('trouble WrongReply',
         [reply(FIRST, bits=QR | TC)] + [reply(FIRST + at, [SIP], bits=QR | TC) for at in (1, 2, 3)],
         datagrams(1) + streams(3, FIRST + 1)),
    thrice('trouble WrongReply', lambda at: reply(at + 1, bits=QR | TC)),
    '',
    '# Each way has three tries, and a try after one that failed goes the same way',
    case('trouble LinkFault', ['-', '-', '-', reply(FIRST + 3, [SIP])], datagrams(3)),
    case(BOTH, ['-', '-', reply(FIRST + 2, [SIP, WEB])], datagrams(3)),
    case(BOTH, ['-', '00', reply(FIRST + 2, bits=QR | TC), '-', '00', reply(FIRST + 5, [SIP, WEB])],
         datagrams(3) + streams(3, FIRST + 3)),
    case('trouble Server 2',
         ['-', '00', reply(FIRST + 2, bits=QR | TC), '-', '00', reply(FIRST + 5, code=2), reply(FIRST + 6, [SIP])],
         datagrams(3) + streams(3, FIRST + 3)),
    case('trouble LinkFault', ['00', reply(FIRST + 1, code=2), '-'], datagrams(3)),
    case('trouble BadReply Short 0', ['-', reply(FIRST + 1, code=2), '00'], datagrams(3)),
    '',
    '# Numbers go round',
    case(BOTH, ['-', reply(0, [SIP, WEB])], datagrams(2, 65535), 65535),
    case(BOTH, [reply(65535, bits=QR | TC), '-', reply(1, [SIP, WEB])], datagrams(1, 65535) + streams(2, 0), 65535),
]

for one in CASES:
    if isinstance(one, str):
        print(one)
    elif sys.argv[1:] == ['stdout']:
        print('%s => %s' % one)
    else:
        print(one[0])
