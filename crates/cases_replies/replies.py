#!/usr/bin/env python3
"""Works out the cases of replies: writes the files stdin and stdout beside it.

It has its own zones, look-up and messages, and takes nothing from the program.
"""
import os
import re
import struct

HERE = os.path.dirname(os.path.abspath(__file__))
A, NS, CNAME, SOA, TXT, AAAA, NAPTR, OPT, ANY = 1, 2, 5, 6, 16, 28, 35, 41, 255
WORD = {1: "A", 2: "NS", 5: "CNAME", 6: "SOA", 12: "PTR", 15: "MX", 16: "TXT", 28: "AAAA", 33: "SRV", 35: "NAPTR", 41: "OPT"}


def labels(text):
    return [] if text == "." else text[:-1].split(".")


def wire(text):
    return b"".join(bytes([len(x)]) + x.encode() for x in labels(text)) + b"\0"


def below(name, top):
    one, other = labels(name.lower()), labels(top.lower())
    return one[len(one) - len(other):] == other


class Record:
    def __init__(self, owner, ttl, kind, data):
        self.owner, self.ttl, self.kind, self.data = owner, ttl, kind, data
        self.rdata = rdata(kind, data)

    def wire(self):
        return wire(self.owner) + struct.pack(">HHIH", self.kind, 1, self.ttl, len(self.rdata)) + self.rdata

    def again(self, owner=None, ttl=None):
        return Record(owner or self.owner, self.ttl if ttl is None else ttl, self.kind, self.data)

    def fields(self):
        if self.kind in (NS, CNAME):
            return self.data
        if self.kind == A:
            return self.data
        if self.kind == AAAA:
            return ":".join("%x" % n for n in struct.unpack(">8H", self.rdata))
        if self.kind == SOA:
            return self.data
        if self.kind == TXT:
            return " ".join('"%s"' % t for t in self.data)
        return self.data

    def text(self):
        data = self.fields()
        if self.kind == TXT:
            data = " ".join('"%s"' % re.sub(r"(.)\1{9,}", lambda run: "<%d*%s>" % (len(run[0]), run[1]), t) for t in self.data)
        return "%s %d IN %s %s" % (self.owner, self.ttl, WORD[self.kind], data)


def rdata(kind, data):
    if kind == A:
        return bytes(int(x) for x in data.split("."))
    if kind == AAAA:
        return b"".join(struct.pack(">H", int(x, 16)) for x in data.split(":"))
    if kind in (NS, CNAME):
        return wire(data)
    if kind == SOA:
        parts = data.split(" ")
        return wire(parts[0]) + wire(parts[1]) + struct.pack(">5I", *map(int, parts[2:]))
    if kind == TXT:
        return b"".join(bytes([len(t)]) + t.encode() for t in data)
    if kind == NAPTR:
        order, preference, flags, services, regexp, name = data.split(" ")
        texts = [x.strip('"') for x in (flags, services, regexp)]
        return struct.pack(">HH", int(order), int(preference)) + b"".join(bytes([len(t)]) + t.encode() for t in texts) + wire(name)
    raise ValueError(kind)


def zone(*records):
    apex = [r for r in records if r.kind == SOA][0].owner
    return apex, [r.again(owner=r.owner.lower()) for r in records]


def sets(zone, owner, kind):
    found = [r for r in zone[1] if r.owner == owner.lower() and (kind is None or r.kind == kind)]
    return sorted(found, key=lambda r: (r.kind, r.rdata))


def exists(zone, name):
    return any(below(r.owner, name) for r in zone[1]) or name.lower() == zone[0]


def parent(name):
    rest = labels(name)[1:]
    return ".".join(rest) + "." if rest else "."


def look(zones, name, kind):
    fit = [z for z in zones if below(name, z[0])]
    if not fit:
        return "outside", None, None
    best = max(fit, key=lambda z: len(labels(z[0])))
    above = [name]
    while above[-1].lower() != best[0]:
        above.append(parent(above[-1]))
    for cut in reversed(above[:-1]):
        if sets(best, cut, NS):
            return "cut", sets(best, cut, NS), best
    start = [r for r in best[1] if r.kind == SOA][0]
    source = name
    if not exists(best, name):
        encloser = next(n for n in above if exists(best, n))
        source = "*." + encloser if encloser != "." else "*."
        if not exists(best, source):
            return "no name", start, best
    if kind not in (CNAME, ANY) and sets(best, source, CNAME):
        return "alias", sets(best, source, CNAME), best
    here = sets(best, source, None if kind == ANY else kind)
    if not here:
        return "no set", start, best
    return "set", [r for r in here if r.kind == here[0].kind], best


def negative(start):
    return start.again(ttl=min(start.ttl, int(start.data.split(" ")[-1])))


def added(zones, name, kind):
    """AA, code, answers, authority, glue."""
    what, found, where = look(zones, name, kind)
    aa = what not in ("outside", "cut")
    seen, answers = [name.lower()], []
    if what == "outside":
        return aa, 5, [], [], []
    followed = 0
    while True:
        if what == "outside":
            return aa, 0, answers, [], []
        if what == "cut":
            glue = []
            for server in found:
                if below(server.data, found[0].owner):
                    glue += sets(where, server.data, A) + sets(where, server.data, AAAA)
            return aa, 0, answers, found, glue
        if what == "set":
            return aa, 0, answers + [r.again(owner=name) for r in found], [], []
        if what == "no set":
            return aa, 0, answers, [negative(found)], []
        if what == "no name":
            return aa, 3, answers, [negative(found)], []
        answers.append(found[0].again(owner=name))
        name = found[0].data
        if followed == 8 or name.lower() in seen:
            return aa, 0, answers, [], []
        followed += 1
        seen.append(name.lower())
        what, found, where = look(zones, name, kind)


def message(number, bits, question, answers, authority, glue, opt):
    head = struct.pack(">6H", number, bits, len(question), len(answers), len(authority), len(glue) + len(opt))
    body = b"".join(wire(n) + struct.pack(">HH", k, c) for n, k, c in question)
    return head + body + b"".join(r.wire() for r in answers + authority + glue) + b"".join(opt)


class Reply:
    def __init__(self, zones, way, number, query_bits, question, opt_class=None, version=0):
        name, kind, class_ = question
        self.question = [question]
        self.code, self.answers, self.authority, self.glue, aa = 0, [], [], [], False
        extended = 0
        if version:
            extended = 1
        elif class_ != 1 or kind == OPT or 249 <= kind <= 254:
            self.code = 5
        else:
            aa, self.code, self.answers, self.authority, self.glue = added(zones, name, kind)
        self.opt = [] if opt_class is None else [b"\0" + struct.pack(">HHIH", OPT, 4096, extended << 24, 0)]
        self.extended = extended
        limit = 65535 if way == "stream" else 512 if opt_class is None else max(512, min(4096, opt_class))
        self.number = number
        self.bits = 0x8000 | query_bits & 0x7900 | (0x400 if aa else 0) | self.code
        if len(self.wire()) > limit:
            self.glue = []
        if len(self.wire()) > limit:
            self.answers, self.authority = [], []
            self.bits |= 0x200

    def wire(self):
        return message(self.number, self.bits, self.question, self.answers, self.authority, self.glue, self.opt)

    def lines(self):
        out = ["message %d %04x %d %d %d %d" % (self.number, self.bits, len(self.question), len(self.answers), len(self.authority), len(self.glue) + len(self.opt))]
        for name, kind, class_ in self.question:
            out.append("question %s %s %d" % (name.lower(), WORD.get(kind, "TYPE%d" % kind), class_))
        for section, records in (("answer", self.answers), ("authority", self.authority), ("additional", self.glue)):
            for r in records:
                out.append("%s %s %d 1 %s %s" % (section, r.owner.lower(), r.ttl, WORD[r.kind], r.fields()))
        if self.opt:
            out.append("additional . %d 4096 OPT -" % (self.extended << 24))
        return out


def txt(size):
    """Character-strings whose RDATA has that many bytes."""
    out = []
    while size > 0:
        step = min(size, 256)
        if size - step == 1:
            step -= 1
        out.append("x" * (step - 1))
        size -= step
    return out


SOA_DATA = "ns.ex. host.ex. 1 7200 900 604800 300"


def sized(name, total, extra):
    """A TXT record by which a reply to a question for it has so many bytes."""
    return Record(name, 60, TXT, txt(total - 12 - (len(wire(name)) + 4) - (len(wire(name)) + 10) - extra))


def main_zone():
    r = Record
    out = [
        r("ex.", 3600, SOA, SOA_DATA),
        r("ex.", 3600, NS, "ns.ex."), r("ex.", 3600, NS, "ns.other."),
        r("ns.ex.", 3600, A, "192.0.2.1"), r("ns.ex.", 3600, AAAA, "2001:db8:0:0:0:0:0:1"),
        r("www.ex.", 60, A, "192.0.2.3"), r("www.ex.", 60, A, "192.0.2.2"),
        r("www.ex.", 60, TXT, ["hello"]),
        r("r.ex.", 60, NAPTR, '100 10 "u" "E2U+sip" "!^.*$!sip:a@ex!" .'),
        r("to.ex.", 60, CNAME, "WwW.ex."),
        r("far.ex.", 60, CNAME, "x.nowhere."),
        r("gone.ex.", 60, CNAME, "None.ex."),
        r("bare.ex.", 60, CNAME, "ns.ex."),
        r("self.ex.", 60, CNAME, "SELF.ex."),
        r("l1.ex.", 60, CNAME, "L2.ex."), r("l2.ex.", 60, CNAME, "l1.ex."),
        r("deep.ex.", 60, CNAME, "A.sub.ex."),
        r("over.ex.", 60, CNAME, "www.two."),
    ]
    out += [r("c%d.ex." % k, 60, CNAME, "C%d.ex." % (k + 1)) for k in range(1, 11)]
    out += [r("c11.ex.", 60, A, "192.0.2.11")]
    # a cut, with servers below it, above it, in another zone and elsewhere
    out += [r("sub.ex.", 300, NS, x) for x in ("ns.sub.ex.", "NS2.Sub.ex.", "ns.ex.", "ns.in.sub.ex.", "ns.other.")]
    out += [
        r("ns.sub.ex.", 60, A, "192.0.2.20"), r("ns.sub.ex.", 60, A, "192.0.2.19"), r("ns.sub.ex.", 60, AAAA, "2001:db8:0:0:0:0:0:20"),
        r("ns2.sub.ex.", 60, AAAA, "2001:db8:0:0:0:0:0:21"),
        r("a.sub.ex.", 60, A, "192.0.2.99"),
        r("low.sub.ex.", 60, NS, "ns.low.sub.ex."),
    ]
    # wildcards
    out += [
        r("*.w.ex.", 60, A, "192.0.2.30"), r("*.w.ex.", 60, TXT, ["any"]),
        r("y.w.ex.", 60, TXT, ["y"]), r("a.e.w.ex.", 60, A, "192.0.2.31"),
        r("cut.w.ex.", 60, NS, "ns.cut.w.ex."), r("ns.cut.w.ex.", 60, A, "192.0.2.32"),
        r("*.v.ex.", 60, CNAME, "Www.ex."),
    ]
    # sizes
    out += [
        sized("p512.ex.", 512, 0), sized("p513.ex.", 513, 0), sized("o512.ex.", 512, 11), sized("o513.ex.", 513, 11),
        sized("o1232.ex.", 1232, 11), sized("o1233.ex.", 1233, 11), sized("o4096.ex.", 4096, 11), sized("o4097.ex.", 4097, 11),
        sized("s9000.ex.", 9000, 0),
    ]
    # a cut whose glue does not fit 512 bytes, and one whose servers do not
    for k in range(8):
        out.append(r("g.ex.", 60, NS, "n%d.g.ex." % k))
        out.append(r("n%d.g.ex." % k, 60, A, "192.0.2.%d" % (40 + k)))
        out.append(r("n%d.g.ex." % k, 60, AAAA, "2001:db8:0:0:0:0:0:%x" % (64 + k)))
    out += [r("h.ex.", 60, NS, "n%d.%s.ex." % (k, "h" * 50)) for k in range(7)]
    # a set near the bound on sets: 108 records of 265 and 290
    out += [r("big.ex.", 60, TXT, ["%03d" % k + "b" * 250, "c" * 35]) for k in range(108)]
    return zone(*out)


def other_zones():
    r = Record
    two = zone(
        r("two.", 60, SOA, "ns.two. host.two. 1 2 3 4 86400"), r("two.", 60, NS, "ns.two."), r("www.two.", 60, A, "192.0.2.70"))
    inner = zone(
        r("in.sub.ex.", 60, SOA, "ns.in.sub.ex. host.ex. 1 2 3 4 5"), r("in.sub.ex.", 60, NS, "ns.in.sub.ex."),
        r("ns.in.sub.ex.", 60, A, "192.0.2.80"))
    rules = zone(
        r("4.4.e164.arpa.", 3600, SOA, "ns.example. host.example. 1 7200 900 604800 300"), r("4.4.e164.arpa.", 3600, NS, "ns.example."),
        *[r("2.4.4.e164.arpa.", 3600, NAPTR, '100 %d "u" "E2U+sip" "!^.*$!sip:%s!" .' % (k, "a" * 93)) for k in range(1, 13)])
    return [two, inner, rules]


ZONES = [main_zone()] + other_zones()
CASES, ANSWERS = [], []


def heading(text):
    for out in (CASES, ANSWERS):
        if out:
            out.append("")
        out.append("# " + text)


def put(case, answer):
    CASES.append(case)
    ANSWERS.append(case + answer)


def ask(way, size, name, kind, verb="ask"):
    reply = Reply(ZONES, way, 4660, 0x100, (name, kind, 1), None if size == "-" else int(size))
    lines = reply.lines()
    if verb == "size":
        lines = lines[:1]
    put("%s %s %s %s %d" % (verb, way, size, name, kind), "".join("\n  " + x for x in lines + ["%d bytes" % len(reply.wire())]))


def raw(way, query, answer):
    put("bytes %s %s" % (way, query), " => " + answer)


def head(bits, counts):
    return "1234%04x%s" % (bits, "".join("%04x" % x for x in counts))


def question(name, kind, class_=1):
    return (wire(name) + struct.pack(">HH", kind, class_)).hex()


def options(owner=b"\0", class_=1232, ttl=0, data=b""):
    return (owner + struct.pack(">HHIH", OPT, class_, ttl, len(data)) + data).hex()


def main():
    heading("The zones")
    for apex, records in ZONES:
        put("zone " + "".join(r.text() + "\\n" for r in records), " => added")
    heading("A query and its reply, whole (the SOA's time is its MINIMUM)")
    raw("datagram", "123401200001000000000001" "01340134046531363404617270610000230001" "00002904d000000000000c000a00080102030405060708",
        "123485000001000000010001" "01340134046531363404617270610000230001" "013401340465313634046172706100000600010000012c002e"
        "026e73076578616d706c6500" "04686f7374076578616d706c6500" "0000000100001c200000038400093a800000012c" "0000291000000000000000")
    raw("datagram", "123401000001000000000000c00c00230001", "123481010000000000000000")
    heading("What is no query")
    for query in ("", "123401000001000000000000"[:22], "12348100000000000000", "123481000001000000000000" + question("ex.", 6), "1234ffff0000000000000000"):
        raw("datagram", query, "silent")
        raw("stream", query, "silent")
    heading("What does not decode: FORMERR with a header alone, whatever the rest says")
    for bits in (0x0100, 0x0000, 0x7900, 0x2910, 0x7fff):
        raw("datagram", head(bits, (1, 0, 0, 0)), head(0x8001 | bits & 0x7900, (0, 0, 0, 0)))
    raw("stream", head(0x0100, (1, 0, 0, 1)) + question("ex.", 6) + options() + "00", head(0x8101, (0, 0, 0, 0)))
    raw("stream", head(0x0100, (1, 0, 0, 0)) + question("ex.", 6) + "00", head(0x8101, (0, 0, 0, 0)))
    heading("A query cut after so many bytes: nothing is said before the header is whole, then FORMERR")
    query = "123401200001000000000001" "01340134046531363404617270610000230001" "00002904d000000000000c000a00080102030405060708"
    for size in range(len(query) // 2):
        raw("datagram", query[:2 * size], "silent" if size < 12 else "123481010000000000000000")
    heading("Names by pointers: the owner of options is the root by a pointer, or another name; a pointer to itself is no name")
    reply = Reply(ZONES, "datagram", 0x1234, 0, ("ex.", SOA, 1), 1232)
    raw("datagram", head(0, (1, 0, 0, 1)) + question("ex.", SOA) + options(owner=b"\xc0\x0f"), reply.wire().hex())
    raw("datagram", head(0, (1, 0, 0, 1)) + question("ex.", SOA) + options(owner=b"\xc0\x0c"), head(0x8001, (0, 0, 0, 0)))
    raw("datagram", head(0, (1, 0, 0, 1)) + question("ex.", SOA) + options(owner=b"\xc0\x14"), head(0x8001, (0, 0, 0, 0)))
    heading("Options that stray: FORMERR with a header alone, before the opcode is looked at")
    q = question("ex.", 6)
    for bits in (0x0100, 0x1100):
        for counts, tail in (((1, 1, 0, 0), options()), ((1, 0, 1, 0), options()), ((1, 0, 0, 2), options() * 2),
                             ((1, 0, 0, 1), options(owner=wire("a."))), ((1, 1, 0, 1), options() * 2)):
            raw("datagram", head(bits, counts) + q + tail, head(0x8001 | bits & 0x7900, (0, 0, 0, 0)))
    heading("Another opcode: NOTIMP, and options where the query has some")
    back = "0000291000000000000000"
    for bits in (0x0800, 0x1100, 0x2800, 0x7800):
        raw("datagram", head(bits, (1, 0, 0, 0)) + q, head(0x8004 | bits & 0x7900, (0, 0, 0, 0)))
    raw("datagram", head(0x2900, (1, 0, 0, 1)) + q + options(), head(0xa904, (0, 0, 0, 1)) + back)
    raw("stream", head(0x2900, (0, 0, 0, 0)), head(0xa904, (0, 0, 0, 0)))
    heading("Not exactly one question: FORMERR")
    raw("datagram", head(0x0100, (0, 0, 0, 0)), head(0x8101, (0, 0, 0, 0)))
    raw("datagram", head(0x0100, (0, 0, 0, 1)) + options(), head(0x8101, (0, 0, 0, 1)) + back)
    raw("datagram", head(0x0000, (2, 0, 0, 0)) + q * 2, head(0x8001, (0, 0, 0, 0)))
    raw("stream", head(0x0000, (2, 0, 0, 1)) + q * 2 + options(), head(0x8001, (0, 0, 0, 1)) + back)
    heading("Another version of options: BADVERS, whose high bits stand in the options, before class and type are looked at")
    for name, kind, class_ in (("ex.", 6, 1), ("www.EX.", 1, 1), ("ex.", 6, 3), ("ex.", 252, 1), ("x.nowhere.", 1, 1)):
        for ttl in (0x00010000, 0x05ff8000):
            raw("datagram", head(0x0100, (1, 0, 0, 1)) + question(name, kind, class_) + options(ttl=ttl),
                head(0x8100, (1, 0, 0, 1)) + question(name, kind, class_) + "0000291000010000000000")
    raw("datagram", head(0x0100, (2, 0, 0, 1)) + q * 2 + options(ttl=0x00010000), head(0x8101, (0, 0, 0, 1)) + back)
    heading("Another class, and types that are not looked up: REFUSED, without AA")
    for kind, class_ in ((6, 3), (6, 0), (6, 255), (41, 1), (249, 1), (250, 1), (251, 1), (252, 1), (253, 1), (254, 1)):
        raw("datagram", head(0x0100, (1, 0, 0, 0)) + question("ex.", kind, class_), head(0x8105, (1, 0, 0, 0)) + question("ex.", kind, class_))
    raw("stream", head(0x0000, (1, 0, 0, 1)) + question("Ex.", 41) + options(ttl=0xff008000, data=b"xyz"), head(0x8005, (1, 0, 0, 1)) + question("Ex.", 41) + back)
    heading("Records of a query are passed over, ill-formed options too")
    record = (wire("a.") + struct.pack(">HHIH", 1, 1, 60, 4) + b"\1\2\3\4").hex()
    reply = Reply(ZONES, "datagram", 0x1234, 0x0100, ("r.ex.", NAPTR, 1))
    raw("datagram", head(0x0100, (1, 1, 1, 1)) + question("r.ex.", NAPTR) + record * 3, reply.wire().hex())
    reply = Reply(ZONES, "datagram", 0x1234, 0x0000, ("r.ex.", NAPTR, 1), 0)
    raw("datagram", head(0x0000, (1, 0, 0, 2)) + question("r.ex.", NAPTR) + record + options(class_=0, data=b"\0\1"), reply.wire().hex())
    heading("Bits: those of the query but for opcode and RD are passed over")
    for bits in (0x0000, 0x0100, 0x0700, 0x00ff, 0x0480):
        reply = Reply(ZONES, "datagram", 0x1234, bits, ("to.ex.", TXT, 1))
        raw("datagram", head(bits, (1, 0, 0, 0)) + question("to.ex.", TXT), reply.wire().hex())
    heading("Owners stand as they were asked, and as the alias before has them; the authority is folded")
    for name, kind in (("TO.eX.", A), ("WWW.ex.", A), ("Gone.Ex.", A), ("NO.ex.", A), ("x.V.ex.", A), ("Q.W.EX.", TXT), ("Z.SUB.EX.", A), ("EX.", SOA)):
        reply = Reply(ZONES, "stream", 0x1234, 0, (name, kind, 1))
        raw("stream", head(0, (1, 0, 0, 0)) + question(name, kind), reply.wire().hex())
    heading("Sets, in the order of RDATA; for all types that of the least")
    for name, kind in (("www.ex.", A), ("www.ex.", TXT), ("www.ex.", ANY), ("ex.", SOA), ("ex.", NS), ("ex.", ANY), ("r.ex.", NAPTR), ("r.ex.", ANY), ("to.ex.", CNAME), ("to.ex.", ANY)):
        ask("datagram", "-", name, kind)
    ask("datagram", "1232", "www.ex.", A)
    heading("No set, and no name: the SOA, whose time is the lesser of its own and MINIMUM")
    for name, kind in (("www.ex.", AAAA), ("e.w.ex.", A), ("v.ex.", A), ("no.ex.", A), ("a.no.ex.", ANY), ("no.two.", A), ("www.two.", 99), ("two.", 43), ("z.www.ex.", 1)):
        ask("datagram", "-", name, kind)
    ask("stream", "4096", "no.ex.", SOA)
    heading("No zone: REFUSED")
    for name, kind in (("nowhere.", A), (".", NS), ("ex.nowhere.", ANY)):
        ask("datagram", "-", name, kind)
    ask("datagram", "512", "nowhere.", A)
    heading("Cuts: without AA; the addresses of servers below the cut, from the zone of the cut alone")
    for name, kind in (("sub.ex.", A), ("sub.ex.", NS), ("SUB.ex.", ANY), ("sub.ex.", 43), ("a.sub.ex.", A), ("ns.sub.ex.", A), ("x.low.sub.ex.", A), ("cut.w.ex.", A), ("q.cut.w.ex.", TXT)):
        ask("stream", "-", name, kind)
    ask("stream", "-", "ns.in.sub.ex.", A)
    ask("stream", "-", "in.sub.ex.", NS)
    heading("Wildcards, and names that exist beside them")
    for name, kind in (("q.w.ex.", A), ("q.q.w.ex.", TXT), ("q.w.ex.", AAAA), ("q.w.ex.", ANY), ("y.w.ex.", A), ("y.w.ex.", TXT), ("q.y.w.ex.", A), ("e.w.ex.", TXT), ("q.e.w.ex.", A), ("*.w.ex.", A), ("q.*.w.ex.", A), ("q.v.ex.", A), ("q.v.ex.", CNAME)):
        ask("datagram", "-", name, kind)
    heading("Aliases")
    for name, kind in (("to.ex.", A), ("to.ex.", AAAA), ("far.ex.", A), ("gone.ex.", A), ("bare.ex.", TXT), ("bare.ex.", AAAA), ("self.ex.", A), ("l1.ex.", A), ("l2.ex.", A), ("deep.ex.", A), ("over.ex.", A), ("over.ex.", AAAA)):
        ask("datagram", "4096", name, kind)
    heading("Eight aliases are followed, and the ninth is told alone")
    for name in ("c11.ex.", "c4.ex.", "c3.ex.", "c2.ex.", "c1.ex."):
        ask("datagram", "-", name, A)
    heading("Sizes: 512 bytes, or what the options say within 512 to 4,096; those of the reply have 11")
    for name in ("p512.ex.", "p513.ex.", "o512.ex.", "o513.ex."):
        for size in ("-", "0", "512", "513"):
            ask("datagram", size, name, TXT, "size")
        ask("stream", "-", name, TXT, "size")
    for size in ("1231", "1232", "1233"):
        ask("datagram", size, "o1232.ex.", TXT, "size")
        ask("datagram", size, "o1233.ex.", TXT, "size")
    for size in ("4095", "4096", "4097", "65535"):
        ask("datagram", size, "o4096.ex.", TXT, "size")
        ask("datagram", size, "o4097.ex.", TXT, "size")
    for way, size in (("datagram", "65535"), ("stream", "0"), ("stream", "-")):
        ask(way, size, "s9000.ex.", TXT, "size")
    for way, size in (("datagram", "-"), ("stream", "-"), ("stream", "4096")):
        ask(way, size, "big.ex.", TXT, "size")
        ask(way, size, "2.4.4.e164.arpa.", NAPTR, "size")
    heading("Past the limit the glue goes first, without TC; then all but the question, and AA and the code stay")
    for way, size in (("datagram", "-"), ("datagram", "512"), ("datagram", "1232"), ("stream", "-")):
        ask(way, size, "g.ex.", A)
        ask(way, size, "h.ex.", A, "size")
    heading("A link to the zones: exchanges are counted, one that fails too; `aim` is call 0; 11 bytes are no query")
    size = len(Reply(ZONES, "stream", 4660, 0x100, ("ex.", SOA, 1)).wire())
    for case, answer in (
            ("- aim datagram stream", "0 bytes, %d bytes, %d bytes; exchanges 2, faults 0" % (size, size)),
            ("0 aim datagram", "failed, %d bytes; exchanges 1, faults 1" % size),
            ("2 datagram datagram stream", "%d bytes, failed, %d bytes; exchanges 3, faults 1" % (size, size)),
            ("1,3 datagram aim datagram datagram silent datagram", "failed, 0 bytes, %d bytes, failed, failed, %d bytes; exchanges 5, faults 3" % (size, size))):
        put("link " + case, " => " + answer)
    for name, out in (("stdin", CASES), ("stdout", ANSWERS)):
        with open(os.path.join(HERE, name), "w") as file:
            file.write("\n".join(out) + "\n")
    print(sum(1 for x in CASES if x and x[0] != "#"), "cases")


main()
