"""The files that `bench/run` times programs over. They are the same in each run."""
import random

HEAD = """$ORIGIN {origin}
$TTL 3600
@ SOA ns.example. host.example. 1 7200 900 604800 300
@ NS ns.example.
"""
RULE = 'NAPTR 100 10 "u" "E2U+sip" "!^.*$!sip:{number}@example.com!" .'
COUNTRIES = ["44", "33", "49", "41"]


def turned(digits):
    """The labels of digits: the last one first."""
    return ".".join(reversed(digits))


def origin(country):
    return turned(country) + ".e164.arpa."


def rules(country, numbers):
    """A zone text with a rule for each number, which stands without its country."""
    lines = [f"{turned(number)} {RULE.format(number=country + number)}\n" for number in numbers]
    return HEAD.format(origin=origin(country)) + "".join(lines)


def loads():
    """The files of the table of loading, by what they hold, each with a number in it."""
    order = random.Random(1)
    made = {}
    for count in (1000, 25_000, 100_000):
        block = [f"20{number:08d}" for number in range(70_000_000, 70_000_000 + count - 2)]
        if count == 100_000:
            made[f"{count:,}, a block in rising order"] = (rules("44", block), "+44" + block[-1])
        mixed = block[:]
        order.shuffle(mixed)
        made[f"{count:,}, a block in random order"] = (rules("44", mixed), "+44" + mixed[-1])
    for count in (25_000, 100_000):
        numbers = [f"20{number:08d}" for number in order.sample(range(10**8), count - 2)]
        made[f"{count:,}, scattered"] = (rules("44", numbers), "+44" + numbers[-1])
    return made


def look_zone(country, count, seed):
    """A zone of scattered numbers, a hundredth wildcards and a hundredth cuts, and names of five kinds."""
    order = random.Random(seed)
    few = count // 100
    numbers = [f"20{number:08d}" for number in order.sample(range(10**8), count - 2 - 2 * few)]
    text = rules(country, numbers)
    text += "".join(f"*.{turned(f'1{number:06d}')} {RULE.format(number='any')}\n" for number in range(few))
    text += "".join(f"{turned(f'7{number:06d}')} NS ns.other.\n" for number in range(few))
    under = "." + origin(country)
    held = set(numbers)
    names = {
        "an owner": [turned(order.choice(numbers)) for _ in range(1000)],
        "under a wildcard": [turned(f"1{order.randrange(few):06d}{order.randrange(10**4):04d}") for _ in range(1000)],
        "an empty non-terminal": [turned(order.choice(numbers)[:9]) for _ in range(1000)],
        "below a cut": [turned(f"7{order.randrange(few):06d}{order.randrange(10**4):04d}") for _ in range(1000)],
        "no such name": [],
    }
    while len(names["no such name"]) < 1000:
        number = f"20{order.randrange(10**8):08d}"
        if number not in held:
            names["no such name"].append(turned(number))
    return text, {kind: [name + under for name in listed] for kind, listed in names.items()}


def looks(count):
    """Zone texts of so many records together, at most 100,000 each, and 1,000 names of each kind, in random order."""
    texts, names = [], {}
    parts = max(1, count // 100_000)
    for country in COUNTRIES[:parts]:
        text, listed = look_zone(country, count // parts, len(texts))
        texts.append(text)
        for kind, some in listed.items():
            names.setdefault(kind, []).extend(some)
    order = random.Random(2)
    return texts, {kind: order.sample(some, 1000) for kind, some in names.items()}


def many_numbers(count):
    """Two zones and numbers: one rule, two, a step into the other zone, and a CNAME to the number before, in turn."""
    lines, numbers = [], []
    for place in range(count):
        number = f"20{place:08d}"
        numbers.append("+44" + number)
        owner = turned(number)
        rule = f'NAPTR 100 10 "u" "E2U+sip" "!^.*$!sip:u{place}@example.com!" .'
        if place % 4 < 2:
            lines.append(f"{owner} {rule}\n")
        if place % 4 == 1:
            lines.append(f'{owner} NAPTR 100 20 "u" "E2U+email:mailto" "!^.*$!mailto:u{place}@example.com!" .\n')
        if place % 4 == 2:
            lines.append(f'{owner} NAPTR 100 10 "" "" "" p{place % 16}.pool.example.\n')
        if place % 4 == 3:
            lines.append(f"{owner} CNAME {turned(f'20{place - 1:08d}')}\n")
    pool = "".join(
        f'p{place} NAPTR 100 10 "u" "E2U+sip" "!^\\\\+(.*)$!sip:\\\\1@pool.example!" .\n' for place in range(16)
    )
    main = HEAD.format(origin="4.4.e164.arpa.") + "".join(lines)
    return [main, HEAD.format(origin="pool.example.") + pool], numbers


def chain(count):
    """So many CNAMEs one after another, the last to a name with a rule."""
    lines = [f"1 CNAME a1\n"] + [f"a{place} CNAME a{place + 1}\n" for place in range(1, count)]
    return HEAD.format(origin="4.4.e164.arpa.") + "".join(lines) + f"a{count} {RULE.format(number='end')}\n"


def tree(count):
    """A tree of so many rules: each domain has two steps, and the outermost have an end each."""
    lines, inner = [], count // 3
    for place in range(1, inner + 1):
        owner = "1" if place == 1 else f"t{place}"
        for turn in (0, 1):
            lines.append(f'{owner} NAPTR 100 {10 * turn + 10} "" "" "" t{2 * place + turn}\n')
    for place in range(inner + 1, 2 * inner + 2):
        lines.append(f"t{place} {RULE.format(number=f't{place}')}\n")
    return HEAD.format(origin="4.4.e164.arpa.") + "".join(lines)
