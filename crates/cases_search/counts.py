#!/usr/bin/env python3
"""Writes what `cases_search` has to print for its `stdin`, by a search of its own.

    python3 counts.py < stdin > stdout

The zones and names are those of the program: the same generator, drawn from in the same order. The search is another one:
names are lists of labels, and the wildcard is found by RFC 4592, 3.3.1, from the closest encloser.
"""
import sys
from collections import Counter

LABELS = ["a", "b", "c", "*"]
APEXES = [[], ["z"], ["a", "z"], ["b", "a", "z"], ["y"]]
KINDS = [1, 2, 5, 16, 35]
ASKED = [1, 2, 5, 6, 16, 28, 35, 255]
CASES = ["outside", "cut", "alias", "set", "no set", "no name"]


class Random:
    def __init__(self, seed):
        self.state = seed

    def below(self, bound):
        self.state = (self.state * 6364136223846793005 + 1442695040888963407) % 2**64
        return (self.state >> 33) % bound


def name_under(random, above, most):
    name = above
    for _ in range(random.below(most + 1)):
        name = [LABELS[random.below(4)]] + name
    return name


def spelt(random, name):
    for _ in "".join(label + "." for label in name):
        random.below(2)


def zone_at(random, apex):
    records = [(apex, 6)]
    for _ in range(random.below(20)):
        owner = name_under(random, apex, 3)
        kind = KINDS[random.below(5)]
        if kind == 2 and owner[:1] == ["*"]:
            kind = 16
        there = {other for name, other in records if name == owner}
        if not (there and (kind == 5 or 5 in there)):
            records.append((owner, kind))
    return apex, records


def zones_of(random):
    zones = []
    for _ in range(random.below(3) + 1):
        apex = APEXES[random.below(5)]
        zone = zone_at(random, apex)
        if all(apex != other for other, _ in zones):
            zones.append(zone)
    for _, records in zones:
        for owner, _ in records:
            spelt(random, owner)
            random.below(2)
    return zones


def asked_name(random, zones):
    way = random.below(6)
    if way == 0:
        return name_under(random, APEXES[random.below(5)], 3)
    _, records = zones[random.below(len(zones))]
    owner = records[random.below(len(records))][0]
    if way == 1:
        return owner[1:]
    return owner if way == 2 else name_under(random, owner, 2)


def suffixes(name):
    return [name[at:] for at in range(len(name), -1, -1)]


def found(zones, name, kind):
    above = suffixes(name)
    deciding = [zone for zone in zones if zone[0] in above]
    if not deciding:
        return "outside"
    apex, records = max(deciding, key=lambda zone: len(zone[0]))
    types = {}
    for owner, other in records:
        types.setdefault(tuple(owner), set()).add(other)
    if any(len(at) > len(apex) and 2 in types.get(tuple(at), ()) for at in above):
        return "cut"
    existing = {tuple(at) for owner in types for at in suffixes(list(owner)) if len(at) >= len(apex)}
    source = tuple(name)
    if source not in existing:
        encloser = max((at for at in above if tuple(at) in existing), key=len)
        source = ("*", *encloser)
        if source not in existing:
            return "no name"
    here = types.get(source, set())
    if kind not in (5, 255) and 5 in here:
        return "alias"
    return "set" if kind in here or (kind == 255 and here) else "no set"


def main():
    for line in sys.stdin:
        line = line.rstrip("\n")
        if not line.startswith("search "):
            print(line)
            continue
        seed, sets, looks = (int(word) for word in line.split()[1:])
        random, counts = Random(seed), Counter()
        for _ in range(sets):
            zones = zones_of(random)
            for _ in range(looks):
                name = asked_name(random, zones)
                kind = ASKED[random.below(8)]
                spelt(random, name)
                counts[found(zones, name, kind)] += 1
        print(line, "=>", ", ".join(f"{case} {counts[case]}" for case in CASES))


main()
