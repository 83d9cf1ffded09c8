#!/usr/bin/env python3
"""The answers of these cases, worked out in another way: python3 registry.py < stdin > stdout

A registry is a list of records here, searched from end to end for each command. Names are compared folded, rules by their
six fields; records are printed in the order of the folded wire forms of their owners, the SOA first.
"""
import re
import sys

ORDER = {"A": 1, "NS": 2, "CNAME": 5, "SOA": 6, "PTR": 12, "MX": 15, "TXT": 16, "AAAA": 28, "SRV": 33, "NAPTR": 35}


def wire(name):
    labels = name.lower().rstrip(".").split(".")
    return b"".join(bytes([len(label)]) + label.encode() for label in labels if label) + b"\0"


def below(name, apex):
    return ("." + name.lower()).endswith("." + apex.lower())


def fields(text):
    """Order, preference, flags, services, regexp, replacement of a rule as a zone text has it."""
    order, preference, rest = text.split(" ", 2)
    quoted = re.findall(r'"((?:[^"\\]|\\.)*)"', rest)
    plain = [one.replace("\\\\", "\\") for one in quoted]
    return (int(order), int(preference), *plain, rest.rsplit(" ", 1)[1])


def rdata(rule):
    order, preference, flags, services, regexp, replacement = rule
    return 4 + 3 + len(flags) + len(services) + len(regexp) + len(wire(replacement))


def regexp_fault(regexp):
    """Of a REGEXP whose expression is well formed: what is wrong with its replacement."""
    mark, at = regexp[0], 1
    parts, start, begun, escaped = [], [1], "", False
    while at < len(regexp):
        byte = regexp[at]
        if escaped:
            begun, escaped = begun + "\\" + byte, False
        elif byte == "\\":
            escaped = True
        elif byte == mark and len(parts) < 2:
            parts.append(begun)
            start.append(at + 1)
            begun = ""
        else:
            begun += byte
        at += 1
    expression, replacement = parts
    groups = re.sub(r"\\.", "", expression).count("(")
    place = start[1]
    while place < start[2] - 1:
        if regexp[place] == "\\":
            digit = regexp[place + 1]
            if digit not in "123456789" and digit not in ("\\", mark):
                return f"Split(BadEscape {{ at: {place} }})"
            if digit.isdigit() and int(digit) > groups:
                return f"NoGroup {{ at: {place} }}"
            place += 1
        place += 1
    return None


def literal(regexp):
    mark = regexp[0]
    replacement = re.split(r"(?<!\\)" + re.escape(mark), regexp[1:])[1]
    front = re.split(r"\\[1-9]", replacement)[0]
    return re.sub(r"\\(.)", r"\1", front)


def fault(app, rule):
    _, _, flags, services, regexp, replacement = rule
    kinds = {"enum": {"u": "uri", "": "step"}, "snaptr": {"s": "name", "a": "name", "": "step"},
             "unaptr": {"s": "name", "a": "name", "u": "uri", "": "step"}}
    kind = kinds[app].get(flags.lower())
    if kind is None:
        return "UnknownFlags"
    if regexp and replacement != ".":
        return "BothFields"
    if not regexp and replacement == ".":
        return "NoField"
    if (kind == "uri" and not regexp) or (kind == "name" and regexp) or (kind == "step" and regexp and app != "enum"):
        return "WrongField"
    if not services and kind != "step":
        return "Services(Empty)"
    if regexp and regexp_fault(regexp):
        return f"Regexp({regexp_fault(regexp)})"
    if kind == "uri" and not re.match(r"[A-Za-z][A-Za-z0-9+.-]*:", literal(regexp)):
        return "NoScheme"
    if app == "unaptr" and kind == "uri" and regexp[1:].split(regexp[0])[0] not in (".*", "^.*$"):
        return "UriForm"
    return None


class Registry:
    def __init__(self, text):
        self.records = []
        for line in text.split("\\n"):
            if line:
                owner, ttl, _, kind, data = line.split(" ", 4)
                self.records.append((owner.lower(), int(ttl), kind, data))
        self.apex = next(one[0] for one in self.records if one[2] == "SOA")

    def at(self, owner, kind=None):
        return [one for one in self.records if one[0] == owner.lower() and kind in (None, one[2])]

    def outside(self, owner):
        cuts = [one[0] for one in self.records if one[2] == "NS" and one[0] != self.apex]
        return not below(owner, self.apex) or any(below(owner, cut) for cut in cuts)

    def rules(self, owner):
        return [fields(one[3]) for one in self.at(owner, "NAPTR")]

    def put(self, owner, kind, data):
        there = self.at(owner, kind)
        self.records.append((owner.lower(), there[0][1] if there else 3600, kind, data))
        return "ok"

    def add(self, app, owner, data):
        rule = fields(data)
        if fault(app, rule):
            return f"IllFormed({fault(app, rule)})"
        if self.outside(owner):
            return "OutsideZone"
        if rule in self.rules(owner):
            return "Duplicate"
        if self.at(owner, "CNAME"):
            return "AliasClash"
        if sum(265 + rdata(one) for one in [*self.rules(owner), rule]) > 60_000:
            return "SetTooLarge"
        return self.put(owner, "NAPTR", data)

    def remove(self, owner, data):
        if self.outside(owner):
            return "OutsideZone"
        for one in self.at(owner, "NAPTR"):
            if fields(one[3]) == fields(data):
                self.records.remove(one)
                return "ok"
        return "Absent"

    def alias(self, owner, target):
        if self.outside(owner):
            return "OutsideZone"
        if self.at(owner, "CNAME"):
            return "Duplicate"
        if self.at(owner):
            return "AliasClash"
        return self.put(owner, "CNAME", target)

    def noalias(self, owner):
        if self.outside(owner):
            return "OutsideZone"
        for one in self.at(owner, "CNAME"):
            self.records.remove(one)
            return "ok"
        return "Absent"

    def fill(self, owner, count):
        for order in range(count):
            answer = self.add("enum", owner, f'{order} 10 "u" "E2U+sip" "!^.*$!sip:info@example.com!" .')
            if answer != "ok":
                return f"{order} {answer}"
        return str(count)

    def show(self):
        def place(one):
            rank = fields(one[3])[:2] if one[2] == "NAPTR" else ()
            return (one[2] != "SOA", wire(one[0]), ORDER[one[2]], rank)

        for owner, ttl, kind, data in sorted(self.records, key=place):
            print(f"  {owner} {ttl} IN {kind} {data}")
        print()


def main():
    app, registry = "enum", None
    for line in sys.stdin.read().splitlines():
        verb, _, rest = line.partition(" ")
        owner, _, data = rest.partition(" ")
        answer = None
        if verb == "zone":
            registry = Registry(rest)
        elif verb in ("enum", "snaptr", "unaptr"):
            app = verb
        elif verb == "add":
            answer = registry.add(app, owner, data)
        elif verb == "remove":
            answer = registry.remove(owner, data)
        elif verb == "alias":
            answer = registry.alias(owner, data)
        elif verb == "noalias":
            answer = registry.noalias(owner)
        elif verb == "fill":
            answer = registry.fill(owner, int(data))
        elif verb == "rules":
            answer = len(registry.rules(owner))
        print(line if answer is None else f"{line} => {answer}")
        if verb == "show":
            registry.show()


main()
