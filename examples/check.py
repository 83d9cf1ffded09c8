#!/usr/bin/env python3
"""Runs the blocks of README.md and the examples of docs/enumd.1, and compares what they print.

    python3 examples/check.py [--enumd PROGRAM] [--all] [--only WORD]

The program is crates/enumd/out/enumd, or that of --enumd. Blocks run in a folder of their own that is removed at the
end. One that wants a tool which is not there is skipped; the two that build the program run with --all alone. --only
takes the blocks that hold a word. A server, where a block wants one, is nsd on 127.0.0.1, and ends with the block.

A comment before a block says what it wants:

    <!-- check: needs TOOL ..     tools, besides a shell
         python MODULE            a Python with that module stands for python3
         server ZONE FILE IP PORT nsd serves the zone of that file
         before COMMAND           a command that runs first
         slow -->                 only with --all

Of a table under "check: rules" each rule gives nothing, and of one under "check: faults" each entry has its fault. The
blocks that want nothing stand in crates/cases_top too, with their files, so that the gate runs them.
"""
import argparse
import os
import pathlib
import re
import shlex
import shutil
import socket
import subprocess
import sys
import tempfile
import time

TOP = pathlib.Path(__file__).resolve().parent.parent
KEY = "8.4.1.0.6.4.9.7.0.2"
HEAD = "$ORIGIN 4.4.e164.arpa.\n$TTL 1h\n@ IN SOA ns.example. host.example. 1 2h 15m 1w 5m\n"
GOOD = 'N NAPTR 100 10 "u" "E2U+sip" "!^.*$!sip:info@example.com!" .'
NUMBER = "+442079460148"


class Block:
    """Commands, what they are to print (or None), and what they want."""

    def __init__(self, place, wants, commands, printed):
        self.place = place
        self.commands = commands
        self.printed = printed
        self.wants = [line.split(None, 1) for line in (wants or "").splitlines() if line.strip()]

    def wanted(self, word):
        return [(line + [""])[1].strip() for line in self.wants if line[0] == word]


def blocks_of_page(path):
    """The blocks and the tables of a page. Each fence has to be one of a block."""
    text = path.read_text()
    block = re.compile(
        r"(?:^<!-- check: ((?:(?!-->).)*) -->\n)?^```sh\n(.*?)^```\n(?:^```text\n(.*?)^```\n)?", re.S | re.M
    )
    blocks = []
    fences = 0
    for found in block.finditer(text):
        line = text.count("\n", 0, found.start(2)) + 1
        blocks.append(Block(f"{path.name}:{line}", found[1], found[2], found[3]))
        fences += 2 if found[3] is None else 4
    if fences != len(re.findall(r"^```", text, re.M)):
        sys.exit(f"{path.name}: a fence that is of no block")
    tables = re.findall(r"^<!-- check: (rules|faults) -->\n((?:\|.*\n)+)", text, re.M)
    return blocks, [(kind, rows.splitlines()[2:]) for kind, rows in tables]


def blocks_of_manual(path):
    """The displays of a manual page in mdoc: commands after '$ ', each with the lines that it prints."""
    text = path.read_text()
    blocks = []
    for found in re.finditer(r"^\.Bd -literal.*?\n(.*?)^\.Ed\n", text, re.S | re.M):
        line = text.count("\n", 0, found.start(1)) + 1
        lines = [each.replace("\\&", "").replace("\\-", "-").replace("\\e", "\\") for each in found[1].splitlines()]
        commands = [each[2:] for each in lines if each.startswith("$ ")]
        if not commands:
            continue
        printed = "".join(each + "\n" for each in lines if not each.startswith("$ "))
        blocks.append(Block(f"{path.name}:{line}", None, "\n".join(commands) + "\n", printed))
    return blocks


class Server:
    """nsd with one zone, in the foreground."""

    def __init__(self, folder, words):
        zone, file, address, port = words.split()
        nsd = shutil.which("nsd", path=os.environ["PATH"] + ":/usr/sbin:/usr/local/sbin")
        conf = folder / "nsd.conf"
        conf.write_text(
            f'server:\n  ip-address: {address}\n  port: {port}\n  username: ""\n  chroot: ""\n  database: ""\n'
            f'  server-count: 1\n  pidfile: "{folder}/nsd.pid"\n  xfrdfile: "{folder}/xfrd.state"\n'
            f'  zonelistfile: "{folder}/zone.list"\n  zonesdir: "{TOP}"\nremote-control:\n  control-enable: no\n'
            f'zone:\n  name: "{zone}"\n  zonefile: "{file}"\n  provide-xfr: 127.0.0.1 NOKEY\n'
        )
        log = open(folder / "nsd.log", "w")
        self.process = subprocess.Popen([nsd, "-d", "-c", conf], stdout=log, stderr=log)
        for _ in range(50):
            try:
                socket.create_connection((address, int(port)), 0.2).close()
                return
            except OSError:
                time.sleep(0.1)

    def stop(self):
        self.process.terminate()
        self.process.wait(10)


def python_with(module):
    """A Python that has this module, or None."""
    for python in (sys.executable, shutil.which("python3"), "/usr/bin/python3"):
        if python and subprocess.run([python, "-c", f"import {module}"], capture_output=True).returncode == 0:
            return python
    return None


def run_block(block, folder, environment):
    """Why a block is skipped, or what differs; None where all is as it is to be."""
    sought = environment["PATH"] + ":/usr/sbin:/usr/local/sbin"
    for tool in " ".join(block.wanted("needs")).split():
        if shutil.which(tool, path=sought) is None:
            return "skipped", f"no {tool}"
    for module in block.wanted("python"):
        python = python_with(module)
        if python is None:
            return "skipped", f"no Python with {module}"
        link = folder / "bin" / "python3"
        if not link.exists():
            link.symlink_to(python)
    servers = [Server(folder, words) for words in block.wanted("server")]
    try:
        for command in block.wanted("before"):
            subprocess.run(["bash", "-c", command], cwd=folder, env=environment, timeout=60, capture_output=True)
        slow = bool(block.wanted("slow"))
        done = subprocess.run(
            ["bash", "-c", block.commands],
            cwd=TOP if slow else folder,
            env={**environment, "HOME": str(folder)},
            stdin=subprocess.DEVNULL,
            stdout=subprocess.PIPE,
            stderr=subprocess.STDOUT,
            timeout=10_000 if slow else 60,
            text=True,
        )
    finally:
        for server in servers:
            server.stop()
    # tshark says so where it runs as root.
    printed = re.sub(r"^Running as user .*\n", "", done.stdout, flags=re.M)
    good = done.returncode == 0 if block.printed is None else printed == block.printed
    return ("passed", "") if good else ("failed", printed)


def run_entry(enumd, folder, entry):
    """What a run over a file prints whose last entry is this."""
    (folder / "z.db").write_text(HEAD + re.sub(r"^N\b", KEY, entry) + "\n")
    words = [enumd, "resolve", "enum", NUMBER, "--zones", "z.db"]
    return subprocess.run(words, cwd=folder, capture_output=True, text=True, timeout=60)


def run_row(kind, row, enumd, folder):
    """What a row of a table shows: the entry in its second cell, and in the first the fault."""
    cells = [cell.strip() for cell in re.split(r"(?<= )\|(?= )|^\||\|$", row)[1:-1]]
    entry = re.fullmatch(r"`(.*)`", cells[1])[1]
    done = run_entry(enumd, folder, entry)
    if kind == "rules":
        good = (done.returncode, done.stdout, done.stderr) == (1, "end 0\n", "")
    else:
        fault = re.fullmatch(r"`(.*)`", cells[0])[1]
        good = (done.returncode, done.stdout) == (3, "") and done.stderr.endswith(f" {fault}\n")
    return ("passed", "") if good else ("failed", done.stdout + done.stderr)


def missing_of(blocks):
    """What the transcript of crates/cases_top lacks of the blocks of the page that want nothing."""
    transcript = (TOP / "crates/cases_top/stdout").read_text()
    lines = set(transcript.splitlines())
    for block in blocks:
        if block.wants or not block.place.startswith("README") or block.printed is None:
            continue
        for name in re.findall(r"examples/\w+\.db", block.commands):
            text = "".join(f": {line}".rstrip() + "\n" for line in (TOP / name).read_text().splitlines())
            if f"file {name}\n{text}" not in transcript:
                yield f"{block.place}: {name}"
        for words in re.findall(r"^enumd (resolve [^;\n]*)", re.sub(r" *\\\n *", " ", block.commands), re.M):
            if "run " + "|".join(shlex.split(words)) not in lines:
                yield f"{block.place}: {words}"
        for line in block.printed.splitlines():
            if not line.isdigit() and f"> {line}" not in lines and f"! {line}" not in lines:
                yield f"{block.place}: {line}"


def main():
    parser = argparse.ArgumentParser(description=__doc__, formatter_class=argparse.RawDescriptionHelpFormatter)
    parser.add_argument("--enumd", default=str(TOP / "crates/enumd/out/enumd"))
    parser.add_argument("--all", action="store_true")
    parser.add_argument("--only", default="")
    options = parser.parse_args()
    enumd = os.path.abspath(options.enumd)
    if not os.access(enumd, os.X_OK):
        sys.exit(f"{enumd}: no such program; build it, or name it by --enumd")
    blocks, tables = blocks_of_page(TOP / "README.md")
    blocks += blocks_of_manual(TOP / "docs/enumd.1")
    counts = {"passed": 0, "skipped": 0, "failed": 0}

    def tell(place, outcome, told):
        counts[outcome] += 1
        if outcome != "passed":
            print(f"{place}: {outcome}: {told}")

    with tempfile.TemporaryDirectory() as name:
        folder = pathlib.Path(name)
        (folder / "bin").mkdir()
        (folder / "bin" / "enumd").symlink_to(enumd)
        for part in ("examples", "crates", "docs"):
            (folder / part).symlink_to(TOP / part)
        environment = {**os.environ, "PATH": f"{folder}/bin:{os.environ['PATH']}", "LC_ALL": "C"}
        for block in blocks:
            if options.only in block.commands:
                if block.wanted("slow") and not options.all:
                    tell(block.place, "skipped", "slow")
                else:
                    tell(block.place, *run_block(block, folder, environment))
        if run_entry(enumd, folder, GOOD).stdout.splitlines()[-1:] != ["end 1"]:
            tell("tables", "failed", "the good rule gives nothing")
        for kind, rows in tables:
            for row in rows:
                if options.only in row:
                    tell(row, *run_row(kind, row, enumd, folder))
    missing = list(missing_of(blocks))
    tell("crates/cases_top", "failed" if missing else "passed", "\n".join(missing))
    if shutil.which("mandoc"):
        lint = subprocess.run(["mandoc", "-Tlint", TOP / "docs/enumd.1"], capture_output=True, text=True)
        tell("docs/enumd.1", "failed" if lint.stdout + lint.stderr else "passed", lint.stdout + lint.stderr)
    print(", ".join(f"{number} {word}" for word, number in counts.items()))
    sys.exit(1 if counts["failed"] else 0)


main()
