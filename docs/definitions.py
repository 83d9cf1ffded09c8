#!/usr/bin/env python3
"""Writes docs/DEFINITIONS.md: an index of the definitions, in the order in which docs/TRUSTED.md says to read them.

    python3 docs/definitions.py           writes the index
    python3 docs/definitions.py --check   says what is not as it is to be, and writes nothing

TRUSTED names each file of a specs/ folder once, in one of its three lists: `CRATE` and after it `File`, `File`, .. Of
the first two lists the index has a line for each definition that a contract or another file cites, and of the third one
for each file. A definition is told by the comment over it, of which the index has the beginning.
"""
import pathlib
import re
import sys
import textwrap

TOP = pathlib.Path(__file__).resolve().parent.parent
WIDTH = 120
LISTS = ["\n1. ", "These files say", "These files serve"]
HEAD = """# Definitions

An index of the definitions that contracts and other files of definitions cite, in the order in which
[TRUSTED.md](TRUSTED.md) says to read them: the file, what it is about, and a line for each definition, with the
beginning of the comment that stands over it. Where the code and a definition could disagree, a proof ties them. This
page is written by `docs/definitions.py`.
"""
BLOCK = re.compile(r"^(?:abbrev|unfoldable|opaque)? ?mutual\b")
PUBLIC = re.compile(r"^(?:(?:abbrev|unfoldable|opaque) pub|pub (?:record|data)|pub) (\S+)")
USE = re.compile(r"^\s*(?:ghost |pub )?use Rattle\.(\w+)\.specs\.(\w+)[\w.]*\.\{([^}]*)\}", re.M)
FIELD = re.compile(r"^  pub (\S+) :")


def files_of(text):
    """The files that a list of TRUSTED names, as (crate, file), in its order."""
    crates = {path.parent.name for path in TOP.glob("crates/*/specs")}
    crate = None
    found = []
    for token in re.findall(r"`([^`]*)`", text):
        token = token.replace("crates/", "").replace("/specs", "").replace(".antt", "").rstrip("/")
        if token in crates:
            crate = token
        elif crate and re.fullmatch(r"[A-Z]\w*", token) and (TOP / f"crates/{crate}/specs/{token}.antt").exists():
            found.append((crate, token))
        elif re.fullmatch(r"[A-Z]\w*", token):
            yield None, f"{crate}: {token}"
    yield from found


def lists_of_trusted():
    """The three lists, each as its paragraphs."""
    text = (TOP / "docs/TRUSTED.md").read_text()
    places = [text.index(head) for head in LISTS] + [len(text)]
    return [list(files_of(text[start:end])) for start, end in zip(places, places[1:])]


def definitions_of(path):
    """The head comment of a file, and each exported definition with the comment over it."""
    lines = path.read_text().splitlines()
    head = []
    for line in lines:
        if not line.startswith("--"):
            break
        head.append(line[2:].strip())
    comment = []
    mutual = False
    found = []
    for line in lines[len(head) :]:
        bare = line.strip()
        if bare.startswith("--"):
            comment.append(bare[2:].strip())
            continue
        if line and not line.startswith(" "):
            mutual = bool(BLOCK.match(line))
        name = PUBLIC.match(line) or (mutual and FIELD.match(line))
        if name and name[1] not in ("use", "mod"):
            found.append([name[1], " ".join(comment), ""])
        elif found and bare.startswith(f"{found[-1][0]} ="):
            found[-1][2] = bare.partition("=")[2].strip()
        if bare:
            comment = []
    return " ".join(head), found


def cited():
    """What the code and the files of definitions import, as (crate, file, name)."""
    found = set()
    for path in [*TOP.glob("crates/*/src/**/*.rt"), *TOP.glob("crates/*/specs/*.antt")]:
        for use in USE.finditer(path.read_text()):
            found.update((use[1], use[2], name.strip().split(" as ")[0]) for name in use[3].split(","))
    return found


def told(name, comment, value=""):
    """A line of the index: the comment, or what the definition is where it has none."""
    line = f"- `{name}`: {comment}" if comment else f"- `{name}`: {value}" if value else f"- `{name}`"
    return line if len(line) <= WIDTH else textwrap.shorten(line, WIDTH, placeholder=" ..")


def index():
    """The whole page."""
    read, promised, private = lists_of_trusted()
    names = cited()
    parts = [HEAD]
    for title, files in (("The headline", read), ("Other public calls", promised)):
        parts.append(f"## {title}\n")
        crate = None
        for file in files:
            if file[0] is None:
                continue
            if file[0] != crate:
                crate = file[0]
                parts.append(f"### `{crate}`\n")
            head, found = definitions_of(TOP / f"crates/{crate}/specs/{file[1]}.antt")
            lines = textwrap.wrap(f"**{file[1]}**: {head}", WIDTH, break_long_words=False, break_on_hyphens=False)
            lines += [told(*each) for each in found if (*file, each[0]) in names]
            parts.append("\n".join(lines) + "\n")
    parts.append("## Private functions and proofs\n")
    lines = []
    for crate, file in private:
        if crate is not None:
            head, _ = definitions_of(TOP / f"crates/{crate}/specs/{file}.antt")
            lines.append(told(f"{crate}/{file}", head))
    parts.append("\n".join(lines) + "\n")
    return "\n".join(parts)


def faults():
    """What is not as it is to be."""
    lists = lists_of_trusted()
    named = [file for files in lists for file in files if file[0] is not None]
    for files in lists:
        yield from (f"TRUSTED: no such file: {file[1]}" for file in files if file[0] is None)
    yield from (f"TRUSTED: named twice: {file}" for file in sorted(set(named)) if named.count(file) > 1)
    there = {
        (path.parents[1].name, path.stem)
        for path in TOP.glob("crates/*/specs/*.antt")
        if path.stem != "Lib" and not re.search("cases|tests", path.parents[1].name)
    }
    yield from (f"TRUSTED: not named: {file}" for file in sorted(there - set(named)))
    page = TOP / "docs/DEFINITIONS.md"
    if not page.exists() or page.read_text() != index():
        yield "DEFINITIONS: not as this script writes it"


if "--check" in sys.argv:
    wrong = list(faults())
    print("\n".join(wrong))
    sys.exit(1 if wrong else 0)
(TOP / "docs/DEFINITIONS.md").write_text(index())
