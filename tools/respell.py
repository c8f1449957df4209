#!/usr/bin/env python3
"""respell.py: brings this repository's own definitions, fields and lemmas to the spelling that Rattle's library has, after the kit's own script
(port.py) has turned the rest. It ran once, in the commit that docs/PORT.md names on its second line; it is kept so that the renaming can be made again and compared.

A definition, a field or an antt constructor goes to snake case: `halfUp` is `half_up`. A type or a fact keeps its capital. In a lemma's name a
dash stays where it joins two names (`grown-length`: `grown` and `length`), and a plain word is joined by `_` (`at_end`). Names of src/ stay.
A renaming under which two names of one file would fall together is listed below in KEEP or OTHER, and the script stops where it finds another.

Usage, at the repository's root: python3 tools/respell.py [--list]
"""
import collections
import pathlib
import re
import subprocess
import sys

ROOT = pathlib.Path(__file__).resolve().parent.parent
TOKEN = re.compile(r"(?<![\w◌'′-])[\w◌'′-]+")
DECLARED = re.compile(r"\s*(?:abbrev pub |unfoldable pub |abbrev |unfoldable |pub )?((?:[\w◌'′-]+ )+):(?: |$)")
# Names that are spelled otherwise than by rule.
OTHER = {
    "getD-below": "get_or-below",
    "getD-from": "get_or_from",
    "answer-of": "answer_of_lem",
    "host-answer": "host_answer_lem",
    "b-first": "b_first_out",
    "plane-major": "plane_major_out",
    "samples-at": "samples_at_lem",
    "added-rows": "added_rows_lem",
    "shortest-first": "shortest_first_out",
    "◌andThen◌": "◌and_then◌",
    "andThen": "and_then",
}
# .. and in one file.
THERE = {"crates/slice/proofs/Once.antt": {"answer-of": "answer_of"}}
# What std calls by a name of its own, and what its lemmas' names are made of.
WORDS = set(
    "length take drop set get_or append replicate cons nil map sum min max cond div mod mul add sub suc zero pow lt le eq list_from max min not".split()
)


# Plain words, though something is called so.
PLAIN = set("once only most one first in start step fits samples short words within all same next end own right reading read table plane placed left in raw row rows build built chain code shortest".split())


# Fields of two records, which stay apart.
APART = {("crates/magicyuv/specs/Boundary.antt", "slice_height")}


def antt():
    return sorted(p for p in ROOT.glob("crates/*/*/**/*.antt") if "out" not in p.parts)


def declared():
    """Names declared in specs/ and proofs/: name -> whether it is a lemma, that is of proofs/ and not a record, a definition or a ruleset."""
    names, words = set(), set()
    for p in antt():
        if p.name == "Proof.antt":
            continue
        for line in p.read_text().splitlines():
            if line.lstrip().startswith(("--", "use ", "module ")):
                continue
            m = re.match(r"\s*(?:pub )?(?:record|data|ruleset)\s+([\w◌'′-]+)", line)
            if m:
                names.add(m[1])
                continue
            m = DECLARED.match(line)
            if m:
                for n in m[1].split():
                    names.add(n)
                    if "specs" in p.parts and "-" not in n and not line.startswith(" "):
                        words.add(n)
    return names, words


def snake(name):
    if not name[:1].islower() and not name.startswith("◌"):
        return name
    return re.sub(r"(?<=[a-z0-9])([A-Z])", lambda m: "_" + m[1].lower(), name)


def aliases():
    """Modules brought in under a name of their own: these are named after functions of src/, or after files."""
    found = set()
    for p in antt():
        found |= set(re.findall(r"(?m)^use \S+ as ([\w'-]+)$", p.read_text()))
    return found


def fields():
    """A record's fields and a type's constructors, which are labels and have no dash."""
    found = set()
    for p in antt():
        found |= set(re.findall(r"(?m)^  pub ([\w'-]+) : ", p.read_text())) if "specs" in p.parts else set()
    return found


def code(path, text):
    """A file's text without comments, and without the paths of its `use` lines."""
    out = []
    for line in text.splitlines():
        line = re.sub(r"(^|\s)(--|//).*", "", line)
        out.append(re.sub(r"^(ghost )?use [^{\s]*", "", line))
    return "\n".join(out)


def turn(path, text, rename):
    """A file in the new spelling. In prose, that is pages and comments, a name with a dash is one only in backticks."""
    camel = {a: b for a, b in rename.items() if re.search("[A-Z]", a)}
    one = lambda names: lambda m: names.get(m[0], m[0])
    prose = lambda s: re.sub(r"`[^`\n]*`", lambda m: TOKEN.sub(one(rename), m[0]), TOKEN.sub(one(camel), s))
    if path.suffix in (".md", ".txt"):
        return re.sub(r"`[^`\n]*`", lambda m: TOKEN.sub(one(rename), m[0]), text) if path.suffix == ".md" else TOKEN.sub(one(rename), text)
    lines = []
    for line in text.split("\n"):
        m = re.search(r"(^|\s)(--|//)(?=\s|$).*", line) if path.suffix != ".edit" else None
        at = m.start() if m else len(line)
        names = camel if path.suffix == ".rt" else rename
        lines.append(TOKEN.sub(one(names), line[:at]) + prose(line[at:]))
    return "\n".join(lines)


def mapping():
    names, words = declared()
    known = (WORDS | words | {snake(w) for w in words} | {snake(w) for w in names if "-" not in w and w in words}) - PLAIN
    rename = {}
    for n in sorted(names | aliases()):
        if n in OTHER:
            rename[n] = OTHER[n]
            continue
        if not (n[:1].islower() or n.startswith("◌")):
            continue
        if "-" in n and (n in aliases() or n in fields()):
            rename[n] = n.replace("-", "_")
            continue
        parts = [snake(x) for x in n.split("-")]
        out = ("-" if len(parts) == 2 and all(x in known for x in parts) else "_").join(parts)
        if out != n:
            rename[n] = out
    rename |= {n: snake(n) for n in ("lengthsLen", "planesLen", "workspaceLen")}  # parameters
    for n, f in list(rename.items()):
        if n.startswith("◌") and n.endswith("◌"):
            rename[n.strip("◌")] = f.strip("◌")
    return rename


def clash(files, rename):
    bad = 0
    for p in files:
        here = rename | THERE.get(str(p.relative_to(ROOT)), {})
        if p.suffix == ".rt" or p.name == "Proof.antt":
            continue
        to = collections.defaultdict(set)
        for t in set(TOKEN.findall(code(p, p.read_text()))):
            to[here.get(t, t)].add(t)
        for new, old in sorted(to.items()):
            if len(old) > 1 and (str(p.relative_to(ROOT)), new) not in APART:
                bad += 1
                print(f"{p.relative_to(ROOT)}: {', '.join(sorted(old))} fall together as {new}")
    return bad


def main():
    rename = mapping()
    sources = sorted(p for p in ROOT.glob("crates/*/src/*.rt"))
    if "--list" in sys.argv:
        for a, b in sorted(rename.items()):
            print(a, "->", b)
        return 0
    if clash(antt() + sources, rename):
        return 1
    pages = [p for p in [ROOT / "README.md", *sorted((ROOT / "docs").glob("*.md")), *sorted((ROOT / "docs/landings").glob("*.md")), ROOT / "tools/equal_changes.txt", ROOT / "tools/theorems.txt", ROOT / "tools/twins.txt", *sorted(ROOT.glob("crates/*/must-fail/*.edit"))] if p.exists()]
    n = 0
    for p in antt() + sources + pages:
        text = p.read_text()
        new = turn(p, text, rename | THERE.get(str(p.relative_to(ROOT)), {}))
        if new != text:
            p.write_text(new)
            n += 1
    print(f"respell: {len(rename)} names, {n} files")
    return 0


if __name__ == "__main__":
    raise SystemExit(main())
