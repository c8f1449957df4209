#!/usr/bin/env python3
"""picture.py: the crates of crates.txt in layers, each crate with a few words.

A crate stands on those that its line in crates.txt names, and its layer is one above the highest of them. Within a layer the order is that of
crates.txt. Crates NAME8 and NAME16 that stand in one layer have one entry. A crate that has no words here, or words without a crate, is an error.

Usage, at the repository's root:
  python3 tools/picture.py            says whether docs/ARCHITECTURE.md has the picture as it is today; status 1 if not
  python3 tools/picture.py --write    puts it there
  python3 tools/picture.py --print    prints it
"""
import sys
from pathlib import Path

ROOT = Path(__file__).resolve().parent.parent
PAGE = ROOT / "docs/ARCHITECTURE.md"
BEGIN, END = "<!-- the crates: python3 tools/picture.py --write -->", "<!-- end -->"
WIDTH = 150

WORDS = {
    "scope": "the types, document 01 as definitions, the table of refusals, the known answers",
    "refusals": "laws of the table of refusals",
    "lists": "parts of lists, powers of two",
    "memory": "a workspace cleared, sums modulo 2^depth, the law of a loop in place",
    "sample": "a sample of 8 or 16 bits, what is generic over it asks of it",
    "views": "rows of a pitch: samples and gaps",
    "bits": "windows of bits",
    "raw": "raw samples",
    "codes": "laws of words, tables, chains and readings",
    "words": "9, 10 and the need, from one pass over the lengths",
    "builder": "a table written",
    "lookup": "the word at a bit position",
    "kept": "words in groups, out of a window of 64 bits that is kept",
    "reader": "the thin reader, one step of it, where a reading ended",
    "chain": "words one after the other, row by row",
    "within": "two checks that never fire: every slice begins in its plane, a raw one has all its bytes",
    "geometry": "what a family and a depth say; laws of the figures",
    "sides": "sides of a plane, K and T, the rows of a place",
    "stretches": "where rows stand in the plane buffer",
    "incoming": "refusals 1 to 4",
    "layout": "the readers of the frame, a slice's record",
    "preamble": "refusals 5 to 8",
    "checks": "12 to 14 of every slice; 5 to 14 in order",
    "planes": "laws of the planes in their buffer, the picture",
    "buffer": "the plane buffer cleared, G added",
    "tables": "every plane's code, and its table in the workspace",
    "rows": "laws of one row",
    "rows8": "the loops over a row",
    "rows16": "the loops over a row",
    "predict": "a slice's samples from its residues",
    "slice": "one slice, over any lookup, read into its rows: 15, then 14",
    "picture": "laws of the entries: planes filled slice by slice; where the lengths come in",
    "decode": "document 01's two entries: checks, every slice into its place, memory left",
    "places": "the picture by row and column",
    "wrong": "document 01's wrong decoders against the statements",
    "demands": "the three demands, of every function that a host can call",
    "alone": "a table and a reading by themselves",
    "magicyuv": "the host's boundary: numbers and slices in, three numbers out",
    "magicyuv_c": "the archive: the same four functions, exported",
    "demo": "program: frames and known answers built in",
    "cases": "the stored list's form, the memory lent, the verdict",
    "replay": "program: the stored list over the host's functions",
}


def below():
    """Each crate with those of this repository that it names, in the order of crates.txt."""
    found = {}
    for line in (ROOT / "crates.txt").read_text().splitlines():
        if ":" in line and not line.startswith("#"):
            name, names = line.split(":")
            found[name.split()[0]] = names.split()
    return {crate: [n for n in names if n in found] for crate, names in found.items()}


def layers(under):
    """The crates of each layer. crates.txt names only crates that stand above a line, so one pass will do."""
    layer = {}
    for crate, names in under.items():
        layer[crate] = 1 + max((layer[n] for n in names), default=-1)
    return [[c for c in under if layer[c] == k] for k in range(max(layer.values()) + 1)]


def entries(crates):
    """A layer's entries, with the crates of the two widths as one."""
    found = []
    for crate in crates:
        if crate.endswith("16") and crate[:-2] + "8" in crates:
            continue
        wide = crate[:-1] + "16"
        names = f"{crate}, {wide}" if crate.endswith("8") and wide in crates else crate
        found.append(f"{names} ({WORDS[crate]})")
    return found


def picture():
    under = below()
    apart = set(WORDS) ^ set(under)
    if apart:
        sys.exit(f"picture.py: words and crates.txt differ at {', '.join(sorted(apart))}")
    out = ["```text"]
    for k, crates in enumerate(layers(under)):
        line = f"{k:2} "
        for entry in entries(crates):
            if WIDTH < len(line) + len(entry):
                out.append(line)
                line = "   "
            line += f" {entry};"
        out.append(line.rstrip(";"))
    return "\n".join(out + ["```"]) + "\n"


def main():
    if "--print" in sys.argv:
        print(picture(), end="")
        return 0
    text = PAGE.read_text()
    start = text.index(BEGIN) + len(BEGIN) + 1
    end = text.index(END, start)
    if "--write" in sys.argv:
        PAGE.write_text(text[:start] + picture() + text[end:])
    elif text[start:end] != picture():
        print("docs/ARCHITECTURE.md: its picture of the crates is not today's (python3 tools/picture.py --write)")
        return 1
    return 0


if __name__ == "__main__":
    sys.exit(main())
