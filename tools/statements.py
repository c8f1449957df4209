#!/usr/bin/env python3
"""statements.py: what the functions of this repository say and ask, and how long each crate is.

Printed: for each crate its public functions, its functions in all, its edits, and its lines of code, specifications and proofs (blank
lines and comments are not counted); the public functions without an `ensures`; the functions with a `requires`, each with those
that call it; and the longest parameter list of a function that is not exported. Exported is what is `extern "C"`, and the function of
the same name that it calls. A method that a public trait declares is a public function, called TRAIT::METHOD; one of an `impl` has the clauses
of its trait and is called TRAIT::METHOD for TYPE; a method of a type alone is called TYPE::METHOD.

Usage, at the repository's root (no file beside the clone is needed):
  python3 tools/statements.py            prints all of that; status 1 if a public function has no `ensures`
  python3 tools/statements.py --write    puts the public functions with a `requires`, by crate, into docs/EXCEPTIONS.md
  python3 tools/statements.py --page     says whether that page has them; status 1 if not
"""
import re
import sys
from pathlib import Path

ROOT = Path(__file__).resolve().parent.parent
PAGE = ROOT / "docs/EXCEPTIONS.md"
BEGIN, END = "<!-- requires: python3 tools/statements.py --write -->", "<!-- end -->"
HEAD = re.compile(r'^( *)(pub |pub\(crate\) )?(extern "C" )?fn (\w+)', re.M)
BLOCK = re.compile(r"^(pub )?(?:trait (\w+)|impl(?:<[^>]*>)? (?:(\w+) for )?(\w+)).*\{$", re.M)


def crates():
    lines = (ROOT / "crates.txt").read_text().splitlines()
    return [line.split(":")[0].split()[0] for line in lines if ":" in line and not line.startswith("#")]


def closing(text, at):
    """The place of the bracket that closes the one at `at`."""
    depth = 0
    for i in range(at, len(text)):
        depth += {"(": 1, ")": -1}.get(text[i], 0)
        if depth == 0:
            return i
    return len(text)


def parameters(text):
    """How many parameters a list has: commas outside of brackets, the last one of a list in lines left out."""
    text = re.sub(r"\[[^\]]*\]|<[^>]*>", "", text).strip().rstrip(",")
    return text.count(",") + 1 if text else 0


class Function:
    """A function of a source: its name, the trait and the type of a method, how far it is seen, its parameters, its clauses and its body."""

    def __init__(self, crate, text, match, block=None):
        self.crate, self.method = crate, match.group(4)
        self.public, self.exported = match.group(2) == "pub ", bool(match.group(3))
        self.trait, self.type = (block[2] or block[3], block[4]) if block else (None, None)
        self.name = self.method
        if block:
            self.name = "::".join(filter(None, (self.trait or self.type, self.method)))
            self.name = f"{self.name} for {self.type}" if self.trait and self.type else self.name
            self.public = self.public or bool(block[1])
        opened = text.index("(", match.end())
        closed = closing(text, opened)
        self.generics, self.list = text[match.end() : opened], text[opened + 1 : closed]
        self.parameters = parameters(self.list)
        end = text.find(f"\n{match.group(1)}}}\n", closed)
        # a trait's method ends with its clauses, or has none: the first line that ends with `;`
        declared = re.compile(r";$", re.M).search(text, closed) if block and not self.type else None
        body = None if declared else re.compile(r"(^ *|[^{]*[\w\])>] )\{$", re.M).search(text, closed)
        self.clauses = text[closed : (declared or body).start() if declared or body else len(text)]
        self.body = "" if declared else text[body.end() if body else closed : end if end > 0 else len(text)]

    def full(self):
        return f"{self.crate}::{self.name}"

    def has(self, clause):
        return re.search(rf"^\s*{clause}\b", self.clauses, re.M) is not None


def sources(crate):
    return sorted((ROOT / "crates" / crate / "src").rglob("*.rt"))


def of_text(crate, text):
    """The functions of a source, those of its traits and implementations among them."""
    found = []
    for m in HEAD.finditer(text):
        blocks = [b for b in BLOCK.finditer(text, 0, m.start()) if "\n}\n" not in text[b.end() : m.start()]] if m.group(1) else [None]
        if blocks:
            found.append(Function(crate, text, m, blocks[-1]))
    return found


def functions():
    return [f for crate in crates() for path in sources(crate) for f in of_text(crate, path.read_text())]


def callers(one, every):
    """Those that call a function: by its crate's name, or by its own name in its crate or in a file that uses it. A method is called on a value, or by
    a type that a function is generic over."""
    found = []
    for f in every:
        own = f.crate == one.crate or uses(f.crate, one)
        path = rf"\b{one.crate}::(?:\w+::)*{one.method}(?:::<[^>]*>)?\("
        name = rf"(?<![\w:.])(?:crate::)?{one.method}(?:::<[^>]*>)?\("
        if one.trait or one.type:
            path, name = r"(?!)", rf"(?:\b[A-Z]\w*::|\.){one.method}\("
            own = own and (f.generics or f.trait == one.trait)
        if f is not one and (re.search(path, f.body) or own and re.search(name, f.body)):
            found.append(f.full())
    return sorted(set(found), key=found.index)


def brought(text):
    """The paths that the `use` lines of a source bring in, one for each name of a list in braces."""
    found = set()
    for path, names in re.findall(r"(?m)^(?:pub )?use ((?:\w+::)*)(\w+|\{[^}]*\});", text):
        found |= {path + name.split(" as ")[0] for name in re.split(r",\s*", names.strip("{}"))}
    return found


def uses(crate, one):
    name = one.trait or one.type or one.method
    return any(re.fullmatch(rf"{one.crate}::(?:\w+::)*{name}", b) for path in sources(crate) for b in brought(path.read_text()))


def lines(crate, folder, ending):
    """Lines that are neither blank nor all comment."""
    count = 0
    for path in sorted((ROOT / "crates" / crate / folder).rglob("*" + ending)):
        count += sum(1 for l in path.read_text().splitlines() if l.strip() and not l.strip().startswith(("//", "--")))
    return count


def edits(crate):
    return len(list((ROOT / "crates" / crate / "must-fail").glob("*.edit")))


def sizes(every):
    rows = []
    for crate in crates():
        own = [f for f in every if f.crate == crate]
        rows.append(
            [crate, sum(f.public for f in own), len(own), edits(crate)]
            + [lines(crate, "src", ".rt"), lines(crate, "specs", ".antt"), lines(crate, "proofs", ".antt")]
        )
    rows.append(["together"] + [sum(r[k] for r in rows) for k in range(1, 7)])
    return rows


def table(every):
    """The public functions with a `requires`, a row a crate: each with those that call it from other functions."""
    out = ["| Crate | Function, and who calls it |", "|---|---|"]
    for crate in crates():
        own = [f for f in every if f.crate == crate and f.public and f.has("requires")]
        cells = [f"`{f.name}`: {', '.join(c.removeprefix(crate + '::') for c in callers(f, every)) or 'nobody'}" for f in own]
        if cells:
            out.append(f"| {crate} | {'; '.join(cells)} |")
    return "\n".join(out) + "\n"


def page(every, write):
    """The page with the table in its place; without `write`, whether it has it."""
    text = PAGE.read_text()
    start, end = text.index(BEGIN) + len(BEGIN) + 1, text.index(END, text.index(BEGIN))
    if write:
        PAGE.write_text(text[:start] + table(every) + text[end:])
        return 0
    if text[start:end] == table(every):
        return 0
    print("docs/EXCEPTIONS.md: its table of functions with a `requires` is not today's (python3 tools/statements.py --write)")
    return 1


def report(every):
    print(f"{'crate':11}{'public':>8}{'all':>6}{'edits':>7}{'code':>7}{'specs':>7}{'proofs':>8}")
    for name, *numbers in sizes(every):
        print(name.ljust(11) + "".join(str(n).rjust(w) for n, w in zip(numbers, (8, 6, 7, 7, 7, 8))))
    public = [f for f in every if f.public]
    bare = [f.full() for f in public if not f.has("ensures")]
    print(f"\n{len(public)} public functions in {len(crates())} crates; without an `ensures`: {', '.join(bare) or 'none'}")
    asking = [f for f in every if f.has("requires")]
    print(f"\nwith a `requires`: {sum(f.public for f in asking)} public and {sum(not f.public for f in asking)} other functions")
    for f in asking:
        print(f"  {'pub ' if f.public else '    '}{f.full()}: called by {', '.join(callers(f, every)) or 'nobody'}")
    exported = {f.name for f in every if f.exported}
    own = [f for f in every if f.name not in exported]
    longest = max(f.parameters for f in own)
    most = [f.full() for f in own if f.parameters == longest]
    print(f"\nlongest parameter list of a function that is not exported: {longest} ({', '.join(most)})")
    return 1 if bare else 0


def main():
    every = functions()
    if "--write" in sys.argv or "--page" in sys.argv:
        return page(every, "--write" in sys.argv)
    return report(every)


if __name__ == "__main__":
    sys.exit(main())
