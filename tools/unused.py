#!/usr/bin/env python3
"""unused.py: what nothing uses. Lists, in crates/:
  imports    a name that a file imports and does not use;
  laws       a law of proofs/ or a definition of specs/ that nothing cites: its own file not outside its declaration, and no other file
             imports it (what a function's own folder in proofs/ proves is that function's proof, and a record's fields are its record's);
  functions  a `pub` function that no other crate calls, or a method, of a type or of a public trait (called is a method where another crate's
             text has `.name(` or the name behind its type, whoever's method that is).
  ends       a name in tools/theorems.txt that nothing declares.
The theorems of proofs/Once.antt are ends in themselves, and so is what tools/theorems.txt names, a name a line.

Usage, at the repository's root:
  python3 tools/unused.py           lists; status 1 if there is anything
  python3 tools/unused.py --fix     takes unused imports out first, and lists the rest
"""
import pathlib
import re
import sys

WORD = re.compile(r"[^\s(){};,.|\"`]+")
USE = re.compile(r"(?:ghost |pub )?use ")
NAMED = re.compile(r"((?:ghost |pub )?use) (\S+?)\.\{(.*)\}(;?)$")
ALIAS = re.compile(r"use (\S+) as (\S+)$")
PATH = re.compile(r"((?:pub )?use) (\w+(?:::\w+)*)::(\w+|\{[^{}]*\});$")
DECLARED = re.compile(r" *(?:abbrev |unfoldable )?(?:pub )?(?:(record|data) ([^\s:(){}]+)|ruleset (\S+) =|([^\s:()]+) : )")


def bare(line):
    """A line without its comment."""
    return re.sub(r"(^|\s)(--|//).*", r"\1", line)


class File:
    def __init__(self, path):
        self.path, self.lines = path, path.read_text().splitlines()
        code = [bare(line) for line in self.lines]
        self.imports = [line for line in code if USE.match(line)]
        self.code = ["" if USE.match(line) else line for line in code]
        self.text = "\n".join(self.code)
        self.words = set(WORD.findall(self.text))
        self.crate = path.parts[1]
        self.stated = path.suffix == ".antt" and len(path.parts) == 4  # laws or definitions, and no function's own proof

    def has(self, name):
        """Whether the code has a name, or all the pieces of an operator's name."""
        pieces = [p for p in name.split("◌") if p]
        return name in self.words or all(p in self.words if WORD.fullmatch(p) else p in self.text for p in pieces)


def brought(names):
    """The names at the end of a Rust path: one, or a list in braces."""
    return [n.strip() for n in names.strip("{}").split(",")]


def imports(file, fix):
    """The imported names that a file does not use; with fix they are taken out."""
    found, kept = [], []
    for line in file.lines:
        named, alias, path = NAMED.match(line), ALIAS.match(line), PATH.match(line)
        if named and named[1] != "pub use":
            names = [n.strip() for n in named[3].split(",")]
            used = [n for n in names if file.has(n.split(" as ")[-1])]
            found += [n for n in names if n not in used]
            line = f"{named[1]} {named[2]}.{{{', '.join(used)}}}{named[4]}" if used else None
        elif alias and not re.search(rf"(?<![^\s(){{}};,]){re.escape(alias[2])}\.", file.text):
            found, line = found + [alias[2]], None
        elif path and path[1] != "pub use":
            names = brought(path[3])
            used = [n for n in names if n.split(" as ")[-1] in re.findall(r"\w+", file.text)]
            found += [n for n in names if n not in used]
            line = (f"{path[1]} {path[2]}::{used[0] if len(used) == 1 else '{' + ', '.join(used) + '}'};" if used else None) if used != names else line
        kept += [] if line is None else [line]
    if fix and found:
        file.path.write_text("\n".join(kept) + "\n")
    return [f"{file.path}: {n}" for n in found]


def declarations(file):
    """Name, first and last line of each declaration of a file but the fields of records and constructors."""
    found, holder = [], None
    for i, line in enumerate(file.code):
        match, indent = DECLARED.match(line), len(line) - len(line.lstrip())
        if holder is not None and line.strip() and indent <= holder:
            holder = None
        if holder is not None or not match:
            continue
        name = match[2] or match[3] or match[4]
        if match[1]:
            holder = indent
        last = i
        for k in range(i + 1, len(file.code)):
            after = file.code[k]
            inner = len(after) - len(after.lstrip())
            if after.strip() and inner <= indent and not re.match(rf"({re.escape(name)}|unfolding) |[\])}}]", after.strip()):
                break
            last = k
        found.append((name, i, last))
    return found


def module(file):
    """The import path by which other files name a file of laws or definitions."""
    _, crate, kind, name = file.path.with_suffix("").parts
    return f"Rattle.{crate}.{kind}.{name}"


def laws(files, ends):
    """Laws and definitions that nothing cites."""
    cited = set()
    for file in files:
        for line in file.imports:
            named, alias = NAMED.match(line), ALIAS.match(line)
            if named:
                cited |= {(named[2], n.split(" as ")[0].strip()) for n in named[3].split(",")}
            elif alias:
                cited |= {(alias[1], n) for n in re.findall(rf"(?<![^\s(){{}};,]){re.escape(alias[2])}\.({WORD.pattern})", file.text)}
        # an attribute `#[tactic(auto, using(crate::proofs::M::law))]` cites a law too
        for crate, kind, name, law in re.findall(r"\b(\w+)::(proofs|specs)::(\w+)::([\w'-]+)", "\n".join(re.findall(r"#\[tactic\([^\]]*\]", file.text))):
            cited.add((f"Rattle.{file.crate if crate == 'crate' else crate}.{kind}.{name}", law))
    found = []
    for file in files:
        if not file.stated or file.path.name in ("Lib.antt", "Once.antt"):
            continue
        for name, first, last in declarations(file):
            rest = "\n".join(file.code[:first] + file.code[last + 1:])
            if name not in ends and name not in WORD.findall(rest) and (module(file), name) not in cited:
                found.append(f"{file.path}: {name}")
    return found


def methods(text):
    """The type or trait and the name of each public method: those of a type, and those that a public trait declares."""
    blocks = re.findall(r"(?ms)^(impl(?:<[^>]*>)? (\w+)(?:<[^>]*>)? \{|pub trait (\w+)[^{;]*\{)(.*?)^\}", text)
    for _, type_, trait, body in blocks:
        for name in re.findall(rf"(?m)^    {'pub ' if type_ else ''}fn (\w+)", body):
            yield type_ or trait, name


def functions(files, ends):
    """Public functions and methods that no other crate calls."""
    sources = [f for f in files if f.path.suffix == ".rt"]
    calls = {(c, f.crate) for f in sources for c in re.findall(r"\b(?:\w+::)+\w+", "\n".join(f.imports + f.code))}
    calls |= {(f"{p[2]}::{n.split(' as ')[0]}", f.crate) for f in sources for p in map(PATH.match, f.imports) if p for n in brought(p[3])}
    found = []
    for file in sources:
        for name in re.findall(r"(?m)^pub fn (\w+)", file.text):
            called = any(re.fullmatch(rf"{file.crate}(::\w+)*::{name}", c) and by != file.crate for c, by in calls)
            if not called and f"{file.crate}::{name}" not in ends:
                found.append(f"{file.path}: pub fn {name}")
        others = "\n".join(f.text for f in sources if f.crate != file.crate)
        for owner, name in methods(file.text):
            # by the value, the type, or a parameter of that type
            called = re.search(rf"\.{name}\(|\b(?:{owner}|[A-Z]|Other|Self)::{name}\(", others)
            if not called and f"{file.crate}::{name}" not in ends:
                found.append(f"{file.path}: fn {name} of {owner}")
    return found


def stale(files, ends):
    """Ends that nothing declares."""
    laws = {name for f in files if f.stated for name, _, _ in declarations(f)}
    calls = {f"{f.crate}::{name}" for f in files for name in re.findall(r"(?m)^pub fn (\w+)", f.text)}
    calls |= {f"{f.crate}::{name}" for f in files if f.path.suffix == ".rt" for _, name in methods(f.text)}
    return sorted(ends - laws - calls)


def main():
    paths = sorted(p for p in pathlib.Path("crates").rglob("*") if p.suffix in (".rt", ".antt") and p.parts[2] in ("src", "specs", "proofs"))
    fix = "--fix" in sys.argv
    loose = [u for p in paths for u in imports(File(p), fix)]
    files = [File(p) for p in paths]
    ends = {line for line in pathlib.Path("tools/theorems.txt").read_text().splitlines() if line and not line.startswith("#")}
    found = {"imports": [] if fix else loose, "laws": laws(files, ends), "functions": functions(files, ends), "ends": stale(files, ends)}
    for title, what in found.items():
        print("\n".join([f"{title}: {len(what)}"] + [f"  {w}" for w in what]))
    sys.exit(any(found.values()))


main()
