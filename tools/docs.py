#!/usr/bin/env python3
"""docs.py: holds README.md, docs/ and host/*.md to what is there.

- Every path that begins with crates/, docs/, host/ or tools/ exists; on a page of host/ also every path that begins with a folder of host/, and
  host/README.md names every folder of host/.
- Every file of the sources, proofs and tools that is named without its path is there under some path.
- Every word crate/edit is an edit of that crate, every crate::function a function of it, and every crate, package or option that a command
  names is there.
- Every name in backquotes stands in a source, a specification, a proof, a tool or the host's Rust; and where a place stands behind it in brackets
  (a crate, a path, a file of crates/scope/specs), or `in` and a path, it stands there.
- The numbers of crates, edits, public functions, tests, slips, wrong decoders, formats and stored cases are today's, and README.md's output of
  demo is what crates/demo/stdout has.
- Every edit is named in docs/RED.md or docs/ARCHITECTURE.md.
- docs/RED.md's tables of edits of definitions have every edit of those crates; every line of tools/equal_changes.txt stands in the file that it names, with what
  is changed at the column that it names, under a comment with its reason.
- The picture of the crates and the table of `requires` are what tools/picture.py and tools/statements.py make of the sources.
Notes of a landing (docs/landings/) speak of their day, docs/PORT.md and docs/DESIGN-PASS.md of names of before beside today's: of them only the paths are checked.

Usage, at the repository's root:
  python3 tools/docs.py    prints what is not so; status 1 if anything is not
"""
import re
import subprocess
import sys
from pathlib import Path

sys.dont_write_bytecode = True
import statements

ROOT = Path(__file__).resolve().parent.parent
CRATES = statements.crates()
FUNCTIONS = statements.functions()
PLACEHOLDERS = ("NAME", "CRATE", "LABEL")
# The commands of the kit.
VERBS = set("ci check try test run lib lemma fmt tidy expand plant seed verdict all must-fail new doc version help names selftest".split())
# Errors of the customer's Rust that nothing here names but pages.
FOREIGN = {"BadMagic", "DimensionTooLarge", "ZeroDimension"}
# The kit's own script.
KITS = {"port.py"}
# What names of an older spelling stand in.
OLD = {"respell.py"}
# Options of cargo, valgrind and rustfmt that pages give.
OPTIONS = {"--release", "--no-deps", "--features", "--tool", "--toggle-collect"}
WORDS = "zero one two three four five six seven eight nine ten".split()


def pages():
    own = [ROOT / "README.md", *sorted((ROOT / "docs").rglob("*.md")), *sorted((ROOT / "host").glob("*.md"))]
    return [p for p in own if "wip" not in p.parts]


def below(folder):
    """What stands below a folder, but what a build leaves."""
    return [p for p in (ROOT / folder).rglob("*") if not {"out", "target", "__pycache__"} & set(p.relative_to(ROOT).parts)]


def texts(folder, endings):
    return "\n".join(p.read_text() for p in below(folder) if p.suffix in endings and p.name not in OLD)


def known():
    """Every word that a name in backquotes may be."""
    text = texts("crates", (".rt", ".antt")) + texts("host", (".rs", ".toml", ".py", ".sh")) + texts("tools", (".py",))
    labels = {p.stem for p in (ROOT / "crates").glob("*/must-fail/*.edit")}
    files = {p.name for p in below("crates")}
    return set(re.findall(r"[\w'₀₁₂]+(?:-[\w'₀₁₂]+)*", text)) | labels | files | set(CRATES)


def counts():
    """Phrases of pages in which # stands for a number, and today's number."""
    rust = {p: p.read_text() for p in below("host") if p.suffix == ".rs"}
    fences = re.compile(r"(?m)^//[/!] ```(\w*)\n(?://[/!].*\n)*?//[/!] ```$")
    tests = sum(text.count("#[test]") + fences.findall(text).count("") for text in rust.values())
    data, cases, at = (ROOT / "crates/replay/data/cases.myrl").read_bytes(), [], 0
    while at < len(data):
        case = [int.from_bytes(data[i : i + 4], "little") for i in range(at, at + 76, 4)]
        cases.append(case)
        at += 76 + sum(case[15:18])
    formats = (ROOT / "host/oracle/tables/00-fourcc-table.csv").read_text().splitlines()
    found = {
        "# crates": len(CRATES),
        "The # libraries": sum(not (ROOT / f"crates/{c}/src/main.rt").exists() for c in CRATES),
        "# must-fail edits": sum(statements.edits(c) for c in CRATES),
        "# public functions": sum(f.public for f in FUNCTIONS),
        "# tests": tests,
        "of # (?:failed|known answers)": rust[ROOT / "host/tests/known.rs"].count("#[test]"),
        "# slips|All #, as it printed": len(list((ROOT / "host/red/slips").glob("*.edit"))),
        "# wrong decoders": len(list((ROOT / "host/red").glob("*.c"))),
        "[Aa]ll # formats": sum(line[0].isalnum() for line in formats) - 1,
        "# cases|# frames with the oracle": len(cases),
        "cases, # bytes|cases.myrl, # bytes": len(data),
        "# accepted over all": sum(case[12] == 0 for case in cases),
        "# answers are the Rust's whole": sum(case[18] == 0 for case in cases),
        "# its number with document 01's place": sum(case[18] == 1 for case in cases),
        "place, # document 01's": sum(case[18] == 2 for case in cases),
    }
    return found | {f"`rt must-fail {c}`: # edits": statements.edits(c) for c in CRATES}


def paths(page, text):
    missing = []
    for path in re.findall(r"(?<![\w./-])(?:\.\./)?((?:crates|docs|host|tools)/[\w./-]*\w)", text):
        if not (ROOT / path).exists() and not any(w in path for w in PLACEHOLDERS):
            missing.append(path)
    if page.parent == ROOT / "host":
        folders = "|".join(p.name for p in page.parent.iterdir() if p.is_dir() and p.name != "target")
        for path in re.findall(rf"(?<![\w./-])((?:{folders})/[\w./-]*\w)", text):
            if not (page.parent / path).exists():
                missing.append(path)
        if page.name == "README.md":
            missing += [f"word of the folder {f}" for f in folders.split("|") if f"{f}/" not in text]
    return [f"no {p}" for p in missing]


def files(text, there):
    """Names of source files, wherever they stand."""
    return [f"no file {n}" for n in re.findall(r"(?<![\w.-])([\w-]+\.(?:rt|antt|py|rs|sh|c|edit))\b", text) if n not in there | KITS]


def edits(text):
    there = {f"{p.parts[-3]}/{p.stem}" for p in (ROOT / "crates").glob("*/must-fail/*.edit")}
    words = re.findall(r"(?<![\w./-])([a-z0-9]+/[a-z0-9_]+)(?![\w./-])", text)
    return [f"no edit {w}" for w in words if w.split("/")[0] in CRATES and w not in there]


def names(text, words):
    functions = {f.full() for f in FUNCTIONS}
    found = []
    for name in re.findall(r"`([^`\n]+)`", text):
        word = name.lstrip("-")
        if re.fullmatch(r"[\w-]+", word) and word not in words | FOREIGN and not re.fullmatch(r"\d+|[0-9a-f]{16,}", word):
            found.append(f"no name {name}")
        if re.fullmatch(r"\w+::\w+", name) and name.split("::")[0] in CRATES and name not in functions:
            found.append(f"no function {name}")
        error = re.match(r"([A-Z]\w+)(?: \{|\()", name)
        if error and error[1] not in words | FOREIGN:
            found.append(f"no name {error[1]}")
    return found


def standing(page, text):
    """Names with the place where they stand behind them: `name`, `name` (place, place), or `name` in `path`."""
    found = []
    bracketed = re.findall(r"((?:`[^`\n]+`,? (?:and )?)+)\(([\w/., -]+)[);,]", text)
    for listed, behind in bracketed + re.findall(r"(`[^`\n]+`) in `([\w/.-]+\.\w+)`", text):
        there = places(page.parent, behind)
        inside = "\n".join(map(read, there))
        for name in re.findall(r"`([\w-]+)`", listed):
            if there and not re.search(rf"(?<![\w-]){name}(?![\w-])", inside):
                found.append(f"no {name} in {behind}")
    return found


def places(folder, text):
    """What the words in a bracket name: crates, paths, files beside the path before them, or files of crates/scope/specs."""
    found = []
    for word in re.split(r", (?:and )?| and ", text):
        options = [ROOT / "crates" / word] if word in CRATES else [folder / word, ROOT / word] if "/" in word else []
        options += [ROOT / f"crates/scope/specs/{word}.antt"] + [path.parent / word for path in found[-1:] if "." in word]
        found += [path for path in options if path.exists()][:1]
    return found


def read(path):
    files = [path] if path.is_file() else [p for p in below(path) if p.suffix in (".rt", ".antt")]
    return "\n".join(p.read_text() for p in files)


def commands(text):
    found = []
    for words in re.findall(r"`rt (?:ci|must-fail) ([a-z0-9_ ]+)`", text) + re.findall(r"crates/(\w+)(?=\)? (?:&& )?rt )|`rt \w+` in crates/(\w+)", text):
        found += [f"no crate {w}" for w in " ".join(words if isinstance(words, tuple) else [words]).split() if w not in CRATES and w not in PLACEHOLDERS]
    verbs = re.findall(r"(?:`|&& |(?m:^))rt ([a-z-]+)", text)
    found += [f"no command rt {v}" for v in verbs if v not in VERBS]
    # These work on the crate in whose folder they run, and take no crate's name.
    found += [f"rt {v} takes no crate: {w}" for v, w in re.findall(r"(?:`|&& |(?m:^))rt (check|try|run|lib|test|verdict|tidy|fmt|plant) ([a-z0-9_]+)", text) if w in CRATES]
    packages = re.findall(r'name = "([\w-]+)"', texts("host", (".toml",)))
    found += [f"no package {p}" for p in re.findall(r"cargo [^`\n]*-p ([\w-]+)", text) if p not in packages]
    sources = texts("host", (".rs", ".py", ".sh")) + texts("tools", (".py",))
    return found + [f"no option {o}" for o in re.findall(r"(?<![\w-])--[a-z][a-z-]+", text) if o not in OPTIONS and not re.search(rf"{o}(?![\w-])", sources)]


def numbers(text, today):
    found = []
    for phrase, count in today.items():
        number = rf"(\d[\d,]*|{'|'.join(WORDS)})" if "decoders" in phrase or "`" in phrase else r"(\d[\d,]*)"
        for m in re.finditer(phrase.replace("#", number), text):
            said = next(g for g in m.groups() if g)
            if (WORDS.index(said) if said in WORDS else int(said.replace(",", ""))) != count:
                found.append(f"{' '.join(m[0].split())}, and there are {count}")
    return found


def rows(text):
    """docs/RED.md: its tables of edits of definitions, against the edits of the crates that they name."""
    found = []
    for title, crate in (("## Definitions (crate `scope`)", "scope"), ("## Definitions that only proofs use", None)):
        listed = re.findall(r"(?m)^\| ([a-z0-9_/]+) \|", text.split(title)[1].split("\n## ")[0])
        named = {f"{crate}/{n}" if crate else n for n in listed}
        there = {f"{p.parts[-3]}/{p.stem}" for p in (ROOT / "crates").glob("*/must-fail/*.edit") if p.parts[-3] in {n.split("/")[0] for n in named}}
        found += [f"no edit {n}" for n in sorted(named - there)] + [f"no row of the edit {n}" for n in sorted(there - named)]
    return found


def equal_changes():
    """tools/equal_changes.txt: a line `file | change | line` is of a line of crates/scope/specs, with what is changed at the change's column; a reason
    stands above its group."""
    found, reason = [], False
    for line in (ROOT / "tools/equal_changes.txt").read_text().splitlines():
        if line.startswith("#") or not line:
            reason = bool(line)
            continue
        name, change, code = (line.split(" | ", 2) + ["", ""])[:3]
        file = ROOT / "crates/scope/specs" / name
        there = [l for l in file.read_text().splitlines() if l.strip() == code] if file.exists() else []
        if not there:
            found.append(f"no such line: {line}")
        place = re.fullmatch(r"(.+)->.+@(\d+)", change)
        if there and not (place and any(l[int(place[2]) :].lstrip().startswith(place[1]) for l in there)):
            found.append(f"not at that column: {line}")
        if not reason:
            found.append(f"no reason above: {line}")
    return found


def unnamed():
    """The edits that neither docs/RED.md nor docs/ARCHITECTURE.md names."""
    text = (ROOT / "docs/RED.md").read_text() + (ROOT / "docs/ARCHITECTURE.md").read_text()
    there = [(p.parts[-3], p.stem) for p in sorted((ROOT / "crates").glob("*/must-fail/*.edit"))]
    return [f"{c}/{e}" for c, e in there if not re.search(rf"\b{c}/{e}\b", text) and not (c == "scope" and f"\n| {e} |" in text)]


def shown(text):
    """The output that README.md shows."""
    printed = (ROOT / "crates/demo/stdout").read_text().splitlines()
    block = text[text.index("```text\n") + 8 :].split("\n```")[0]
    return [f"demo does not print: {line}" for line in block.splitlines() if line.strip() != ".." and line not in printed]


def main():
    wrong, words, today = [], known(), counts()
    there = {p.name for folder in ("crates", "host", "tools") for p in below(folder)}
    for page in pages():
        text = page.read_text()
        found = paths(page, text)
        if "landings" not in page.parts and page.name not in ("PORT.md", "DESIGN-PASS.md"):
            found += files(text, there) + edits(text) + names(text, words) + standing(page, text) + commands(text) + numbers(text, today)
        if page.name == "README.md" and page.parent == ROOT:
            found += shown(text)
        if page.name == "RED.md":
            found += rows(text)
        wrong += [f"{page.relative_to(ROOT)}: {what}" for what in found]
    wrong += [f"no page names the edit {e}" for e in unnamed()]
    wrong += [f"tools/equal_changes.txt: {what}" for what in equal_changes()]
    for tool in (["picture.py"], ["statements.py", "--page"]):
        ran = subprocess.run([sys.executable, ROOT / "tools" / tool[0], *tool[1:]], capture_output=True, text=True)
        wrong += (ran.stdout + ran.stderr).splitlines()
    print("\n".join(dict.fromkeys(wrong)) or "every path, edit, name, command and number is there")
    return 1 if wrong else 0


sys.exit(main())
