#!/usr/bin/env python3
"""red.py: every must-fail edit, and what the prover says of it. From the edits of crates/*/must-fail and what rt printed of them, which `rt ci`
and `rt must-fail` do in a line for each edit. A row an edit: its whole line before and after, and what is said first. rt gives 160 characters of
that; --whole has the prover's whole log.

Usage, at the repository's root:
  rt must-fail > FILE                       (or the gate: .ci/run > FILE)
  python3 tools/red.py FILE                 prints the tables, crate by crate, as Markdown, by what rt printed
  python3 tools/red.py --whole FOLDER       checks every edit in a copy of the repository, a check an edit, and keeps each log whole in FOLDER
  python3 tools/red.py FOLDER               prints the tables by these logs, none of it cut
  python3 tools/red.py --functions          prints, for each public function, the edits that stand in its own text
Crates' names after any of them keep it to those crates.

A row says WRONG REASON where rt says that only a proof file which names what the edit took away is why it is refused; of a whole log, which is read
to its end, where any line of it says that the code no longer has the shape of its proof, or any error that a name is not in scope. Such an edit
shows nothing and must be mended. A row says STALE where an edit's old text does not stand exactly once in its file, BAD where rt could not apply or
read it, PASSES where it is still proved, and NO LOG, NO VERDICT or NO REASON where nothing was said of it, the check came to no verdict (for a limit
of the prover's, say), or no error was told. Status 1 if there is such a row.
"""
import re
import shutil
import subprocess
import sys
import tempfile
from pathlib import Path

ROOT = Path(__file__).resolve().parent.parent
LIMIT = 160
ERROR = re.compile(r"^(?:\./)?(?:proofs|specs|src)/(\S+?):\d+:\d+: error(?:\[[\w-]+\])?: (.*)")
NOTE = re.compile(r"^note: (?:\./)?(?:proofs|specs|src)/(\S+?):\d+:\d+: (.*)")
WRONG = re.compile(r"error(?:\[[\w-]+\])?: .*(?:is not in scope(?! here)|has no field|has no `)")
LINE = re.compile(r"(?m)^rt: must-fail (\w+)/(\w+)\.edit: (.*)$")


def crates(only):
    lines = (ROOT / "crates.txt").read_text().splitlines()
    names = [line.split(":")[0].split()[0] for line in lines if ":" in line and not line.startswith("#")]
    apart = set(only) - set(names)
    if apart:
        sys.exit(f"red.py: no crate {', '.join(sorted(apart))}")
    return [n for n in names if not only or n in only]


def edits(crate):
    """Each edit of a crate: its name, and its file, old and new text, for every pair that it has."""
    found = []
    for path in sorted((ROOT / "crates" / crate / "must-fail").glob("*.edit")):
        file = old = None
        for line in path.read_text().splitlines():
            word, _, text = line.partition(": ")
            file, old = (text.strip() if word == "file" else file), (text if word == "old" else old)
            if word in ("new", "new:"):
                found.append((path.stem, file, old, text))
    return found


def stands(crate, file, old):
    """How often an edit's old text stands in its file."""
    path = ROOT / "crates" / crate / file
    return path.read_text().count(old) if path.exists() else 0


# ---- what the prover says


def named(file, words):
    """A file and what is said there, without the name that every proof file has."""
    words = re.sub(r"`search`: no proof of.*", "`search` finds no proof", words)
    return re.sub(r"/(?:Answers|Proof)\.antt$", "", file), words


def told(line):
    """What a line of the prover says, and where; nothing where it says nothing of the kind."""
    m = ERROR.match(line) or NOTE.match(line)
    return named(m[1], m[2]) if m else None


def first(log):
    """What a log says first: an error, or of a function without a proof file what is not proved."""
    lines = log.splitlines()
    found = [told(line) for line in lines if ERROR.match(line)] or [told(line) for line in lines if NOTE.match(line)]
    return f"{found[0][0]}: {found[0][1]}" if found else "NO REASON"


def by_log(path):
    """What a whole log says first; before it, what is wrong with it anywhere from its first line to its last."""
    if not path.exists():
        return "NO LOG"
    log = path.read_text(errors="replace")
    if re.search(r"(?m)^logic=proved\b", log):
        return "PASSES"
    if not re.search(r"(?m)^logic=not-proved\b", log):
        return f"NO VERDICT: {first(log)}"
    wrong = next((line for line in log.splitlines() if WRONG.search(line)), None)
    if wrong is None:
        return first(log)
    return f"WRONG REASON: {': '.join(told(wrong) or [wrong.strip()])}; first: {first(log)}"


def by_line(text):
    """What rt's line of an edit says."""
    if not text.startswith("refused, as it must be"):
        kinds = {"BAD EDIT": "BAD", "NOT REFUSED": "PASSES", "NOT TRIED": "NO VERDICT"}
        return next((f"{ours}: {text}" for theirs, ours in kinds.items() if text.startswith(theirs)), f"NO VERDICT: {text}")
    refused, _, why = text.removeprefix("refused, as it must be").partition(": ")
    if refused.startswith(" (only because"):
        return f"WRONG REASON: {text.rsplit('): ', 1)[-1]}"
    if refused.startswith(" (only by a limit"):
        return f"NO VERDICT: {text.rsplit('): ', 1)[-1]}"
    if not why:
        return "NO REASON"
    words = ": ".join(told(why) or [why])
    return f"WRONG REASON: {words}" if WRONG.search(why) else words + (" .." if len(why) >= LIMIT and not words.endswith("finds no proof") else "")


def source(path):
    """What says of each edit what came of it: a folder of whole logs, or a file of what rt printed."""
    if path.is_dir():
        return lambda crate, label: by_log(path / crate / f"{label}.log")
    lines = {(m[1], m[2]): m[3] for m in LINE.finditer(path.read_text(errors="replace"))}
    return lambda crate, label: by_line(lines[crate, label]) if (crate, label) in lines else "NO LOG"


# ---- whole logs


def whole(folder, only):
    """Checks each edit in a copy of the repository, and keeps what the check prints."""
    with tempfile.TemporaryDirectory() as room:
        copy = Path(room)
        shutil.copytree(ROOT / "crates", copy / "crates", ignore=shutil.ignore_patterns("out"))
        for name in ("crates.txt", "HANDLES"):
            if (ROOT / name).exists():
                shutil.copy(ROOT / name, copy)
        for crate in crates(only):
            pairs, labels = edits(crate), dict.fromkeys(label for label, *_ in edits(crate))
            for label in labels:
                own = [(file, old, new) for name, file, old, new in pairs if name == label]
                was = {file: (copy / "crates" / crate / file).read_text() for file, _, _ in own}
                for file, old, new in own:
                    path = copy / "crates" / crate / file
                    path.write_text(path.read_text().replace(old, new))
                ran = subprocess.run(["rt", "check"], cwd=copy / "crates" / crate, capture_output=True, text=True, errors="replace")
                for file, text in was.items():
                    (copy / "crates" / crate / file).write_text(text)
                (folder / crate).mkdir(parents=True, exist_ok=True)
                (folder / crate / f"{label}.log").write_text(ran.stdout + ran.stderr)
                print(f"{crate}/{label}: status {ran.returncode}", flush=True)
    return True


# ---- the tables


def cell(text):
    return text.strip().replace("|", "\\|")


def tables(said, only):
    """The tables, and whether every edit is as it should be."""
    fine = True
    for crate in crates(only):
        rows = edits(crate)
        if rows:
            print(f"\n### `{crate}`\n\n| Edit | In | Was | Becomes | First thing said |\n|---|---|---|---|---|")
        seen = set()
        for label, file, old, new in rows:
            words = said(crate, label)
            times = stands(crate, file, old)
            # A later pair of an edit applies to what the earlier ones made.
            if times != 1 and label not in seen:
                words = f"STALE: its old text stands {times} times; {words}"
            seen.add(label)
            fine = fine and not words.startswith(("STALE", "WRONG", "NO ", "BAD", "PASSES"))
            print(f"| {label} | {file} | `{cell(old)}` | `{cell(new)}` | {cell(words)} |")
    return fine


def functions(path):
    """Every function of a source: its name, whether it is public, its first and its last line. The methods of an implementation of a trait are."""
    lines, found, block = path.read_text().splitlines(), [], ""
    for n, line in enumerate(lines):
        m = re.match(r"( *)(pub )?(?:pub\(crate\) )?(?:extern \"C\" )?fn (\w+)", line)
        if m and not block.startswith("trait "):
            end = next((k for k in range(n, len(lines)) if lines[k] == m[1] + "}"), len(lines))
            found.append((f"{m[3]} ({block})" if m[1] else m[3], bool(m[2]) or " for " in block, n, end))
        elif line[:1].strip():
            opened = re.match(r"(?:pub )?((?:trait|impl) .*\w) \{$", line)
            block = opened[1] if opened else ""
    return found


def by_function(only):
    """The edits that stand in the text of each public function, contract and body."""
    for crate in crates(only):
        for path in sorted((ROOT / "crates" / crate / "src").rglob("*.rt")):
            text = path.read_text()
            own = [(label, text[: text.find(old)].count("\n")) for label, file, old, _ in edits(crate)
                   if ROOT / "crates" / crate / file == path and old in text]
            for name, public, start, end in functions(path):
                inside = [label for label, line in own if start <= line <= end]
                if public:
                    print(f"{len(inside)} {crate}::{name}: {', '.join(inside)}")
    return True


def main():
    words = sys.argv[1:]
    if words[:1] == ["--functions"]:
        return by_function(words[1:])
    if words[:1] == ["--whole"] and words[1:]:
        return whole(Path(words[1]), words[2:])
    if not words or words[0].startswith("-") or not Path(words[0]).exists():
        sys.exit("usage: python3 tools/red.py FILE|FOLDER [CRATE..] | --whole FOLDER [CRATE..] | --functions [CRATE..]")
    return tables(source(Path(words[0])), words[1:])


sys.exit(0 if main() else 1)
