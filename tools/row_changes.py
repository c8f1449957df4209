#!/usr/bin/env python3
"""row_changes.py: the tables of refusals (crates/scope/specs, Frame.antt and Alone.antt) with a row that never applies, two adjacent rows exchanged, or two
adjacent parts of `table` exchanged: one change at a time, in a copy, and `rt check` in crates/scope must refuse each. Exchanges that change no value are in EQUAL, with the reason.

Usage, at the repository's root: python3 tools/row_changes.py   (some seconds a change; status 1 where a change passes that should not)"""
import re
import shutil
import subprocess
import sys
import tempfile
from pathlib import Path

ROOT = Path(__file__).resolve().parent.parent
ROW = re.compile(r"^(\s+(?:∷ |\+\+ )?)(row (\d+) .*)()$")
PART = re.compile(r"^(\s+(?:\+\+ \(?)?)((?:\w+_rows|rows_of_each) (?:[^()]|\((?:[^()]|\([^()]*\))*\))*)(\)*)$")
# Rows of one number and place may change places; and a plane with no word asks for no byte, so its 14 and the 12 by size never both apply.
EQUAL = {("6", "6"), ("8", "8"), ("12", "12"), ("14", "12")}


def changes(lines):
    """What is changed, and the lines then."""
    rows = [(i, m) for i, m in enumerate(map(ROW.match, lines)) if m]
    for i, m in rows:
        never = re.sub(r"^(row \d+ (?:Nothing|\((?:[^()]|\([^()]*\))*\))) .*$", r"\1 (ltb 1 0)", m[2])
        yield f"line {i + 1}: row {m[3]} never applies", True, lines[:i] + [m[1] + never] + lines[i + 1 :]
    for (i, a), (j, b) in zip(rows, rows[1:]):
        if all(l.strip().startswith("--") for l in lines[i + 1 : j]):
            yield f"lines {i + 1} and {j + 1}: rows {a[3]} and {b[3]} exchanged", (a[3], b[3]) not in EQUAL, exchanged(lines, i, a, j, b)
    parts = [(i, m) for i, m in enumerate(map(PART.match, lines)) if m]
    for (i, a), (j, b) in zip(parts, parts[1:]):
        if j == i + 1:
            yield f"lines {i + 1} and {j + 1}: parts exchanged", True, exchanged(lines, i, a, j, b)


def exchanged(lines, i, a, j, b):
    new = lines[:]
    new[i] = a[1] + b[2] + a[a.re.groups]
    new[j] = b[1] + a[2] + b[b.re.groups]
    return new


def main():
    passed = tried = equal = 0
    with tempfile.TemporaryDirectory() as folder:
        shutil.copytree(ROOT / "crates/scope", f"{folder}/crates/scope", ignore=shutil.ignore_patterns("out"))
        Path(f"{folder}/crates.txt").write_text("scope:\n")
        for name in ("Frame.antt", "Alone.antt"):
            file = Path(f"{folder}/crates/scope/specs/{name}")
            text = file.read_text()
            for what, refused, lines in changes(text.split("\n")):
                file.write_text("\n".join(lines))
                status = subprocess.run(["rt", "check"], cwd=f"{folder}/crates/scope", capture_output=True, text=True)
                tried, equal = tried + 1, equal + (not refused)
                if "not in scope" in status.stdout + status.stderr or (status.returncode == 0) == refused:
                    passed += 1
                    print(f"{name}, {what}: {'passes' if status.returncode == 0 else 'is refused for another reason'}", flush=True)
            file.write_text(text)
    print(f"{tried} changes, {equal} of them equal, {passed} not as they should be")
    return 1 if passed else 0


sys.exit(main())
