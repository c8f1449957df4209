#!/usr/bin/env python3
"""red_programs.py: sees the programs demo and replay fail.

Each row below changes a copy of the repository, in a temporary folder, and runs programs of it. A wrong decoder is not proved, so it is run by
`rt try`, which proves nothing, and what it writes is held to the program's file stdout here; of replay only the last line is, which counts the wrong
cases. A spoiled file is run by the gate's own comparison, `rt ci NAME`. Every row must end with status 1 and the last but one with status 0 (where rt
itself ends a try with another status than 0, the row says what rt said), and must say the words that stand in it below. The last two show what the
memory set first is worth: with what it must hold afterwards already lying there (the customer's power-on test once did that) the right decoder
passes, and most cases pass the decoder that writes nothing.

Usage, at the repository's root, after the gate: python3 tools/red_programs.py [WORD..], a word choosing the rows that have it in their name.
Status 0 when every row is as it should be, and there is one.
"""
import re
import shutil
import subprocess
import sys
import tempfile
from pathlib import Path

ROOT = Path(__file__).resolve().parent.parent


def change(path, edit):
    """An edit of one file of the copy, as text or, where the edit takes bytes, as bytes."""

    def apply(copy):
        file = copy / path
        file.write_bytes(edit(file.read_bytes()))

    return apply


def swap(path, old, new):
    """A text that stands once."""

    def edit(data):
        text = data.decode()
        if text.count(old) != 1:
            sys.exit(f"{path}: stands {text.count(old)} times: {old}")
        return text.replace(old, new).encode()

    return change(path, edit)


def cut(path, pattern, new):
    """Every match of a pattern, of which there is one at least."""

    def edit(data):
        text, count = re.subn(pattern, new, data.decode(), flags=re.S)
        if count == 0:
            sys.exit(f"{path}: nothing matches: {pattern}")
        return text.encode()

    return change(path, edit)


def byte(path, at, value):
    """A byte of a file, at a place and to a value that are functions of its bytes."""

    def edit(data):
        return data[: at(data)] + bytes([value(data)]) + data[at(data) + 1 :]

    return change(path, edit)


# The call that reads a slice into its place; the calls that clear the planes; the lines that set the planes first.
ENTRIES = "crates/decode/src/lib.rt"
WRITES_NOTHING = [cut(ENTRIES, r"\bslice::read\((?:[^()]|\([^()]*\))*\)", "Ok(())")]
NO_CLEARING = [cut(ENTRIES, r"\bbuffer::clear_planes\([^()]*\);", "")]
HOLDS_THE_ANSWER = [
    swap("crates/cases/src/lib.rt", "after[i] ^ flip", "after[i]"),
    swap("crates/cases/src/lib.rt", "after[2 * i] ^ flip, after[2 * i + 1] ^ flip", "after[2 * i], after[2 * i + 1]"),
]
# A program of which only the last line is compared, so that the count of wrong cases is seen.
TALLY = ("replay",)

LIST = "crates/replay/data/cases.myrl"
NUMBER = 48


def sample(data):
    """Where the first sample of case 0 stands: after its 76 bytes of numbers and its runs."""
    return 76 + int.from_bytes(data[60:64], "little")


# name, edits, verb, the status that must come of it, and for each program the words that it must say
ROWS = [
    ("writes nothing and trusts old memory", WRITES_NOTHING, "try", 1, {"demo": "found `170 170", "replay": "found `198 wrong"}),
    ("does not clear after a refusal", NO_CLEARING, "try", 1, {"demo": "found `170 170", "replay": "found `184 wrong"}),
    ("the list: case 0 expects refusal 13", [byte(LIST, lambda d: NUMBER, lambda d: 13)], "ci", 1, {"replay": "is not what its file stdout has"}),
    ("the list: case 0 expects another sample", [byte(LIST, sample, lambda d: d[sample(d)] ^ 1)], "ci", 1, {"replay": "is not what its file stdout has"}),
    ("demo expects another sample", [swap("crates/demo/stdout", "U: 128 127", "U: 128 126")], "ci", 1, {"demo": "is not what its file stdout has"}),
    ("demo expects another refusal", [swap("crates/demo/stdout", "entry 1 of 9: refusal 6", "entry 1 of 9: refusal 7")], "ci", 1, {"demo": "is not what its file stdout has"}),
    ("memory holds the answer, the right decoder", HOLDS_THE_ANSWER, "try", 0, {"replay": "wrote what its 'stdout' has"}),
    ("memory holds the answer, writes nothing", WRITES_NOTHING + HOLDS_THE_ANSWER, "try", 1, {"replay": "found `65 wrong"}),
]


def said(text):
    """What a run says of itself: the line of rt that tells the difference, or its last one."""
    lines = [line.strip()[:200] for line in text.splitlines() if line.strip()]
    return next((line for line in lines if "they differ first at" in line), lines[-1] if lines else "")


def compared(program, wrote, wanted):
    """The status of what a program wrote, and where it first differs."""
    if program in TALLY:
        wrote, wanted = (text.rstrip("\n").rsplit("\n", 1)[-1] + "\n" for text in (wrote, wanted))
    if wrote == wanted:
        return 0, "it wrote what its 'stdout' has. Nothing is proved by that"
    at = next((i for i, (a, b) in enumerate(zip(wrote, wanted)) if a != b), min(len(wrote), len(wanted)))
    shown = lambda text: text[at : at + 16].replace("\n", "\\n")
    return 1, f"at byte {at} expected `{shown(wanted)}`, found `{shown(wrote)}`"


def tried(folder, program):
    """A program's run with no proof, over the files that it is given, and what it wrote beside what it must."""
    files = sorted((folder / "data").glob("*"))
    data = [word for file in files for word in ("--data", f"{file.name}={file.relative_to(folder)}")]
    ran = subprocess.run(["rt", "try", *data], cwd=folder, stdin=subprocess.DEVNULL, capture_output=True, text=True, errors="replace")
    if ran.returncode:
        return ran.returncode, said(ran.stdout + ran.stderr)
    return compared(program, ran.stdout, (folder / "stdout").read_text())


def run(name, edits, verb, status, program, words):
    with tempfile.TemporaryDirectory() as folder:
        copy = Path(folder) / "copy"
        copy.mkdir()
        shutil.copytree(ROOT / "crates", copy / "crates", ignore=shutil.ignore_patterns("out"))
        for file in ("crates.txt", "HANDLES"):
            if (ROOT / file).exists():
                shutil.copy(ROOT / file, copy)
        for edit in edits:
            edit(copy)
        if verb == "try":
            ended, says = tried(copy / "crates" / program, program)
        else:
            ran = subprocess.run(["rt", verb, program], cwd=copy, capture_output=True, text=True, errors="replace")
            ended, says = ran.returncode, said((ran.stdout + ran.stderr).replace(str(copy) + "/", ""))
        right = ended == status and words in says
        how = f"rt try in crates/{program}" if verb == "try" else f"rt {verb} {program}"
        print(f"{'' if right else 'NOT AS IT SHOULD BE: '}{name} | {how} | status {ended} | {says}", flush=True)
        return right


def main():
    rows = [r for r in ROWS if all(w in r[0] for w in sys.argv[1:])]
    fine = [run(name, edits, verb, status, *one) for name, edits, verb, status, programs in rows for one in programs.items()]
    sys.exit(0 if fine and all(fine) else 1)


main()
