#!/usr/bin/env python3
"""list.py: edits one case of the stored list, in one place at a time, and sees that `replay-list --check` reports that case.

The list is written anew to target/red/whole.myrl and must pass. Then, each in a copy of its own: the stored number of case 0,
its first sample, and the stored place of the first case that is refused at a slice. Status 0 when each copy ends with
status 1 and the one edited case is the one reported, else 1. The form is in replay-list/src/form.rs.
"""
import subprocess
import sys
from pathlib import Path

HOST = Path(__file__).resolve().parent.parent
RED = HOST / "target" / "red"
# Where a case's stored number, kind and place stand, the sizes of its three parts, and the first part: the runs of lengths.
NUMBER, KIND, PLACE, SIZES, RUNS = 48, 52, 56, (60, 64, 68), 76


def replay_list(*words):
    command = ["cargo", "run", "--release", "--quiet", "-p", "replay-list", "--", *words]
    return subprocess.run(command, cwd=HOST, capture_output=True, text=True)


def word(data, at):
    return int.from_bytes(data[at : at + 4], "little")


def cases(data):
    """Where each case begins."""
    at = 0
    while at < len(data):
        yield at
        at += RUNS + sum(word(data, at + size) for size in SIZES)


def edits(data):
    """Name, index of the edited case, position of the edited byte, and its new value."""
    starts = list(cases(data))
    yield "number", 0, NUMBER, 13
    sample = RUNS + word(data, SIZES[0])
    yield "sample", 0, sample, data[sample] ^ 1
    index = next(i for i, s in enumerate(starts) if word(data, s + KIND) == 1)
    yield "place", index, starts[index] + PLACE, data[starts[index] + PLACE] + 1


def main():
    RED.mkdir(parents=True, exist_ok=True)
    whole = RED / "whole.myrl"
    for words in ([str(whole)], ["--check", str(whole)]):
        ran = replay_list(*words)
        if ran.returncode != 0:
            sys.exit("the whole list: " + ran.stderr)
    data = whole.read_bytes()
    print(f"whole: {len(list(cases(data)))} cases, status 0")
    for name, index, at, value in edits(data):
        copy = bytearray(data)
        copy[at] = value
        file = RED / f"{name}.myrl"
        file.write_bytes(copy)
        ran = replay_list("--check", str(file))
        said = [line for line in ran.stdout.splitlines() if "WRONG" in line]
        print(f"{name}: {'; '.join(said)}, status {ran.returncode}")
        if ran.returncode != 1 or len(said) != 1 or not said[0].startswith(f"{index} WRONG"):
            sys.exit(f"{name}: the edited case is {index}, and it is not the one reported")
    print("each edit is reported")


if __name__ == "__main__":
    main()
