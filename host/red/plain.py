#!/usr/bin/env python3
"""plain.py [LABEL..]: puts each slip of red/plain-slips/ into the plain program and sees that its random test reports it.

A slip (scratch.py says its form) is applied to a scratch copy of host/, under target/plain-slips. There
`cargo test --release -p plain --test random` holds plain/ to the model, and nothing of it needs the archive. The copy without a
slip is run first and must pass. A slip is reported when the test ends with status 101 by its own comparison or count: a panic
inside plain/src would end it with the same status and is no report. Status 0 when every slip is reported, else 1.
"""
import re
import subprocess
import sys

sys.dont_write_bytecode = True
from scratch import Scratch

SLIPS = Scratch("plain-slips")
TEST = "cargo test --release --quiet -p plain --test random".split()
PANIC = re.compile(r"^thread '.*panicked at (.*):\d+:\d+:\n(.*)$", re.M)
# What the test says when something differs from the model, and when something was not reached often enough.
OWN = re.compile(r"the model's|was reached \d+ times|was not accepted once|not in any accepted frame|`left == right`")


def tested():
    """Builds the copy's test and runs it: the status, the file that panicked, and the first line of its message."""
    own = dict(SLIPS.environment, RUST_BACKTRACE="0")
    built = subprocess.run([*TEST, "--no-run"], cwd=SLIPS.copy, env=own, capture_output=True, text=True)
    if built.returncode != 0:
        sys.exit("the copy does not build:\n" + built.stderr)
    ran = subprocess.run(TEST, cwd=SLIPS.copy, env=own, capture_output=True, text=True)
    panic = PANIC.search(ran.stdout)
    return ran.returncode, *(panic.groups() if panic else ("", ""))


def main():
    chosen = SLIPS.chosen(sys.argv[1:])
    SLIPS.begin()
    status, file, message = tested()
    if status != 0:
        sys.exit(f"without a slip: status {status}: {file}: {message}")
    print("| slip | status | message |\n|---|---:|---|")
    print("| none | 0 | |", flush=True)
    missed = []
    for edit in chosen:
        status, file, message = SLIPS.with_slip(edit, tested)
        print(f"| {edit.stem} | {status} | {message[:110]} |", flush=True)
        if status != 101 or file != "plain/tests/random.rs" or not OWN.search(message):
            missed.append(edit.stem)
    if missed:
        sys.exit("not reported: " + ", ".join(missed))
    print(f"{len(chosen)} slips, each reported")


if __name__ == "__main__":
    main()
