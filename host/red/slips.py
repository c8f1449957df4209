#!/usr/bin/env python3
"""slips.py [LABEL..]: puts each slip of red/slips/ into the model and sees that the comparison with the customer's Rust reports it.

A slip (scratch.py says its form) is applied to a scratch copy of host/, under target/slips. There MAGICYUV_ARCHIVE is `none`: our side
is the model with the slip in it, and what reports it is the Rust's answers, and the rules on memory and tables in compare/. The
copy without a slip is run first and must report nothing. Status 0 when every slip is reported with status 1, else 1.
"""
import re
import subprocess
import sys

sys.dont_write_bytecode = True
from scratch import Scratch

SLIPS = Scratch("slips")
RUN = "--frames 4000 --split 500 --alone 300 --no-small".split()


def compared():
    """Builds the copy and runs its comparison: the status, how many differences, and the smallest one's message."""
    words = ["cargo", "build", "--release", "--quiet", "-p", "compare"]
    built = subprocess.run(words, cwd=SLIPS.copy, env=SLIPS.environment, capture_output=True, text=True)
    if built.returncode != 0:
        sys.exit("the copy does not build:\n" + built.stderr)
    program = SLIPS.target / "release" / "compare"
    ran = subprocess.run([program, *RUN], capture_output=True, text=True)
    count = re.search(r"^DIFFERENCES: (\d+)$", ran.stdout, re.M)
    message = re.search(r"^smallest: (.*)$", ran.stdout, re.M)
    return ran.returncode, int(count[1]) if count else 0, message[1] if message else ""


def main():
    chosen = SLIPS.chosen(sys.argv[1:])
    SLIPS.begin()
    status, count, message = compared()
    if (status, count) != (0, 0):
        sys.exit(f"without a slip: status {status}, {count} differences: {message}")
    print("| slip | differences | status | smallest |\n|---|---:|---:|---|")
    print("| none | 0 | 0 | |", flush=True)
    missed = []
    for edit in chosen:
        status, count, message = SLIPS.with_slip(edit, compared)
        print(f"| {edit.stem} | {count:,} | {status} | {message[:110]} |", flush=True)
        if status != 1 or count == 0:
            missed.append(edit.stem)
    if missed:
        sys.exit("not reported: " + ", ".join(missed))
    print(f"{len(chosen)} slips, each reported")


if __name__ == "__main__":
    main()
