#!/usr/bin/env python3
"""budget.py: what the must-fail edits cost beside the checks. Each edit costs a good part of a check of its crate, so edits soon cost more
than all proofs; together they may cost at most three times what the checks of all crates cost.
rt prints no seconds, so they are taken from when it prints a line, in a run that does one thing after the other and takes nothing from earlier runs.
Usage, at the repository's root:
  RT_JOBS=1 rt ci --anew | python3 tools/budget.py --stamp > FILE     passes each line on, with the seconds since the start before it
  python3 tools/budget.py FILE                                        reads them
Prints one line a crate (seconds of its check, with its tests; number and seconds of its edits, where what the next crate's edits begin with counts to
these), then the sums and their ratio. Status 1 if the ratio is above 3, 2 if a crate of crates.txt has no seconds, or its edits have none (kept from an
earlier run, or refused: the sums would say too little), or if the run did two things at a time."""
import re, sys, time

LIMIT = 3


def stamp():
    start = time.monotonic()
    for line in sys.stdin:
        print(f"{time.monotonic() - start:.1f}\t{line}", end="", flush=True)


def read(path):
    """The seconds of each crate's check, those of its edits, how many edits it has, and whether one thing was done after the other."""
    checks, edits, count, last, trying, mixed = {}, {}, {}, 0.0, None, False
    for line in open(path, errors="replace"):
        at, _, said = line.rstrip("\n").partition("\t")
        proved = re.match(r"rt: (\w+)(?:: its tests are)? proved$", said)
        begun = re.match(r"rt: (\w+): trying its must-fail edits \(\d+\)$", said)
        tried = re.match(r"rt: must-fail (\w+)/", said)
        if tried:
            count[tried[1]] = count.get(tried[1], 0) + 1
        ended = proved or begun or tried and trying
        if not ended:
            continue
        seconds, last = float(at) - last, float(at)
        if proved:
            checks[proved[1]] = checks.get(proved[1], 0) + seconds
            mixed = mixed or trying is not None
        else:
            # Before the first crate's edits stands what these begin with.
            name = trying or (begun or tried)[1]
            edits[name] = edits.get(name, 0) + seconds
            trying = begun[1] if begun else None
    return checks, edits, count, mixed


def main():
    if sys.argv[1:] == ["--stamp"]:
        return stamp()
    checks, edits, count, mixed = read(sys.argv[1])
    order = [l.split(":")[0].split()[0] for l in open("crates.txt") if ":" in l and not l.startswith("#")]
    missing = [n for n in order if n not in checks or count.get(n) and n not in edits]
    for n in order:
        print(f"{n}: check {checks[n]:.0f} s, {count.get(n, 0)} edits {edits.get(n, 0):.0f} s" if n in checks else f"{n}: check ? s")
    all_checks, all_edits = sum(checks.get(n, 0) for n in order), sum(edits.get(n, 0) for n in order)
    ratio = all_edits / max(1, all_checks)
    print(f"checks {all_checks:.0f} s, {sum(count.values())} edits {all_edits:.0f} s, ratio {ratio:.2f} (at most {LIMIT})")
    if missing:
        print("no seconds of:", ", ".join(missing))
    if mixed:
        print("a crate was proved after edits were begun: run it with RT_JOBS=1")
    return 2 if missing or mixed else int(ratio > LIMIT)


if len(sys.argv) != 2:
    sys.exit("usage: python3 tools/budget.py FILE, or --stamp (see its first lines)")
sys.exit(main())
