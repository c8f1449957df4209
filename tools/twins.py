#!/usr/bin/env python3
"""twins.py: what a host calls is two functions, one for each width of a sample, and stands in twin files: the 16-bit text is the 8-bit text
under the substitutions of tools/twins.txt, in their order. So a reader reads one. What they call is generic over the width (crate sample).

In tools/twins.txt a line `# files PATH8 PATH16` begins a list (lists one after another share what follows them), and each line
`8-bit text => 16-bit text` is one substitution; \\n stands for a line's end. A path may be a folder. Must-fail edits are not compared: a telling edit
need not stand at both widths.

Usage, at the repository's root:
  python3 tools/twins.py            says which files are not what the substitutions give; status 1 if any is not
  python3 tools/twins.py write      writes every 16-bit file
  python3 tools/twins.py write X    writes those of the list whose 8-bit path is X
"""
import pathlib
import sys

ROOT = pathlib.Path(__file__).resolve().parent.parent


def lists():
    """The lists of tools/twins.txt: the pairs of paths, and the substitutions that make the second of each out of the first."""
    found, open_list = [], False
    for line in (ROOT / "tools/twins.txt").read_text().splitlines():
        words = line.split()
        if line.startswith("# files "):
            if not open_list:
                found.append(([], []))
                open_list = True
            found[-1][0].append((words[2], words[3]))
        elif " => " in line:
            open_list = False
            found[-1][1].append([side.replace("\\n", "\n") for side in line.split(" => ")])
    return found


def texts(path):
    """Every file at a path, but must-fail edits and what a build leaves, by its name there."""
    base = ROOT / path
    files = [base] if base.is_file() else [p for p in base.rglob("*") if p.is_file()]
    return {"" if p == base else str(p.relative_to(base)): p.read_text() for p in files}


def made(narrow, substitutions):
    """What the substitutions make of them."""
    out = {}
    for name, text in texts(narrow).items():
        for old, new in substitutions:
            name, text = name.replace(old, new), text.replace(old, new)
        out[name] = text
    return out


def main():
    write, only = sys.argv[1:2] == ["write"], sys.argv[2:3]
    wrong = []
    for pairs, substitutions in lists():
        for narrow, wide in pairs:
            if only and only[0] != narrow:
                continue
            want = made(narrow, substitutions)
            wrong += [f"no {narrow}"] * (not want)
            if write:
                for name, text in want.items():
                    path = ROOT / wide / name if name else ROOT / wide
                    path.parent.mkdir(parents=True, exist_ok=True)
                    path.write_text(text)
            there = texts(wide)
            wrong += [f"{wide}/{n} is not {narrow}'s text" for n in sorted(set(there) | set(want)) if there.get(n) != want.get(n)]
    print("\n".join(wrong) or "every twin is the other's text")
    sys.exit(1 if wrong else 0)


main()
