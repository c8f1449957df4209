"""scratch.py: a scratch copy of this folder's parent into which slips are put one at a time; slips.py and plain.py stand on it.

A slip is a file LABEL.edit of three lines: the file, one whole line of it, and what stands in its place. It must fit exactly once.
In the copy MAGICYUV_ARCHIVE is `none`: our side is the model.
"""
import os
import shutil
import sys
from pathlib import Path

HOST = Path(__file__).resolve().parent.parent


class Scratch:
    """A copy of host/ under target/NAME, with a target folder of its own, for the slips of red/NAME."""

    def __init__(self, name):
        self.copy, self.target = HOST / "target" / name / "host", HOST / "target" / name / "target"
        self.edits = sorted((HOST / "red" / name).glob("*.edit"))
        self.environment = dict(os.environ, MAGICYUV_ARCHIVE="none", CARGO_TARGET_DIR=str(self.target))
        if not self.environment.get("MAGICYUV_SRC"):
            self.environment["MAGICYUV_SRC"] = str(HOST.parent.parent / "shared" / "docs" / "src")

    def chosen(self, labels):
        """The slips of these labels, or all."""
        chosen = [e for e in self.edits if not labels or e.stem in labels]
        if not chosen:
            sys.exit("no such slip")
        return chosen

    def begin(self):
        shutil.rmtree(self.copy, ignore_errors=True)
        # Without the files' times: cargo must not take what an earlier run built for this copy.
        shutil.copytree(HOST, self.copy, ignore=shutil.ignore_patterns("target"), copy_function=shutil.copyfile)

    def with_slip(self, edit, run):
        """Applies one slip, runs, and takes it back."""
        name, old, new = (line.split(": ", 1)[1] for line in edit.read_text().splitlines())
        file = self.copy / name
        text = file.read_text()
        lines = text.split("\n")
        if lines.count(old) != 1:
            sys.exit(f"{edit.name}: its old line does not stand exactly once in {name}")
        lines[lines.index(old)] = new
        file.write_text("\n".join(lines))
        outcome = run()
        file.write_text(text)
        return outcome
