#!/usr/bin/env python3
"""quotes.py: holds the quotations in comments to document 01, which stands beside this repository and not in it.

A quotation is what stands between double quotes in a comment of crates/*/specs, crates/*/src or crates/*/proofs; it may run over several
lines of one comment. It must stand in one section of the document word for word. White space, line ends, backquotes, asterisks and the bars of
tables do not count; its first letter may be small where the document has a capital; `..` stands for words left out. Words of a heading may be
quoted too. Behind the name of a page of this repository (host/README.md, "..") stands a heading of that page. What stands between “ and ” is
the customer's too: it must stand in README.md, "The three demands".

Usage, at the repository's root: python3 tools/quotes.py DOCUMENT
Prints each quotation that is not there, with file and line; status 1 if there is any. Then, without a change of status, the sentences and rows of
the document's rules of which no quotation in crates/*/specs has any part, and their number.
"""
import re
import sys
from pathlib import Path

ROOT = Path(__file__).resolve().parent.parent
COMMENT = re.compile(r"(?:^|\s)(?:--|//) ?(.*)")
DEMANDS = "The three demands"
RULES = ("What comes in", "Layout", "Refusal numbers", "Words and lookup", "Prediction", "Known answers", "Slips")


def plain(text):
    return " ".join(re.sub(r"[`*]", "", text).replace("|", " ").split())


def words_of(text):
    """A pattern for a text that neither begins nor ends inside a word."""
    first = f"[{text[0]}{text[0].upper()}]" if text[0].isalpha() else re.escape(text[0])
    return re.compile(r"(?<!\w)" * text[0].isalnum() + first + re.escape(text[1:]) + r"(?!\w)" * text[-1].isalnum())


def headings(text):
    return [plain(h) for h in re.findall(r"(?m)^#+ (.*)", text)]


class Section:
    """A section of the document: its plain text, and where each sentence of it, or row of a table, begins and ends."""

    def __init__(self, heading, body):
        self.heading, self.text, self.units = plain(heading), "", []
        body = re.sub(r"(?m)^\|[ \w.|]*\n\|[-|]*\n", "\n", body)  # a table's first two lines are no rule
        for block in re.split(r"\n(?=\n|- |\|)", body):
            units = [block] if block.startswith("|") else re.split(r"(?<=[.])\s+", block)
            for unit in filter(None, (plain(re.sub(r"^\s*- ", "", u)) for u in units)):
                self.units.append((len(self.text), len(self.text) + len(unit)))
                self.text += unit + " "

    def spans(self, quotation):
        """Where each part of a quotation stands, one after another; nothing if one does not."""
        found, at = [], 0
        for part in filter(re.compile(r"\w").search, map(plain, quotation.split(".."))):
            match = words_of(part).search(self.text, at)
            if not match:
                return []
            found.append(match.span())
            at = match.end()
        return found


def quotations(path):
    """Each quotation of a file: its line, its words, and what its comment has before it."""
    blocks, open_block = [], False
    for n, line in enumerate(path.read_text().splitlines(), 1):
        comment = COMMENT.search(line)
        if comment and open_block and not line[: comment.start()].strip():
            blocks[-1].append((n, comment[1]))
        elif comment:
            blocks.append([(n, comment[1])])
        open_block = bool(comment)
    for block in blocks:
        text = "\n".join(words for _, words in block)
        if text.count('"') % 2:
            yield block[0][0], "not closed: " + text[text.rindex('"') + 1 :], ""
        for m in re.finditer(r'"([^"]*)"|“([^”]*)”', text):
            words = m[1] or m[2]
            if words.strip():
                yield block[0][0] + text[: m.start()].count("\n"), words, DEMANDS if m[2] else plain(text[: m.start()])


def main():
    if len(sys.argv) != 2:
        sys.exit("usage: python3 tools/quotes.py DOCUMENT")
    document = Path(sys.argv[1]).read_text()
    titles = headings(document)
    sections = [Section(*(part.split("\n", 1) + [""])[:2]) for part in re.split(r"(?m)^#+ ", document)[1:]]
    demands = Section(DEMANDS, (ROOT / "README.md").read_text().split(f"## {DEMANDS}\n")[1].split("\n## ")[0])
    wrong, number, covered = [], 0, {s.heading: [] for s in sections}
    files = [p for pattern in ("specs/**/*.antt", "src/**/*.rt", "proofs/**/*.antt") for p in sorted(ROOT.glob(f"crates/*/{pattern}"))]
    for path in files:
        for line, words, before in quotations(path):
            number += 1
            page = re.search(r"([\w/-]+\.md),$", before)
            if before == DEMANDS:
                there = bool(demands.spans(words))
            elif page or any(words_of(plain(words)).search(t) for t in titles):
                there = not page or plain(words) in headings((ROOT / page[1]).read_text())
            else:
                spans = [(s.heading, s.spans(words)) for s in sections]
                there = any(found for _, found in spans)
                for heading, found in spans if "specs" in path.parts else []:
                    covered[heading] += found
            if not there:
                wrong.append(f"{path.relative_to(ROOT)}:{line}: \"{plain(words)}\"")
    print("\n".join(wrong + [f"{number} quotations, {len(wrong)} of them not in the document"]))
    bare = []
    for s in (s for s in sections if s.heading.startswith(RULES)):
        for a, b in s.units:
            if not any(start < b and a < end for start, end in covered[s.heading]):
                bare.append(f"  {s.heading}: {s.text[a:b]}")
    print("\n".join(["", "of which no quotation has any part:", *bare, f"{len(bare)} sentences and rows"]))
    return 1 if wrong else 0


sys.exit(main())
