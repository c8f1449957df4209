#!/usr/bin/env python3
"""once.py: document 01 asks of every public function that any two outcomes which its statement allows are equal. So each has a lemma for it,
or a row in docs/EXCEPTIONS.md, before its section on `requires`.

A function's lemma stands in a file of its crate's proofs/ that imports the function's contract, and is called NAME_once, by the function's name (without
magicyuv_). It is about the function's own signature and its own clauses: what the lemma takes of two outcomes is `Post` of the function's module `Reads`,
or the clauses of its contract. It settles all when its end says, without a further condition, that the answers are equal, if there is one, and the
content of each `&mut` parameter. A lemma that says less is an exception too, and needs its row. A row of a function whose lemma settles all is out of
date.

A method of a public trait has a lemma for each type that implements the trait, called ALIAS_once, by the name under which its contract is imported
(contracts.U8Sample.of for `of` of `impl Sample for u8`). A generic function has one lemma, over any type and what it gives for its traits; there the
content of a list of samples is `values` of it, the list of their numbers. That a list of samples is then settled too is so at the types there are: in
crates/sample/src/lib.rt `values` is the list itself for each of them, and this is looked up.

Usage, at the repository's root: python3 tools/once.py
Prints what is not so; status 1 if anything is not. It needs no prover: that the lemmas are proved is the gate's to say.
"""
import re
import sys

sys.dont_write_bytecode = True
import statements

PROOFS = {c: [p.read_text() for p in sorted((statements.ROOT / "crates" / c / "proofs").rglob("*.antt"))] for c in statements.crates()}
VALUES = "ghost values = { λ xs. xs };"


def settled():
    """What must have a lemma: the public functions, and for each method of a public trait its implementations."""
    every = statements.functions()
    traits = {f.trait for f in every if f.public and f.trait and not f.type}
    return [f for f in every if (f.trait in traits if f.type and f.trait else f.public and not f.trait)]


def lemma(f):
    """The statement of a function's lemma, or nothing."""
    path = f"{f.type[:1].upper()}{f.type[1:]}{f.trait or ''}\\." if f.type else r"(?:\w+\.)*"
    for text in PROOFS[f.crate]:
        alias = re.search(rf"(?m)^use Rattle\.{f.crate}\.specs\.contracts\.{path}{f.method} as (\S+)$", text)
        reads = re.search(rf"(?m)^use Rattle\.{f.crate}\.proofs\.{path}{f.method}\.Reads as (\S+)$", text)
        if not alias:
            continue
        name = (alias[1] if f.type else f.method.removeprefix("magicyuv_")) + "_once"
        found = re.search(rf"(?ms)^ *pub {name} : (.*?)^ *{name} ", text)
        taken = [w for w in (f"{alias[1]}.clauses ", reads and f"{reads[1]}.Post ") if w]
        if found and re.search(rf"[ (]{re.escape(alias[1])}\.signature[ )]", found[1]) and any(f"({w}" in found[1] or f" {w}" in found[1] for w in taken):
            return found[1]
    return None


def settles(f, statement):
    """Whether a lemma's end has every equation, and no condition before one."""
    answers, lent = bool(re.match(r"\)\s*->", f.clauses)), len(re.findall(r"&(?:'\w+ )?mut ", f.list))
    if re.search(r"→ Settles \(\S+\.Post κs a\)\s*$", statement):
        return lent == 0
    end = statement.rsplit("r₂ s₂", 1)[-1].strip().removeprefix("→")
    numbers = r"(\w+\.values |)" if f.generics else "()"
    memories = {m[1] for m in re.findall(rf"{numbers}s₁((?:\.\d+)+)\.now ≡ \1s₂\2\.now(?![\w.])", end)}
    return "→" not in end and ("r₁ ≡ r₂" in end or not answers) and len(memories) == lent


def numbered():
    """The types whose samples are not known to be their numbers."""
    text = "\n".join(p.read_text() for p in statements.sources("sample"))
    found = re.findall(r"(?ms)^impl Sample for (\w+) \{(.*?)^\}", text)
    return [t for t, body in found if VALUES not in body] if found else ["any type"]


def main():
    page = statements.PAGE.read_text().split("\n## `requires`")[0]
    rows = {name for line in page.splitlines() if line.startswith("|") for name in re.findall(r"`(\w+::\w+)`", line.split("|")[1])}
    every = settled()
    wrong = [f"crates/sample: the numbers of a list of samples are not seen to be that list, for {t}" for t in numbered()]
    for f in every:
        statement = lemma(f)
        whole = statement is not None and settles(f, statement)
        if not whole and f.full() not in rows:
            wrong.append(f"{f.full()}: {'its lemma leaves something open' if statement else 'no lemma'}, and docs/EXCEPTIONS.md has no row for it")
        if whole and f.full() in rows:
            wrong.append(f"{f.full()}: docs/EXCEPTIONS.md has a row for it, and its lemma settles all")
    print("\n".join(wrong) or f"{len(every)} public functions and methods: each has a lemma that settles all, or is one of {len(rows)} exceptions")
    return 1 if wrong else 0


sys.exit(main())
