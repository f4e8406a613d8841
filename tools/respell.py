#!/usr/bin/env python3
# History: this script belongs to work that is done, and is used no more.
"""Respells this repository's own definitions and lemmas: words in snake case, facts and types in camel case.

usage: python3 tools/respell.py        at the top of the repository, once, right after the kit's port.py

Only whole names of the table below are changed, in the .rt, .antt and .edit files below crates/ and in the pages.
Names that the toolchain makes (goals, steps) and names of its library are not in the table.
A dash stays where it joins two names, as in member-and, eqb-suc, size-ones and and-true.
"""
import pathlib
import re
import sys

# facts and types
CAMEL = """
Satisfies-one Breaks-another Admits-nothing No-clash Held-in-plain Too-much All-hold
Told-broken Has-model First-bad Comes-back Stands-for
"""

# definitions, fields, lemmas and local names
SNAKE = """
true-in satisfied-by bad-literal first-bad full-layer layer-of letter-of unless-refused
levels-kind plain-kind with-commas cost-from
free-softs free-clauses free-literals with-hard with-soft soft-places clause-places literal-places soft-place
variables-refused has-bad no-soft-place hard-refused soft-refused ask-refused broken-refused
clauses-of how-many
hard-part soft-part satisfied-all well-numbered softs-after as-entry no-entry meaning-of lacks-soft-place with-clause

digit-same digit-flip member-half member-first member-past member-none member-others member-minus member-one member-full
same-below below-pow same-mask none-members and-absorbs subset-members all-below below-members some-member
intersect-members size-half odd-one not-true-false
binary-means no-variable has-variable next-literal true-at some-true satisfied-means first-bad-is none-there all-good
no-quotient but-one
right-unit part-too-much all-taken at-broken broken-from broken-charge same-three levels-laws
clause-at breaks-at not-broken also-broken all-broken priced-few
leave-out needed-in-less
asked-well not-refused
broken-as broken-in breaks-first breaks-next first-broken broken-numbered broken-is next-broken soft-broken or-false
or-first digits-assign each-counted held-count all-met soft-met soft-unmet one-unbroken all-unbroken met-decides next-met
proper-pasted entries-kept soft-room parts-push softs-push numbered-push means-push inside-push held-push softs-are all-turns
admits-nothing both-clash second-alone examples-hold
"""

# a lemma is named after its left side
OTHER = {"length-clauses": "length-clauses_of", "satisfied-append": "satisfied_all-append"}


def camel(name):
    return "".join(part[:1].upper() + part[1:] for part in name.split("-"))


TABLE = {n: camel(n) for n in CAMEL.split()} | {n: n.replace("-", "_") for n in SNAKE.split()} | OTHER
NAME = re.compile(r"(?<![\w'.+-])(?:" + "|".join(sorted(map(re.escape, TABLE), key=len, reverse=True)) + r")(?![\w'+-])")
FIELD = re.compile(r"(?<=[\w')]\.)(?:" + "|".join(sorted(map(re.escape, TABLE), key=len, reverse=True)) + r")(?![\w'+-])")


def main():
    if len(TABLE) != len(set(TABLE.values())):
        sys.exit("two names fall together")
    files = [p for e in ("rt", "antt", "edit") for p in pathlib.Path("crates").rglob("*." + e) if "out" not in p.parts]
    files += [*pathlib.Path("docs").glob("*.md"), pathlib.Path("README.md")]
    texts = {p: p.read_text(encoding="utf-8") for p in files}
    before = "\n".join(texts.values())
    for new in TABLE.values():
        if re.search(r"(?<![\w'+-])" + re.escape(new) + r"(?![\w'+-])", before):
            print(f"look: {new} stood here before")
    changed = 0
    for path, text in texts.items():
        new = FIELD.sub(lambda m: TABLE[m[0]], NAME.sub(lambda m: TABLE[m[0]], text))
        if new != text:
            path.write_text(new, encoding="utf-8")
            changed += 1
    print(f"respelled {changed} files")


main()
