#!/usr/bin/env python3
"""Brings this repository's definitions and lemmas to the spelling of today's Rattle: usage: tools/respell.py, at the top, once, after the kit's own port.py.

It goes by text, over the .antt and .rt files of crates/ and, between backquotes, over README.md and docs/*.md. A word is renamed only where it stands whole.
Facts are in upper camel case. Everything else is in snake case, but that a dash joins two names in a lemma's name (`take-opened`, of `take` and `opened`).
Functions of src/, strings, inputs and outputs keep their names: they have no dash, so none of these words is one of theirs.
"""

import os
import re
import sys

# Facts, that is definitions whose value is a type.
FACTS = """
Best-exists Best-if-any Comments-do-not-count Entered-into First-to-fail Least-along Least-mx Least-my Least-sum Lowest-failing Lowest-named
Next-column Next-if-any One-best One-less One-more One-partner Preferred-up-to Smallest-if-any Some-of-them Written-is-read
"""

# Definitions, fields, local names and lemmas of which no two parts are names: each dash becomes an underscore.
PLAIN = """
above-ceiling after-enter after-withdraw all-fewer all-last all-limited along-grows along-lower and-swap at-negated at-summit below-tie best-at-end
best-exists best-least-sum best-only best-unbeaten best-unique bottom-stays box-lawful box-meaning box-says box-sides boxed-below boxed-exchanged
boxed-reaching boxed-reading by-sum case-of ceiling-limit check-at chosen-meaning chosen-sides climbing-removed command-at command-of
comments-do-not-count decided-all decided-both decided-each decided-le decided-like decided-safe decided-test decides-test delivered-ceiling end-at
end-from enter-at enter-due enter-free entered-inserted exchanged-across exchanged-passed exchanged-triad face-at face-meaning face-of face-sides
face-word failing-end failing-here failing-next fails-below first-due first-failing first-line first-to-fail floor-due found-later from-not front-is
front-stops front-through holds-if-there improved-new improved-none improved-old in-column in-grid in-limits in-limits-exchanged in-limits-negated
in-range in-range-negated in-word is-blank is-lowest last-case last-digit leads-entered leads-lower leads-removed least-along least-mx least-my
leaving-word line-from margin-is margin-more margin-of margin-side meant-read meets-more meets-none meets-safe meets-stop moment-across moment-along
moment-in moment-limit most-lines mx-partner mx-stop my-partner my-stop negated-bits negated-is negated-triad no-blank no-larger no-later none-past
none-under not-due on-column one-partner opened-is pair-along partner-like passed-at passed-by passed-grows passed-summit passed-within passing-of
past-none past-short past-through plain-digits plain-from product-side quotient-up rank-end rank-here rank-next reach-growth reach-summit reaches-row
read-on read-on-more reads-face reads-keyword reads-rule reads-signed refused-by rule-at rule-of rule-word rules-at safe-grows safe-meets safe-outward
same-pair same-triad sides-of signed-at signed-minus skips-all skips-to some-by-test sound-removed square-is stands-end stands-next stays-in-order
sum-split summit-safe text-spaced text-through top-stays triad-entered triad-of triad-under triad-withdrawn turned-asked turned-lawful turned-over
turned-passed unbeaten-more unbeaten-skip up-k up-n up-to-ceiling up-to-largest up-to-less up-to-tie whole-at whole-some with-digit with-digit-is
with-rules withdraw-due withdraw-goes word-from written-is-read x-is x-side y-is y-side yield-lawful yield-meaning yield-says yield-sides yields-below
yields-by yields-exchanged yields-from yields-gives yields-growth yields-never yields-not yields-not-across yields-reaching yields-reading
yields-summit
"""

# Lemmas of which two parts are names, with the spelling they get.
JOINED = {"read-on-append": "read_on-append"}

# Those that the kit's script has turned in the code already, as pages still have them.
TURNED = """
after-line all-above all-hold all-plain all-sound and-comm and-yes at-most-size below-all body-at both-ways boxed-at found-first goes-through
is-number left-in line-at line-of line-read list-of lowered-is name-of no-minus not-so number-of one-less one-more passed-over past-is product-is
reads-whole same-or-not same-test signed-of some-left stands-at stands-here stuck-at tells-all text-of then-some whole-of word-at word-read yields-at
"""

# Kept: both sides of the dash are names. and-true, climbing-entered, front-spaced, length-standing, past-spaced, sound-entered, sum-along, take-closed, take-opened.

WORD = re.compile(r"(?<![\w'²-])[A-Za-z_][\w'²]*(?:-[\w'²]+)+(?![\w'²-])")
QUOTED = re.compile(r"`[^`\n]*`")


def table():
    to = {w: "".join(p[0].upper() + p[1:] for p in w.split("-")) for w in FACTS.split()}
    to.update({w: w.replace("-", "_") for w in PLAIN.split()})
    to.update(JOINED)
    if len(set(to.values())) != len(to):
        sys.exit("respell: two names fall together")
    return to


def files(top):
    for folder, dirs, names in os.walk(os.path.join(top, "crates")):
        dirs[:] = sorted(d for d in dirs if d != "out")
        for n in sorted(names):
            if n.endswith((".antt", ".rt")):
                yield os.path.join(folder, n)


def pages(top):
    yield os.path.join(top, "README.md")
    for n in sorted(os.listdir(os.path.join(top, "docs"))):
        if n.endswith(".md") and not n.startswith("PORT"):
            yield os.path.join(top, "docs", n)


def main():
    to = table()
    pages_to = to | {w: w.replace("-", "_") for w in TURNED.split()}
    rename = lambda t, names=to: WORD.sub(lambda m: names.get(m[0], m[0]), t)
    changed = 0
    for p in list(files(".")) + list(pages(".")):
        with open(p, encoding="utf-8") as f:
            old = f.read()
        new = QUOTED.sub(lambda m: rename(m[0], pages_to), old) if p.endswith(".md") else rename(old)
        if new != old:
            changed += 1
            with open(p, "w", encoding="utf-8") as f:
                f.write(new)
    print(f"respell: {changed} files")


if __name__ == "__main__":
    main()
