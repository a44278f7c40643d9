#!/usr/bin/env python3
"""Respells this repository's own definitions and lemmas in snake case, once, after /opt/rattle/port/port.py.

Run it at the top of the repository. Functions of src/, strings, inputs and outputs keep their names, and so do the
names that Rattle makes of them. Where a plain respelling would fall together with a function of the same crate, the
definition gets a name of its own (OWN).
"""
import pathlib
import re

# definitions whose plain respelling is the name of a function of src/
OWN = {
    "best-pile": "best_pile_of",
    "image-over": "image_over_kind",
    "in-range": "within_range",
    "lower-line": "lower_line_text",
    "malformed-at": "malformed_at_line",
    "refused-line": "refused_line_text",
    "row-bound": "bound_of_row",
}

# all others: a dash becomes an underscore
DASHED = """
above-half-sound accepted-is accepted-parts adds-rises all-laid-push all-made-push all-stacked and-then-parts
answer-left answered-both answered-none around-top asked-answered asked-number asked-refused asked-then
at-blank bank-made bank-number bank-piles bank-sound bar-kept bar-of bar-read before-all before-below
before-none below-image best-better both-answered bound-inside bound-sound bound-told capacity-check cases-le
check-passes climbed-below composed-adds composed-lawful composed-same composition-made counting-among
counting-image counting-lawful counting-made counting-outside counting-push counting-range counting-refused
cut-read decimal-plain digits-one-line digits-read div-beside div-rises division-adds division-image
division-lawful division-made division-outside entries-check entries-passed entries-then entry-from entry-is
entry-lines entry-one-line entry-passes entry-reads entry-refused entry-written fault-of figure-told first-row
first-unmirrored first-with from-here go-kept go-lines greater-made greater-sound greatest-of greatest-sound
held-made identity-made identity-told image-in-range image-of image-outside image-positive image-push
image-refused images-in-range in-form is-symmetrisation kept-or kind-found kind-known kind-number kind-of
kind-unknown laid-again laid-from-new laid-lawful laid-parts lawful-from-adds layer-figures layered-image
line-is line-written lines-read list-from list-kept lower-sound lowest-unmixed mirrored-adds mirrored-sides
most-piles most-rows multiple-gap new-pile next-climbs ninth-refused no-fewer-bars not-blank nothing-else
numeral-is ok-made one-above one-line-all parameter-outside parameter-refused pile-added pile-again pile-bound
pile-bounds pile-from pile-image-in-range pile-made pile-of pile-parts pile-rows pile-sound pile-whole
piles-counted piles-pushed product-fits read-as-written read-on refusal-told refused-first refused-is
refused-second rounded-adds rounded-only rounding-adds rounding-image rounding-lawful rounding-made
rounding-outside rounding-without-exact row-accepted row-again row-answered row-image row-raised row-value
rows-again rows-counted rows-laid same-content same-refusal scaled-adds scaled-lawful scaling-made
scaling-outside scan-breaks scan-byte scan-ends scan-kept scan-line scan-lines scan-over scan-refused
scan-written size-check small-total small-value spelling-one-line standing-pushed stands-append stands-push
step-takes steps-pushed sum-map sum-pieces symmetrisation-made symmetrised-adds symmetrised-counting
symmetrised-image symmetrised-lawful text-read threshold-adds threshold-lawful threshold-made
threshold-outside top-at top-at-push top-found top-push topmost-push total-apart total-below-whole
total-composed total-over-bars total-scaled twice-in-range unmixed-push value-below value-is value-over
value-told values-append values-climbed values-push was-made when-made whole-kept whole-lines with-bar
within-passes
""".split()

NAMES = {name: name.replace("-", "_") for name in DASHED} | OWN
# the characters between which a name stands
TOKEN = re.compile(r"[^\s(){}\[\],;.:«»|\"`]+")


def respell(text):
    return TOKEN.sub(lambda m: NAMES.get(m.group(), m.group()), text)


def respell_comment(text):
    return re.sub(r"`[^`]*`", lambda m: respell(m.group()), text)


def respell_line(line, mark):
    # strings hold no mark of a comment here
    code, found, comment = line.partition(mark)
    return respell(code) + found + respell_comment(comment)


def main():
    for path in sorted(pathlib.Path("crates").rglob("*")):
        mark = {".antt": "-- ", ".rt": "// ", ".edit": "// "}.get(path.suffix)
        if mark is None or "out" in path.parts:
            continue
        old = path.read_text()
        new = "".join(respell_line(line, mark) for line in old.splitlines(keepends=True))
        if new != old:
            path.write_text(new)


main()
