#!/usr/bin/env python3
"""Respells the definitions and lemmas of this repository in specs/, proofs/ and the clauses of src/, as today's Rattle
spells them: words in snake case, types in camel case, a dash only where it joins two names.

usage: python3 tools/respell_names.py       at the top of a checkout, once, right after the kit's port/port.py

It was run once, for the move to the kit rattle-kit-13f (docs/PORT.md), and is kept to show that the contracts and
definitions of before and after differ in spelling alone. Functions of src/, strings, inputs and outputs keep their names."""
import pathlib
import re
import sys

# Facts and records, whose names are spelled as types.
TYPES = """
Agree-but Altered-at Answers-as-flat Card-laws Changes-nothing Damage-refused Damage-shows Is-poke Keeps-outside
Line-means Makes-ram Not-made Only-boundary Only-card Only-ram Paint-alike Painted-once Poke-of Refused-by-needs
Refuses-only-block Sealed-pieces Sealed-read-back Sets-boundary Shown-at Shows-block Shows-card Shows-some Stops-there
"""

# Definitions, fields, constructors and lemmas, whose names are words in snake case.
WORDS = """
ablit-place ablit-unmoved all-the-same along-x along-y answer-by-needs answers-as-flat are-pairs at-word atile-place
atile-unmoved before-feed before-kept before-range behind-range below-1024 blit-place block-altered block-byte
block-bytes block-count block-halfword block-kept block-past boundary-of by-effect by-test byte-in bytes-all bytes-more
bytes-put bytes-set card-file card-inside card-laws card-of card-outside cases-shows clip-column clip-range colour-of
column-needs column-outside columns-again command-of coordinate-is count-more damage-refused damage-shows
data-outcome digit-in digits-all digits-none drawing-span drop-pair effect-at empty-no-remark error-line even-answer
field-32 field-bytes field-side file-long fill-place first-refused first-sum first-sum-more first-sum-moves
first-sum-none first-sum-same first-sum-small format-of goes-on-by-needs goes-on-none has-is identity-changes-nothing
image-lookup image-of image-side in-clip in-format in-range in-square index-address index-then is-kind is-sound
kept-in-range kept-to length-by-answer length-by-effect line-end lookup-at lookup-in made-opaque makes-ram meaning-of
needs-after needs-by needs-then next-column no-command no-feed no-pair no-text-line no-text-word not-both-hold
opaque-goes-on opaque-put outside-by painted-again painted-below painted-once painted-pixel paints-so pair-value
pairs-more pairs-none payload-long peek-of piece-halfword pixel-address pixel-after pixel-colour pixel-lookup
placed-column plain-lookup plus-zero poke-of poked-all poked-more ram-of range-ends range-paints range-passes
range-starts range-stops reads-sound refusal-by-needs refusal-in refused-at refused-by-needs refused-from refused-need
refused-on refused-to remainder-of-bits remainder-of-wrapped replicate-same run-all run-stops same-effects same-places
scale-of-one sealed-halfword sealed-read-back second-sum second-sum-more second-sum-none second-sum-same second-sum-small
sets-boundary shown-inside shown-outside shows-as-flat shows-card side-of size-all size-more some-digit sound-at
sound-count sound-from sound-put span-in spelled-bytes square-side state-at stop-in stop-of-colour stops-by-needs
stops-there stored-number sums-hold sums-put then-column tile-address tile-lookup tile-pixel tile-place tile-side
unclipped-effect unsigned-32 unsigned-size unsound-from unsound-under-any with-colour with-effect with-sign without-feed
write-at write-at-index write-at-other write-at-same write-at-set zero-times
"""

# Local names of proofs.
LOCALS = "at-508 at-510 below-one-more even-address in-file line-feed ne-high ne-low not-later"

# A fact that port.py spells like a word, lemmas whose names join the names of two definitions by a dash, and one that would
# have its function's name.
OTHERS = {
    "Goes_on": "GoesOn",
    "halfword-put-same": "halfword-put_same",
    "halfword-put-other": "halfword-put_other",
    "take_put": "take-put",
    "columns-outside": "columns_outside_lem",
}


def new_names():
    names = {name: "".join(word[0].upper() + word[1:] for word in name.split("-")) for name in TYPES.split()}
    names.update({name: name.replace("-", "_") for name in (WORDS + LOCALS).split()})
    names.update(OTHERS)
    return names


def respelled(text, names):
    return re.sub(r"[\w'-]+", lambda found: names.get(found.group(), found.group()), text)


def main():
    if not pathlib.Path("crates.txt").is_file():
        sys.exit("respell_names: run it at the top of the repository, where crates.txt is")
    names = new_names()
    for path in sorted(pathlib.Path("crates").glob("*/*/**/*")):
        if path.parts[2] in ("src", "specs", "proofs") and path.suffix in (".rt", ".antt"):
            text = path.read_text(encoding="utf-8")
            path.write_text(respelled(text, names), encoding="utf-8")


if __name__ == "__main__":
    main()
