#!/usr/bin/env python3
"""Brings this repository's own definitions and lemmas to today's spelling: words in snake case, types in camel case.

usage: python3 tools/port_names.py      once, at the top of the repository, after the kit's port.py

It turns whole names below crates/ (.antt and .rt) and, between backticks, in README.md and docs/. Names that the checker
makes, as those of goals, are not in its lists, and neither are names of the library. It was run, and stops where it was:
a second run would give names of today to other things.
"""

import glob
import re

# Facts, and what they are called now.
FACTS = """
Known-trace-tells KnownTraceTells
Known-traces-decide KnownTracesDecide
One-answer OneAnswer
One-reading OneReading
Places-are-steps PlacesAreSteps
Places-within PlacesWithin
Runs-are-traces RunsAreTraces
RunsAreTraces ItsRunsAreTraces
Sets-accept-traces SetsAcceptTraces
Sets-are-few SetsAreFew
Star-least StarLeast
Star-least-before StarLeastBefore
Takes-in TakesIn
Takes-in-before TakesInBefore
Telling-shows TellingShows
Traces-decidable TracesDecidable
Traces-decide TracesDecide
Unique-reading UniqueReading
"""

# Names that would fall together with another.
CLASHES = """
bit-and bit_of_and
bit-or bit_of_or
bit-xor bit_of_xor
stop-reason why_of_stop
"""

# The rest: a dash becomes an underscore.
PLAIN = """
a-blank a-line a-number acceptor-of agree-has agree-holds agree-last agrees-cut agrees-sym all-atoms all-joined
all-places always-atoms always-read and-out answer-text any-atoms any-read are-same as-many-rows at-beginning at-end
at-guard at-seq at-step at-word atom-at automaton-of bad-number bad-number-test bad-step bad-step-head bad-test
beginning-row begins-in behind-and behind-before behind-none behind-none-before behind-or behind-past behind-same
behind-two bit-above bit-beyond bit-clear bit-from-bits bit-mod bit-ones bit-power bit-set bit-shr bit-zero both-atoms
both-head both-labelled both-labelled-are both-labels both-places breaks-in by-guard by-more by-none by-seq by-step
choice-added choice-grows choice-head choice-here choice-here-back choice-read choice-there choice-there-back
column-after counts-down cut-agrees cut-length cut-more cut-moves cut-same deep-head deep-test digit-not-blank
digit-small digits-read drop-one-more ending-is ends-are entered-once false-if-not fault-in fill-grows first-fails
first-fault first-follow first-of-pair first-part-fault first-within fit-program fit-test follow-within from-bit
from-bits-below gap-blank gap-digit goes-on-there guard-added guard-fault guard-fits guard-frame guard-keeps
guard-read has-cut head-words holds-in in-choice in-part in-range in-seq in-star is-line is-long is-pair its-place
join-keeps join-too-deep joined-bit keeps-first keeps-part keeps-second kept-number known-atom known-comes known-cut
known-moves known-steps known-steps-join known-trace-tells known-traces-decide label-known labelled-are
labelled-behind labelled-is labelled-kept labelled-same labelled-within labels-known last-atom last-ends leaf-depth
leaf-keeps leaf-known leaf-long leaf-steps led-at led-in led-nowhere left-of left-within limits-equal line-answer
lines-are-read long-place loop-least loop-least-before loop-takes-in loop-takes-in-before low-agrees low-four
mask-atoms max-depth max-numbers max-steps max-words met-excludes met-first met-in mod-halves never-atoms
never-entered never-read never-stopped next-after next-are next-does next-none next-same next-set next-some
no-beginning no-code-head no-code-test no-further no-line-answer no-places no-test-words none-pending not-bad
not-before not-both not-complete not-later not-two nothing-follows number-blank number-digit number-ends number-full
number-large number-other old-rows one-behind one-fault one-limit one-pair one-part one-program one-reading one-reason
one-refusal one-stop one-test only-along only-any only-both only-choice only-guard only-number only-opposite only-seq
only-star onward-to opposite-atoms opposite-fault opposite-head opposite-read or-none or-out pair-excludes pair-words
part-as-many part-frame part-kept part-led parts-read passed-at place-row places-are places-are-steps places-kept
program-excludes program-no-code program-only program-read program-second program-tables program-too-deep put-part
read-spelled reason-of reason-text refusal-text rest-shorter room-left rounds-before rounds-behind row-alike rows-kept
rows-led run-cut run-either run-left run-right run-seq run-star runs-are-traces same-atoms same-bits-below same-fault
same-parity same-places scan-of scanned-append second-fails second-fault second-follow second-frame second-of-pair
second-part-fault second-row second-rows seq-cut seq-grows seq-has seq-join seq-there seq-there-back sequence-added
sequence-head sequence-read sets-accept-traces sets-are-few side-known side-of side-within some-places spelled-read
star-added star-cut star-fault star-grows star-has star-head star-join star-least star-least-before
star-least-before-in star-least-in star-read stays-stopped step-has step-read stopped-there stops-in substitutes-in
telling-shows test-atoms test-begun test-both test-bound test-count test-depth test-first-fault test-head-words
test-keeps test-leaf test-no-code test-only test-refuted test-second test-second-fault test-too-deep then-reads
then-scan to-has to-place to-run told-at-end too-many-steps traces-decidable traces-decide true-both two-parts
two-read unique-reading walk-along walk-cut walk-join where-is why-text with-place without-place words-fit wrap-keeps
wrap-too-deep
"""

NAMES = {}
for line in (FACTS + CLASHES).split("\n"):
    if line:
        old, new = line.split()
        NAMES[old] = new
for old in PLAIN.split():
    NAMES[old] = old.replace("-", "_")

WORD = re.compile(r"""[^\s(){}\[\].,;:`"|]+""")
QUOTED = re.compile(r"`[^`\n]+`")


def turned(text):
    return WORD.sub(lambda m: NAMES.get(m.group(), m.group()), text)


def main():
    with open("crates/kat/specs/Theory.antt", encoding="utf-8") as file:
        if "UniqueReading" in file.read():
            raise SystemExit("tools/port_names.py: the names are turned already")
    files = glob.glob("crates/*/**/*.antt", recursive=True) + glob.glob("crates/*/src/*.rt")
    pages = ["README.md"] + glob.glob("docs/*.md")
    for path in sorted(files + pages):
        with open(path, encoding="utf-8") as file:
            old = file.read()
        new = QUOTED.sub(lambda m: turned(m.group()), old) if path in pages else turned(old)
        if new != old:
            with open(path, "w", encoding="utf-8") as file:
                file.write(new)


main()
