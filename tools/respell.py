#!/usr/bin/env python3
"""Spells the repository's own definitions and lemmas as Rattle's library spells its own: words in snake case, types in camel case.

usage: tools/respell.py [--check]      at the top of the repository, once, after the kit's port.py

It turns whole words in crates/ (specs, proofs, clauses and their comments), and in must-fail edits: types by TYPES, words of the
lists below by '_' for each '-', and names of the code that stand in a path of a proof file. A dash stays where it joins the names
of two functions, as in `span-add`. A second run changes nothing. --check only tells what would change.
"""
import glob
import re
import sys

# statements and records: a type is in camel case
TYPES = """
All-digits Always-first Begin-differently Best-plan Break-rounds Breaks-needed Bytes-agree Can-be-first Fair-match First-or-ground
Full-row Ground-law In-parts Lower-neither Of-table Points-add Points-kept Read-back Taken-encodes Told-apart Told-at Worked-plans
""".split()

# definitions and fields of specs/
DEFINITIONS = """
against-itself break-at breaks-of byte-beside can-pass even-teams few-teams finals-then four-teams game-at game-of games-after
games-in games-then games-there home-in in-circle is-result left-few left-of match-bytes match-of mutual-pair not-few not-many
one-home outcome-after outcome-ended outcome-sure passes-limit plan-byte plan-bytes plan-length plan-of points-after points-bytes
points-in points-low points-short points-then round-at round-byte round-bytes row-short share-beside six-teams sizes-in sizes-of
some-teams table-held table-in team-of teams-in teams-there told-after two-teams unless-absent unless-at unless-no-ending
unless-short unless-unfit with-plan with-round wrong-length
""".split()

# lemmas and their fields
LEMMAS = """
against-read ahead-is at-guest at-host begin-differently best-agree both-sides break-is breaks-agree breaks-needed broken-or-not
byte-in-round byte-of-guest byte-of-host bytes-agree circle-breaks circle-proper copied-games copied-points cut-room encoded-same
ended-room ending-from enough-room every-team fair-at fair-from few-before few-unbroken finals-read first-game first-none first-same
for-sizes front-more full-row gained-among gained-by-everyone gained-few game-after games-of games-same games-written guest-at
guest-away guest-meets guest-there handed-on home-is home-read host-at host-home host-meets host-there kept-all kept-few kept-left
kept-none kept-played left-before left-by-on left-of-before left-of-few left-of-more left-of-turn length-right low-passed map-agree
map-counting-part meeting-round next-round no-break none-unplayed not-above not-absent not-against-itself not-cut not-unserved
only-memory outcome-played pair-at pairs-even pairs-odd pairs-read part-le-span parts-of pass-at passed-at passed-end passed-more
past-front played-meeting played-room played-same plays-after points-add points-at points-list points-room points-written
proper-agree refusal-at refused-here rest-is round-inside round-read round-within same-finals same-held same-on share-among share-few
sixty-four sound-from-fair span-at-most-one span-each-one span-only sure-decides sure-law sure-read sure-same sure-told table-read
taken-encodes teams-same told-after-same told-apart told-low unbroken-says unbroken-small unplayed-fair unplayed-few unplayed-more
unplayed-none unplayed-parts unplayed-turn within-after won-before won-few won-gained won-kept won-more won-none won-parts won-turn
worst-ending worst-loses worst-wins written-more written-part written-past written-round
""".split()

# variables of lemmas
VARIABLES = """
front-is games-front i-on i-so is-games is-left is-long is-points j-on j-so k-there not-here not-passed not-played points-front
points-long points-past row-long row-past teams-pass whole-pass
""".split()

OTHERS = {'isGiven': 'is_given', 'breaks-of-circle': 'breaks_of-circle'}

# functions of the code, in the paths of proof files
FUNCTIONS = """
add-gains all-digits at-home breaks-in check-ending copy-front final-points gained-by has-break is-above is-absent is-against-itself
is-played is-sure keep-unplayed most-of play-results read-and-play read-checked read-ended read-table round-of whole-game
write-finals write-games write-round write-rounds
""".split()


def table():
    to = {t: ''.join(p[0].upper() + p[1:] for p in t.split('-')) for t in TYPES}
    for name in DEFINITIONS + LEMMAS + VARIABLES + FUNCTIONS:
        to[name] = name.replace('-', '_')
    to.update(OTHERS)
    return to


def main():
    to = table()
    if len(set(to.values())) != len(to):
        sys.exit('respell: two names would fall together')
    # a word of antt may hold letters, digits, '_', '-' and primes: a longer one is another word
    part = r"[\w'‵′-]"
    word = re.compile(rf"(?<!{part})({'|'.join(sorted(map(re.escape, to), key=len, reverse=True))})(?!{part})")
    changed = 0
    for pattern in ('crates/*/specs/**/*.antt', 'crates/*/proofs/**/*.antt', 'crates/*/src/**/*.rt', 'crates/*/must-fail/*.edit'):
        for name in sorted(glob.glob(pattern, recursive=True)):
            with open(name, encoding='utf-8') as file:
                old = file.read()
            new = word.sub(lambda m: to[m.group(1)], old)
            if new != old:
                changed += 1
                if '--check' not in sys.argv:
                    with open(name, 'w', encoding='utf-8') as file:
                        file.write(new)
    print(f'respell: {changed} files')


main()
