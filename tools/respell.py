#!/usr/bin/env python3
"""Respells the definitions and lemmas of this repository as the language now spells names: words in snake case, facts and types
in upper camel case.

usage: respell.py   at the top, after the toolchain's own script for older repositories, once.

Names that were respelled by that script already, those that the checker makes, and names of src/ stay. In a Markdown file only what
stands in backquotes is respelled.
"""
import pathlib
import re

NAMES = """
All-bytes Board-lent Both-free By-rounds Chain-opens Chain-whole Closed-but Days-right Exchange-counts Exchange-keeps
Fewest-least First-fault Free-for If-memory Least-of-plans Lent-for Lowest-of Never-comes No-fewer
None-without-meetings One-board Or-at Others-stay Part-of Placed-lent Plans-all Put-before Put-in Puts-all Puts-on
Read-then-written Row-of Tells-first Told-apart Told-by Vacant-in Within-rows Written-then-read accepted-fits
accepted-from-ok accepted-parts after-chain after-three all-before all-even all-fresh all-meetings all-pairs
all-reached all-within among-all at-cases at-found at-two becomes-also becomes-same becomes-then best-all best-more
beyond-set board-apart board-placed board-taken busiest-below busiest-is by-rounds bytes-of-list bytes-of-meetings
bytes-of-pairs came-to cases-side chain-for chain-found chain-found-opens chain-frees chain-is chain-opens chain-part
chain-whole clash-at clear-g clear-k clear-more clear-n clear-q clear-s clear-short cleared-beyond cleared-rows
clearing-ends clearing-more clearing-starts clearing-within closed-start closed-step closed-stop common-free
common-frees common-shown common-vacant count-accepted count-all count-but-one count-ext count-fewer count-front
count-members count-one count-places count-refused count-some count-step count-written days-right ends-early even-part
even-run exchange-counts exchange-keeps exchanged-below exchanged-long exchanged-none exchanged-past exchanged-round
exchanged-stays exchanged-to exist-more exist-none few-meetings fewest-below fewest-least fewest-suffices finds-same
finds-then first-fault first-gains first-held fitting-accepted five-bytes follow-ends follow-falls follow-on found-is
free-is free-taken fresh-append fresh-count fresh-from-once from-j front-held goes-on-to group-free group-named
group-narrow group-rest group-room group-width groups-within has-free held-cases holds-cons in-a in-all-rounds
in-exchanged in-i in-j in-k in-part in-round in-x in-z is-a is-g is-k is-many is-n is-q is-s k-there known-below
largest-above largest-stands largest-within last-held least-said left-of left-with-one lent-enough lent-shape
limit-accepted limit-at limit-refused limit-step limit-written long-groups long-one long-rounds long-stations long-two
lowest-ext lowest-is lowest-of lowest-same made-if-memory many-at marked-none meeting-accepted meeting-at meeting-of
meeting-step meetings-accepted meetings-at meetings-first meetings-of meetings-written most-meetings movable-back
movable-on movable-out moved-from moved-third near-below near-beside near-found near-in near-or-self near-out
neighbour-there never-comes no-common no-fewer no-fewer-said no-such-party none-at none-at-end none-common none-held
none-in-count none-in-limits none-in-party none-suffice none-without-meetings not-both not-free-is not-one now-at
numbers-long numbers-within of-groups of-meetings of-stations on-with once-from-fresh one-a one-before one-board
one-cases one-if one-more-here one-round one-there one-turn only-memory other-in other-side others-stay out-of-limits
own-free own-shown pair-at pair-more part-closes part-cons part-found parties-bound parties-of party-accepted party-at
party-fits party-of party-refused party-step party-within party-written place-all place-before place-held
place-of-clash place-of-lent place-of-limit placed-all-as placed-keeps plan-for-more promised-if-made put-by-chain
put-by-chain-is put-from put-from-more put-in-as puts-all puts-chain puts-common putting-more putting-starts
reached-on read-list read-then-written refusal-text refused-one rest-held room-left rooms-enough rooms-of-none
rooms-within round-kept round-of rounds-by-rooms rounds-on row-entry row-long row-of-board rows-placed run-each
run-fresh run-new run-same said-exist said-few same-entry same-groups same-rounds same-stations second-gains
shift-free shifted-all shifted-is shifted-long shifted-no shifted-round shifted-yes side-rows spare-at starts-in
station-free station-named station-narrow station-rest station-room station-width stations-within step-accepted
step-no step-yes still-unused swap-first swap-in swap-other swap-second tally-all tally-fits tally-held tally-is
tally-more tally-none then-accepted then-out then-vacant third-round three-shifts told-apart told-exactly total-add
total-at-least total-le total-swap total-zero turn-differ turn-free turn-gives turn-leaves turn-no turn-other
turn-swap turn-yes two-b two-on two-sound unless-refused vacant-taken walked-stops was-in whole-list with-one
within-widths write-all write-one written-then-read
"""


def spelled(name):
    words = name.split("-")
    if name[0].isupper():
        return "".join(word[0].upper() + word[1:] for word in words)
    return "_".join(words)


# These the toolchain's script has respelled in the crates, and not in the documents.
RESPELLED = """
after-one after-two all-append all-closed all-new all-right all-three append-cases at-none at-one beside-back bytes-of
closed-in closed-run count-none each-member entry-at found-in goes-on held-more holds-more in-all in-b in-either
in-two known-past lent-at made-of marked-more moved-apart moved-in moved-same no-more none-before none-in none-left
not-there nothing-left number-at number-of of-two one-b one-entry one-in one-less one-more one-of own-read part-of
passes-on place-of put-all read-one ready-at rows-fit rows-long rows-of rows-taken same-place same-rows set-here
set-there shape-of shifted-at shifted-start step-then told-of too-many total-at-most total-ext two-bytes two-none
two-steps walked-more wide-enough width-of with-all
"""

RENAMED = {name: spelled(name) for name in NAMES.split()}
# Facts that the rule does not find: a family of types in small letters, and one that the toolchain's script had respelled.
RENAMED["nowhere"] = "Nowhere"
RENAMED["Placed_all"] = "PlacedAll"
# A name of the checker's own follows `c.` or `l.`, and stays.
TOKEN = re.compile(r"(?<![\w'·-])(?<!\bc\.)(?<!\bl\.)[A-Za-z][\w']*(?:-[\w']+)*")


IN_DOCUMENTS = RENAMED | {name: spelled(name) for name in RESPELLED.split()}


def respelled(text, names):
    return TOKEN.sub(lambda found: names.get(found[0], found[0]), text)


def main():
    top = pathlib.Path(__file__).resolve().parent.parent
    for path in sorted(top.glob("crates/*/**/*")):
        if path.suffix not in (".antt", ".rt", ".edit") or "out" in path.parts:
            continue
        text = path.read_text()
        path.write_text(respelled(text, RENAMED))
    for path in [top / "README.md", *sorted(top.glob("docs/*.md"))]:
        text = path.read_text()
        path.write_text(re.sub(r"`[^`]*`", lambda quoted: respelled(quoted[0], IN_DOCUMENTS), text))


main()
