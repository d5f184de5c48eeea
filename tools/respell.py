#!/usr/bin/env python3
"""Respells the repository's own definitions and lemmas in today's Rattle: words in snake case, types in camel case.

usage: python3 tools/respell.py, at the top of the repository, once, right after /opt/rattle/port/port.py

It takes the table below, in which each line is an old name and its new one, through the clauses and ghost items of the
sources, through specs/ and proofs/, and through what stands between backquotes in the pages. Functions of the sources,
their fields, strings, inputs and outputs keep their names. A lemma that would have its definition's name gets `_lem`.
"""

import os
import re

TABLE = """
Few-fetches FewFetches
Shelf-law ShelfLaw
Windows-stack WindowsStack
a-fits a_fits
above-high above_high
aboveRefused above_refused
accepted-sound accepted_sound
accessesBelow accesses_below
admitted-free admitted_free
admitted-full admitted_full
afterPut after_put
allDigits all_digits
aloneOf alone_of
any-lawful any_lawful
anyAbove any_above
anyStoreOf any_store_of
arrival-here arrival_here
arrival-le arrival_le
arrives-lands arrives_lands
at-below at_below
b-fits b_fits
bad-worn bad_worn
benchOf bench_of
bit-of-byte bit_of_byte
bits-made bits_made
bits-sound bits_sound
bitsLayout bits_layout
bufferAfter buffer_after
by-touch by_touch
byte-before byte_before
byte-behind byte_behind
byte-below byte_below
byte-front byte_front
byte-here byte_here
byte-over byte_over
byte-part byte_part
byte-read byte_read
byteIf byte_if
bytes-front bytes_front
c-fits c_fits
card-faults card_faults
card-is card_is
card-made card_made
card-sound card_sound
cardLayout card_layout
cardOf card_of
cellNext cell_next
cleaned-tiles cleaned_tiles
cleanedAt cleaned_at
code-low code_low
code-more code_more
columnBehind column_behind
commandOf command_of
count-asked count_asked
deskObeyed desk_obeyed
deskOf desk_of
deskOutcome desk_outcome
deskSaidOf desk_said_of
digit-ascii digit_ascii
digits-end digits_end
digits-here digits_here
each-low each_low
edgeWord edge_word
empty-prop empty_prop
entry-at entry_at_lem
fault-is fault_is
fault-left fault_left
faultIn fault_in
faultOf fault_of
faulted-window faulted_window
fetch-by fetch_by
fetch-made fetch_made
fetch-reaches fetch_reaches
fetch-reads fetch_reads
fetch-refused fetch_refused
fetchAccesses fetch_accesses
fetched-le fetched_le
fetchedIn fetched_in
few-fetches few_fetches
fit-fails fit_fails
fit-more fit_more
found-lands found_lands
found-nobody found_nobody
from-below from_below
from-same from_same
front-again front_again
front-byte front_byte_lem
front-done front_done
front-place front_place
front-some front_some
front-take front_take
front-tile front_tile
frontByte front_byte
frontBytes front_bytes
frontIs front_is
front_bytes front_bytes_lem
gap-clear gap_clear
gap-empty gap_empty
good-prop good_prop
good-written good_written
good-written-back good_written_back
held-length held_length
held-past held_past
held-tile held_tile
hit-done hit_done
hit-reaches hit_reaches
hit-read hit_read
id-least id_least
id-most id_most
ifAccepted if_accepted
image-fault image_fault
image-lawful image_lawful
image-tile image_tile
inLine in_line
isDigit is_digit
isInside is_inside
keeps-accepted keeps_accepted
keeps-if keeps_if
kept-drop kept_drop
kept-fetched kept_fetched
kept-front kept_front
kept-old kept_old
kept-over kept_over
kept-prop kept_prop
kept-roomy kept_roomy
kept-settled kept_settled
kept-tail kept_tail
kept-touched kept_touched
kept-wrote kept_wrote
laidAs laid_as
lands-arrives lands_arrives
lawful-at lawful_at
lawful-back lawful_back
leaving-back leaving_back
leaving-good leaving_good
leaving-reaches leaving_reaches
length-joined length_joined
life-lawful life_lawful
lifeCell life_cell
lifeNext life_next
lifted-level lifted_level
lifted-none lifted_none
list-is list_is
longEnough long_enough
low-set low_set
mark-sound mark_sound
mark-worn mark_worn
markAt mark_at
markedOne marked_one
means-if means_if
memory-made memory_made
memoryAfter memory_after
moved-done moved_done
moved-held moved_held
movedToFront moved_to_front
next-entry next_entry
next-good next_good
next-list next_list
next-some next_some
no-over no_over
no-put no_put
no-rule no_rule
none-again none_again
none-leaves none_leaves
none-prop none_prop
none-reaches none_reaches
none-some none_some
not-cleared not_cleared
not-moved not_moved
not-understood not_understood
numbersOf numbers_of
obeyed-keeps obeyed_keeps
ofCard of_card
ofMemory of_memory
ofWindow of_window
off-first off_first
ok-passed ok_passed
ok-sound ok_sound
ok-unless ok_unless
ok-within ok_within
onStore on_store
one-tile one_tile
over-held over_held
over-tiles over_tiles
overFront over_front
overwritten-low overwritten_low
overwritten-mid overwritten_mid
packed-at packed_at
packed-low packed_low
part-behind part_behind
part-here part_here
passed-buffer passed_buffer
passed-err passed_err
passed-fault passed_fault
passed-store passed_store
passedOn passed_on
passed_on passed_on_lem
past-none past_none
past-reaches past_reaches
pile-lawful pile_lawful
pileOf pile_of
place-cons place_cons
place-first place_first
place-front place_front
placed-none placed_none
placed-some placed_some
plain-sound plain_sound
plainLayout plain_layout
plainStoreOf plain_store_of
plate-made plate_made
plateIn plate_in
plateOf plate_of
plates-obey plates_obey
plating-keeps plating_keeps
platingIn plating_in
platingIn-keeps plating_in_keeps
put-above put_above
put-held put_held
put-over put_over
put-wide put_wide
puts-row puts_row_lem
puts-row-keeps puts_row_keeps
putsRow puts_row
ranCalls ran_calls
ranPlainly ran_plainly
reached-by reached_by
read-mark read_mark
read-sound read_sound
readSaid read_said
reads-back reads_back
reads-through reads_through
refused-keeps refused_keeps
refused-reaches refused_reaches
removed-later removed_later
removed-take removed_take
removed-tiles removed_tiles
removedAt removed_at
rest-small rest_small
row-length row_length
row-set row_set
rowRead row_read
rowSaid row_said
rowSaid-keeps row_said_keeps
rowingIf rowing_if
rowingIn rowing_in
rowingIn-keeps rowing_in_keeps
rule-set rule_set
ruleIn rule_in
ruleOf rule_of
ruling-keeps ruling_keeps
runTouches run_touches
same-hit same_hit
same-miss same_miss
same-shown same_shown
same-tiles same_tiles
settle-ends settle_ends
settle-reaches settle_reaches
settled-as settled_as
settled-reaches settled_reaches
shapeIf shape_if
shelf-count shelf_count
shelf-law shelf_law
shelf-lawful shelf_lawful
shelf-over shelf_over
shelf-read shelf_read
shelf-same shelf_same
shelf-tile shelf_tile
shelfStore shelf_store
shelved-same shelved_same
shelvedOf shelved_of
shown-at shown_at_lem
shown-front shown_front
shown-here shown_here
shown-low shown_low
shown-move shown_move
shown-off shown_off
shown-wide shown_wide
shownAt shown_at
some-above some_above
some-later some_later
stacked-fault stacked_fault
stacked-tile stacked_tile
storeAfter store_after
storeAskedOf store_asked_of
storeCommand store_command
storeTakesMemory store_takes_memory
storeVerbOf store_verb_of
sweepOf sweep_of
sweepSaid sweep_said
sweepSaid-keeps sweep_said_keeps
sweepingIn sweeping_in
sweepingIn-keeps sweeping_in_keeps
sweeps-keeps sweeps_keeps
sweeps-low sweeps_low
sweeps-more sweeps_more
sweepsOn sweeps_on
swept-low swept_low
takesMemory takes_memory
texts-all texts_all
texts-more texts_more
tile-ends tile_ends
tile-here tile_here
tile-left tile_left
tile-read tile_read
tile-wide tile_wide
tile-within tile_within
tile-written tile_written
tileIn tile_in
tileOf tile_of
tiles-of tiles_of
tilesIn tiles_in
tilesOf tiles_of
times-here times_here
times-other times_other
toFront to_front
top-asked top_asked
top-most top_most
top-reaches top_reaches
top-refused top_refused
touch-counts touch_counts
touch-done touch_done
touch-refused touch_refused
touch-same touch_same
touchAccesses touch_accesses
touchAccessesAt touch_accesses_at
touched-as touched_as
touched-bytes touched_bytes
touched-hit touched_hit
touched-kept touched_kept
touched-some touched_some
touched-tile touched_tile
touched-tiles touched_tiles
touched-top touched_top
touched-top-at touched_top_at
touchedAt touched_at
touchedBy touched_by
touchedIf touched_if
turned-front turned_front
turned-last turned_last
unlessFault unless_fault
unpacked-all unpacked_all
unpacked-low unpacked_low
vehicles-lawful vehicles_lawful
vehiclesMade vehicles_made
vehiclesNext vehicles_next
vehiclesOf vehicles_of
verbOf verb_of
wholeTiles whole_tiles
window-fault window_fault
window-few window_few
window-lawful window_lawful
window-low window_low
window-made window_made
window-store window_store
window-tile window_tile
window-twice window_twice
windowLength window_length
windowOf window_of
windowRow window_row
windows-stack windows_stack
with-over with_over
withByte with_byte
withCells with_cells
within-at within_at
within-high within_high
within-joined within_joined
word-is word_is
word-past word_past
wordAt word_at
words-from words_from
wornFits worn_fits
worth-grows worth_grows
write-does write_does
write-good write_good
write-reaches write_reaches
write-stays write_stays
writeAccesses write_accesses
writeOf write_of
writeSaid write_said
writes-append writes_append
writesBack writes_back
written-back-count written_back_count
written-back-faults written_back_faults
written-back-push written_back_push
written-back-shown written_back_shown
written-back-top written_back_top
writtenBack written_back
wrote-means wrote_means
wrote-within wrote_within
wroteIf wrote_if
"""

NAMES = dict(line.split() for line in TABLE.split("\n") if line)

# a name as antt reads it: letters, digits, `_`, `-` and `'`, and not a step of a proof, which stands behind `c.`
NAME = re.compile(r"(?<![\w'-])(?<!\bc\.)[A-Za-z][\w'-]*(?![\w'-])")


def turned(text, plain):
    """The text with each name of the table respelled; a name that is a Rust name too (plain) only in antt."""
    return NAME.sub(lambda m: NAMES.get(m[0], m[0]) if plain or "-" in m[0] or m[0] != m[0].lower() else m[0], text)


def turned_page(text):
    return re.sub(r"`[^`\n]*`", lambda m: turned(m[0], False), text)


def files(*tops):
    for top in tops:
        for folder, dirs, names in os.walk(top):
            dirs[:] = [d for d in dirs if d not in ("out", ".git", "target")]
            yield from (os.path.join(folder, n) for n in names)


def main():
    turns = {".antt": lambda t: turned(t, True), ".rt": lambda t: turned(t, False), ".md": turned_page}
    for path in sorted(set(files("crates", "docs"))) + ["README.md"]:
        turn = turns.get(os.path.splitext(path)[1])
        if turn is None:
            continue
        with open(path, encoding="utf-8") as f:
            before = f.read()
        after = turn(before)
        if after != before:
            with open(path, "w", encoding="utf-8") as f:
                f.write(after)


if __name__ == "__main__":
    main()

