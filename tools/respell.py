#!/usr/bin/env python3
"""Turns the repository's own names to the spelling that this Rattle has: words in snake case, types in camel case.

Run once at the top of the repository, after the kit's port.py: python3 tools/respell.py
It was run once, for the commit RESPELLED of docs/PORT.md, and is not for what came after: a few names that the prover makes have since gone back.
It goes over the .rt and .antt files below crates/, gives the crate `bytes`, whose name the kit has a library of, the name `lent_bytes`,
and changes nothing but names. A dash stays where it joins two names, as in `length-placed`.
"""

import os
import re
import subprocess

CRATE = ("bytes", "lent_bytes")

# Each line: the old name and the new one.
NAMES = """
Both-ways BothWays
Five-over-twelve FiveOverTwelve
ab-fits ab_fits
age-place age_place
alike-after alike_after
alike-before alike_before
amount-alike amount_alike
amount-at amount_at
amount-back amount_back
amount-length amount_length
amount-of amount_of
asked-none asked_none
asked-nth asked_nth
asked-room asked_room
asked-row asked_row
at-half at_half
at-half-2 at_half-2
bad-element bad_element
blank-again blank_again
byte-digits byte_digits
byte-of-fault byte_of_fault
bytes32-write bytes32_write
check-length check_length
coarsen-meaning coarsen_meaning
coarsen-sound coarsen_sound
coarsen-well coarsen_well
coarser-closed coarser_closed
coarser-grown coarser_grown
coarser-none coarser_none
coarser-sound coarser_sound
details-length details_length
earliest-all earliest_all
earliest-found earliest_found
earliest-more earliest_more
earliest-none earliest_none
element-fault element_fault
empty-item empty_item
ending-sound ending_sound
fault-alike fault_alike
fault-at fault_at
few-rows few_rows
first-well first_well
fit-allowance fit_allowance
fit-factor fit_factor
fit-factor-factor fit_factor-factor
fit-inner fit_inner
fit-outer fit_outer
fit-taken fit_taken
fits-held fits_held
fitting-none fitting_none
five-over-twelve five_over_twelve
five-over-twelve-tower five_over_twelve-tower
folded-append fold-append
fresh-upto fresh_upto
from-once from_once
from-twice from_twice
from-written from_written
front-fault front_fault
front-sound front_sound
getD-placed get_or-placed
getD-placed-after get_or-placed_after
getD-placed-before get_or-placed_before
getD-places get_or-places
group-within group_within
grouping-closed grouping_closed
grouping-grown grouping_grown
grouping-over grouping_over
head-fault head_fault
head-fits head_fits
head-inside head_inside
head-kept head_kept
head-next head_next
head-right head_right
head-round head_round
head-within head_within
header-after header_after
header-alike header_alike
header-back header_back
header-bytes header_bytes
header-fault header_fault
header-in header_in
header-line header_line
header-of header_of
header-placed header_placed
header-right header_right
header-short header_short
header-sound header_sound
held-before held_before
held-digits held_digits
held-fault held_fault
held-index-end held-index_end
held-within held_within
image-fault image_fault
image-meaning image_meaning
image-of-ring image_of_ring
image-span image_span
is-kind is_kind
is-middle is_middle
is-shown is_shown
is-top is_top
item-alike item_alike
item-at item_at
item-bytes item_bytes
item-counts item_counts
item-index item_index
item-joined item_joined
item-lawful item_lawful
its-amount its_amount
its-known its_known
its-of its_of
its-weight its_weight
joined-append joined_append
kept-after kept_after
kept-long kept_long
kind-digits kind_digits
kind-fault kind_fault
kind-numbered kind_numbered
kind-read kind_read
kind-shown kind_shown
known-back known_back
known-fits known_fits
laid-written laid_written
last-of-seven-and-empty last_of_seven_and_empty
latest-rows latest_rows
latest-sound latest_sound
law-of-archives law_of_archives
lay-out-cursor lay_out-cursor
le32-alike le32_alike
le32-placed le32_placed
left-unit left_unit
length-after length_after
length-fault length_fault
length-laid length_laid
length-written length_written
limited-asked limited_asked
limited-meaning limited_meaning
limited-sound limited_sound
limited-well limited_well
line-length line_length
listing-of listing_of
made-fresh made_fresh
mapped-none mapped_none
mean-cut mean_cut
mean-held mean_held
mean-instant mean_instant
mean-joined mean_joined
mean-joined-with-twenty-over-two mean_joined_with_twenty_over_two
mean-lawful mean_lawful
mean-of-minus-three-over-four-seconds mean_of_minus_three_over_four_seconds
meaning-a meaning_a
meaning-b meaning_b
meaning-of meaning_of
min-of-empty-and-seven min_of_empty_and_seven
most-allowance most_allowance
most-factor most_factor
most-span most_span
most-width most_width
newest-all newest_all
newest-push newest_push
next-free next_free
no-fault no_fault
no-newest no_newest
none-begun none_begun
none-some none_some
nth-within nth_within
number-alike number_alike
number-index number_index
number-of-element-fault number_of_element_fault
number-of-fault number_of_fault
number-of-kind number_of_kind
number-of-refusal number_of_refusal
of-back of_back
of-bytes of_bytes
of-fits of_fits
of-kind of_kind
of-latest of_latest
of-parts of_parts
of-ring of_ring
offset-fault offset_fault
offset-fits offset_fits
on-head on_head
on-held on_held
on-kind on_kind
on-length on_length
on-offset on_offset
on-span on_span
one-digit one_digit
one-meaning one_meaning
one-point-more one_point_more
one-row one_row
one-row-of-sixty-one one_row_of_sixty_one
or-first or_first
or-none or_none
or-second or_second
place-fits place_fits
place-held place_held
place-of place_of
placed-more placed_more
product-fits product_fits
put-before put_before
put-ending put_ending
put-ending-in-default put_ending-in_default
put-header put_header
put-row put_row
put-rows put_rows
put-spaced put_spaced
puts-all puts_all
puts-line puts_line
puts-more puts_more
puts-next puts_next
puts-short puts_short
puts-stop puts_stop
read-header-header read_header-header
reading-over reading_over
record-bytes record_bytes
record-kept record_kept
record-room record_room
record-value record_value
refusal-length refusal_length
refused-front refused_front
refused-if refused_if
refused-row refused_row
right-unit right_unit
ring-aged ring_aged
ring-asked ring_asked
ring-bytes ring_bytes
ring-found ring_found
ring-held ring_held
ring-idle ring_idle
ring-length ring_length
ring-meaning ring_meaning
ring-missing ring_missing
ring-recorded ring_recorded
ring-rows ring_rows
ring-sound ring_sound
ring-span ring_span
ring-stored ring_stored
ring-well ring_well
room-turn room_turn
row-at row_at
row-bytes row_bytes
row-length row_length
row-placed row_placed
row-sound row_sound
row-start row_start
row-start-start row_start-start
row-tells row_tells
row-there row_there
rows-after rows_after
rows-for rows_for
rows-length rows_length
rows-shown rows_shown
same-meaning same_meaning
second-well second_well
shown-as-is shown_as_is
shown-length shown_length
shown-unknown shown_unknown
shown-unless shown_unless
shown-whole shown_whole
signed-length signed_length
single-fault single_fault
single-joined single_joined
slots-after slots_after
some-factor some_factor
some-inner some_inner
some-outer some_outer
some-rows some_rows
some-width some_width
span-digits span_digits
span-fault span_fault
span-is span_is
span-long span_long
span-shown span_shown
span-whole span_whole
span-within span_within
spell-digits-digits spell_digits-digits
start-once start_once
start-twice start_twice
store-all store_all
store-all-2 store_all-2
stored-all stored_all
stored-in stored_in
stored-out stored_out
sum-within sum_within
sum32-fits sum32_fits
sum32-lawful sum32_lawful
sum64-fits sum64_fits
sum64-lawful sum64_lawful
ten-digits ten_digits
three-known-of-five three_known_of_five
total-fault total_fault
total-fits total_fits
turn-back turn_back
turn-bytes turn_bytes
turning-new turning_new
turning-on turning_on
twice-meaning twice_meaning
twice-well twice_well
two-known-of-five two_known_of_five
unless-err unless_err
unless-ok unless_ok
unless-some unless_some
unless-value unless_value
upto-more upto_more
upto-run upto_run
weight-at weight_at
weight-back weight_back
weight-fits weight_fits
weight-of weight_of
well-a well_a
well-b well_b
well-once well_once
well-twice well_twice
what-fits what_fits
when-none when_none
within-span within_span
write-row write_row
write-turn write_turn
write-u32 write_u32
write-u32-2 write_u32-2
write-u32-3 write_u32-3
write-u32-4 write_u32-4
write-u32-5 write_u32-5
write-u32-6 write_u32-6
write-u64 write_u64
wrong-span wrong_span
"""

NAME = re.compile(r"[^\s(){}\[\],;.:λ\"`]+")


def respelled(text, names, comment):
    """The text with each whole word that is an old name turned, but for what is behind a comment sign."""
    lines = []
    for line in text.split("\n"):
        code, sign, rest = line.partition(comment)
        lines.append(NAME.sub(lambda m: names.get(m[0], m[0]), code) + sign + rest)
    return "\n".join(lines)


def in_crate(text):
    old, new = CRATE
    text = re.sub(rf"\bRattle\.{old}\.", f"Rattle.{new}.", text)
    return re.sub(rf"^(\s*(?:pub )?use ){old}::", rf"\g<1>{new}::", text, flags=re.M)


def main():
    names = dict(line.split() for line in NAMES.strip().split("\n"))
    assert len(set(names.values())) == len(names), "two names fall together"
    old, new = CRATE
    if os.path.isdir(f"crates/{old}"):
        subprocess.run(["git", "mv", f"crates/{old}", f"crates/{new}"], check=True)
    with open("crates.txt") as f:
        listed = f.read()
    with open("crates.txt", "w") as f:
        f.write("\n".join(l if l.startswith("#") else re.sub(rf"\b{old}\b", new, l) for l in listed.split("\n")))
    for folder, _, files in os.walk("crates"):
        for name in files:
            if name.endswith((".rt", ".antt")):
                path = os.path.join(folder, name)
                with open(path) as f:
                    text = f.read()
                turned = in_crate(respelled(text, names, "//" if name.endswith(".rt") else "--"))
                if turned != text:
                    with open(path, "w") as f:
                        f.write(turned)


main()
