#!/usr/bin/env python3
"""Respells this repository's own definitions and lemmas: words in snake case, types in camel case, a dash only between two names.

usage: python3 tools/respell.py [FOLDER]     FOLDER (else the working folder) has crates/; run it once, after port.py

It goes by whole names, in specs/, proofs/, the clauses of src/, must-fail edits, and, between backquotes, README.md and docs/.
Functions of src/, inputs, outputs and strings keep their names: none of the old spellings is a name of Rust's.
"""

import pathlib
import re
import sys

NAMES = dict(
    line.split()
    for line in """
    All-priced AllPriced
    All-read AllRead
    No-letter NoLetter
    No-price NoPrice
    One-more OneMore
    Price-laws PriceLaws
    Reading-laws ReadingLaws
    Writing-law WritingLaw
    add-blank-own add-blank_own
    add-self add_self
    addIf add_if
    addIf-both add_if_both
    added-commute added_commute
    added-free added_free
    added-long added_long
    added-rows added_rows
    added-unused added_unused
    added-within added_within
    afterBegin after_begin
    against-below against_below
    against-inside against_inside
    against-outside against_outside
    all-priced all_priced
    all-written all_written
    asFading as_fading
    asWorst as_worst
    beginRefusal begin_refusal
    beginReply begin_reply
    beq-is beq_is
    bit-laws bit_laws
    bit-other bit_other
    bit-own bit_own
    bit-set bit_set
    bit-some bit_some
    bit-unset bit_unset
    bits-set bits_set
    blank-long blank_long
    blank-unused blank_unused
    blanks-white blanks_white
    chose-None chose_None
    chose-Some chose_Some
    chosen-commutes chosen_commutes
    chosen-off chosen_off
    chosen-one chosen_one
    chosen-sym chosen_sym
    clash-laws clash_laws
    clash-means clash_means
    clash-self clash_self
    clash-set clash_set
    clash-sym clash_sym
    clashCount clash_count
    clashRefusal clash_refusal
    clashes-below clashes_below
    clashes-more clashes_more
    clashes-partner clashes_partner
    clashes-push clashes_push
    cleared-commutes cleared_commutes
    commutes-addIf commutes_add_if
    commutes-onto commutes_onto
    commuting-push commuting_push
    cond-when cond_when
    cost-alike cost_alike
    dark-from-without dark_from_without
    dark-tail dark_tail
    differ-xor differ_xor
    digits-read digits_read
    digits-unread digits_unread
    digitsNumber digits_number
    empty-took empty_took
    entries-are entries_are
    entries-kept entries_kept
    erased-is erased_is
    erased-letters erased_letters
    errorReply error_reply
    explain-right explain_right
    explained-after explained_after
    fault-short fault_short
    first-dark first_dark
    first-push-false first_push_false
    flat-few flat_few
    flat-is flat_is
    fold-laws fold_laws
    from-flipped from_flipped
    from-none from_none
    front-some front_some
    full-means full_means
    fullRefusal full_refusal
    gives-sum gives_sum
    half-below half_below
    half-double half_double
    high-dark high_dark
    idle-holds idle_holds
    idle-triangular idle_triangular
    inFront in_front
    independence-decided independence_decided
    independent-prop independent_prop
    independent-push independent_push
    independentAfter independent_after
    isBlank is_blank
    isBlank-blank is_blank-blank
    isBlank-is is_blank_is
    isFault is_fault
    isI is_I
    isSum is_sum
    joined-append joined_append
    joined-mono joined_mono
    joined-places joined_places
    joinedFrom joined_from
    layer-laws layer_laws
    left-all left_all
    length-addIf length-add_if
    length-means length_means
    length-partner length_partner
    length-withRow length-with_row
    letter-in-row letter_in_row
    letter-means letter_means
    letterIn letter_in
    letterOf letter_of
    lettered-take lettered_take
    letters-numbers letters_numbers
    lettersOf letters_of
    long-append long_append
    long-from long_from
    long-rows long_rows
    lowest-laws lowest_laws
    mapped-none mapped_none
    marks-are marks_are
    marks-kept marks_kept
    marksIn marks_in
    maxPlaces max_places
    maxRows max_rows
    measure-laws measure_laws
    measure-numbers measure_numbers
    measureOf measure_of
    measureOfNumbers measure_of_numbers
    measured-push measured_push
    name-cut name_cut
    name-whole name_whole
    next-empty next_empty
    no-fault no_fault
    no-letter no_letter
    no-price no_price
    no-sum no_sum
    none-commute none_commute
    numbers-are numbers_are
    numbers-none numbers_none
    numbers-stop numbers_stop
    numbersIn numbers_in
    numbersOf numbers_of
    odd-and odd_and
    odd-double odd_double
    odd-few odd_few
    onto-all onto_all
    onto-pivots onto_pivots
    other-sums-not other_sums-not
    past-gap past_gap
    pivot-sound pivot_sound
    pivotRows pivot_rows
    pivots-push pivots_push
    pivots-sound pivots_sound
    placed-holds placed_holds
    plain-is plain_is
    plus-self plus_self
    price-laws price_laws
    pricesIn prices_in
    put-commute put_commute
    put-free put_free
    put-laws put_laws
    put-long put_long
    put-room put_room
    put-unused put_unused
    read-laws read_laws
    reading-laws reading_laws
    reads-back reads_back
    reduced-below reduced_below
    refusedIf refused_if
    rem-two rem_two
    rest-cut rest_cut
    rest-whole rest_whole
    row-in-rows row_in_rows
    row-means row_means
    row-own row_own
    rowRefusal row_refusal
    rowReply row_reply
    rows-bits-from rows-bits_from
    rowsFrom-push rows_from_push
    rowsFrom-same rows_from-same
    rowsOnto rows_onto
    same-column same_column
    same-is same_is
    same-laws same_laws
    same-sets same_sets
    same-table same_table
    same-words same_words
    second-true second_true
    set-bits set_bits
    setOf set_of
    shiftAt shift_at
    shiftWord shift_word
    shifted-is shifted_is
    shifts-are shifts_are
    shifts-kept shifts_kept
    some-sum some_sum
    star-add-right star-add_right
    star-addIf star-add_if
    star-addIf-right star-add_if_right
    star-blank-right star-blank_right
    star-counts star_counts
    star-self star_self
    star-some star_some
    star-sym star_sym
    stop-x stop_x
    stop-z stop_z
    sum-gives sum_gives
    sum-means sum_means
    sum-some sum_some
    sumRefusal sum_refusal
    sums-decided sums_decided
    syndrome-addIf syndrome-add_if
    tabled-few tabled_few
    take-withRow take-with_row
    textRefusal text_refusal
    to-clash to_clash
    told-spelt told_spelt
    toldText told_text
    turned-other turned_other
    turned-own turned_own
    values-are values_are
    values-kept values_kept
    when-clash when_clash
    when-fault when_fault
    when-full when_full
    when-length when_length
    when-new when_new
    when-spelt when_spelt
    when-sum when_sum
    when-text when_text
    white-ascii white_ascii
    whole-tail whole_tail
    withRow-more with_row_more
    withRow-push with_row_push
    witness-commutes witness_commutes
    wordsFrom words_from
    worst-is worst_is
    worstOf worst_of
    worstThenSum worst_then_sum
    writing-law writing_law
    xor-and-true xor_and_true
    xor-swap xor_swap
""".strip().splitlines()
)

# A name of antt's: a dash is a letter in it, and so is a prime.
NAME = re.compile(r"[^\W\d][\w'₂]*(?:[-≢≡≤<][\w'₂]+)*")


def respelled(text):
    return NAME.sub(lambda name: NAMES.get(name[0], name[0]), text)


def quoted(text):
    return re.sub(r"`[^`\n]+`", lambda words: respelled(words[0]), text)


def main(top):
    changed = 0
    for pattern, turn in (
        ("crates/*/specs/**/*.antt", respelled),
        ("crates/*/proofs/**/*.antt", respelled),
        ("crates/*/src/**/*.rt", respelled),
        ("crates/*/must-fail/*.edit", respelled),
        ("docs/*.md", quoted),
        ("README.md", quoted),
    ):
        for path in sorted(top.glob(pattern)):
            old = path.read_text()
            new = turn(old)
            if new != old:
                path.write_text(new)
                changed += 1
    print(f"respell: {changed} files")


if __name__ == "__main__":
    main(pathlib.Path(sys.argv[1] if len(sys.argv) > 1 else "."))
