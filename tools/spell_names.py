#!/usr/bin/env python3
"""Respells the repository's own definitions and lemmas: snake case for functions and lemmas, camel case for facts.

usage: python3 tools/spell_names.py [ROOT]     once, right after the kit's own scripts have turned the files

It changes whole words in the specs, the proofs, the contracts, the must-fail edits, and (between backticks) the documents. A word behind `c.` or `w.` is a step of a
proof and stays. It refuses to run where two names would fall together.
"""

import os
import re
import sys

NAMES = """
firstsOf firsts_of; is-printed is_printed; is-refused is_refused; times-shuffled times-IsPermutation; refusalOf deck_refusal;
All-follow AllFollow; All-join AllJoin; Beside-lawful BesideLawful; Blank-from BlankFrom; First-lawful FirstLawful; Keeps-part KeepsPart;
One-best OneBest; One-removed OneRemoved; Over-lawful OverLawful; Path-independent PathIndependent; Place-for PlaceFor; Rank-orders RankOrders;
Rules-order RulesOrder; Those-counted ThoseCounted; Without-lawful WithoutLawful; above-irrefl above_irrefl; above-total above_total;
above-trans above_trans; across-bump across_bump; across-le across_le; across-none across_none; across-same across_same; add-cases add_cases;
add-old add_old; add-self add_self; add-zero add_zero; ahead-le ahead_le; among-at among_at; among-is among_is; among-more among_more;
among-place among_place; among-push among_push; and-true and_true; asks-contract asks_contract; asks-marks asks_marks; at-by at_by; at-end at_end;
at-record at_record; bar-part bar_part; bar-reason bar_reason; barAt bar_at; barred-here barred_here; barred-nowhere barred_nowhere;
bars-apart bars_apart; bars-no bars_no; bars-yes bars_yes; begins-with begins_with; below-cap below_cap; best-only best_only; best-taken best_taken;
better-irrefl better_irrefl; better-or better_or; better-total better_total; better-trans better_trans; bit-back bit_back; blank-from blank_from;
by-lot by_lot; by-record by_record; by-rule by_rule; by-term by_term; byBytes by_bytes; byDeck by_deck; byRecords by_records;
byteRefusal byte_refusal; bytes-are bytes_are; chosen-over chosen_over; chosen-part chosen_part; chosen-twice chosen_twice;
climbing-full climbing_full; climbing-none climbing_none; compared-alike compared_alike; compared-flip compared_flip; compared-trans compared_trans;
cond-le cond_le; contentOf content_of; contract-fits contract_fits; contract-groups contract_groups; contract-trainees contract_trainees;
contractAt contract_at; count-all count_all; count-more count_more; countBy-none count_by_none; countBy-same count_by_same; cut-more cut_more;
cut-none cut_none; dealt-few dealt_few; dealt-sound dealt_sound; dealt-text dealt_text; deckLine line_of_deck; deckOf deck_fault_of; deckText text_of_deck;
dredger-wider dredger_wider; dredgerAt dredger_at; due-record due_record; each-push each_push; encode-size encode_size; end-alone end_alone;
end-no end_no; enough-full enough_full; entitledOf entitled_of; entry-is entry_is; explained-first explained_first; explained-over explained_over;
explained-struck explained_struck; explained-without explained_without; extend-more extend_more; extend-snoc extend_snoc; few-more few_more;
filled-by filled_by; filled-once filled_once; filled-suc filled_suc; first-at first_at; first-full first_full; first-full-suc first_full_suc;
first-is-lawful first_is_lawful; first-no first_no; fits-deals fits_deals; formed-snoc formed_snoc; found-best found_best; from-here from_here;
front-numbers front_numbers; gathered-more gathered_more; gathered-same gathered_same; getD-begins get_or_begins; getD-mapped get_or_mapped;
getD-marked get_or-marked; getD-ringed get_or-ringed; getD-zeros get_or-zeros; given-held given_held; given-row given_row; goes-on-is goes_on_is;
group-wider group_wider; groupAt group_at; groupEntry entry_of_group; has-place has_place; held-firsts held_firsts; held-given held_given;
holds-less holds_less; holds-none holds_none; is-dealt is_dealt; items-le-places items_le_places; its-order its_order; its-parent its_parent;
joined-all joined_all; joined-more joined_more; joined-room joined_room; joins-end joins_end; kept-are kept_are; kept-join kept_join;
keys-total keys_total; kids-other kids_other; kids-parent kids_parent; kids-same kids_same; kind-by kind_by_lem; kindBy kind_by; layerName layer_name;
lazy-full lazy_full; leb-other leb_other; led-past led_past; left-or-out left_or_out; length-by-times length_by_times; length-join length_join;
less-of less_of; lex-trans lex_trans; lined-all lined_all; lined-apart lined_apart; lined-before lined_before; lined-count lined_count;
lined-dredgers lined_dredgers; lined-in lined_in; lined-length lined_length; looked-up looked_up; lot-irrefl lot_irrefl; lot-total lot_total;
lot-trans lot_trans; lots-apart lots_apart; lower-lot lower_lot; lower-term lower_term; lt-compared lt_compared; lt-rank lt_rank; lt-then lt_then;
made-earlier made_earlier; map-exchanged map_exchanged; map-moved map_moved; mark-end mark_end; mark-here mark_here; marks-fit marks_fit;
member-past member_past; met-with met_with; minus-in minus_in; minus-of minus_of; minus-out minus_out; minus-read minus_read; name-at name_at_lem;
name-wider name_wider; nameLine line_of_name; new-group new_group; no-parent no_parent; noGroup no_group; none-met none_met; none-past none_past;
none-taken none_taken; not-both not_both; not-closed not_closed; numberField number_field; numbers-back numbers_back; once-below once_below;
one-all one_all; one-best one_best; one-kind one_kind; one-no one_no; one-record one_record; one-refusal one_refusal; one-removed one_removed;
one-row one_row; one-sum one_sum; open-le open_le; or-false or_false; or-true or_true; other-rule other_rule; others-left others_left;
out-of-part out_of_part; own-le own_le; own-long own_long; pairs-push pairs_push; part-is part_is; pass-by pass_by; pass-first pass_first;
passes-part passes_part; passing-le passing_le; passing-none passing_none; passing-same passing_same; passing-some passing_some;
path-independent path_independent; pending-full pending_full; pending-none pending_none; piled-is piled_is; place-for place_for;
points-less points_less; precedes-by-rule precedes_by_rule; precedes-dredgers precedes_dredgers; precedes-itself precedes_itself;
prefers-irrefl prefers_irrefl; prefers-total prefers_total; prefers-trans prefers_trans; prepared-less prepared_less; question-by question_by_lem;
questionBy question_by; quota-reason quota_reason; rank-equal rank_equal; rank-orders rank_orders; ready-less ready_less; record-by record_by_lem;
recordBy record_by; recordOf record_fault_of; recordRefusal record_refusal; refusal-of refusal_of; refusalLine line_of_refusal;
reserve-part reserve_part; reserve-reason reserve_reason; reserveAt reserve_at; reserves-apart reserves_apart; reserving-all reserving_all;
reserving-more reserving_more; reserving-next reserving_next; reserving-none reserving_none; ringed-first ringed_first; ringed-last ringed_last;
ringed-newest ringed_newest; ringed-none ringed_none; ringed-oldest ringed_oldest; ringed-put ringed_put; rises-from-sort rises_from_sort;
rising-all rising_all; rising-has rising_has; rising-in rising_in; rising-out rising_out; rising-sum rising_sum; room-le room_le;
roomy-written roomy_written; rule-strict rule_strict; rules-order rules_order; said-apart said_apart; said-equal said_equal; seatAt seat_at;
seating-all seating_all; seating-more seating_more; seating-none seating_none; seats-for seats_for; section-is section_is; sectionOf section_of;
seen-is seen_is; seen-room seen_room; serves-rank serves_rank; shuffled-back permutation_back; spanAt span_at; spans-more spans_more;
spans-none spans_none; spells-short spells_short; spots-apart spots_apart; starts-points starts_points; stop-full stop_full; stop-of stop_of;
stop-top stop_top; stop-up stop_up; stopped-at stopped_at; strike-bit strike_bit; stuck-end stuck_end; stuck-no stuck_no; sums-are sums_are;
taken-best taken_best; takes-newest takes_newest; takes-oldest takes_oldest; term-irrefl term_irrefl; term-total term_total; term-trans term_trans;
tests-are tests_are; the-newest the_newest; the-oldest the_oldest; then-step then_step; thinned-all thinned_all; those-counted those_counted;
times-same times_same; times-sum times_sum; to-here to_here; to-place to_place; together-back together_back; total-bump total_bump; total-le total_le;
total-none total_none; total-one total_one; total-past total_past; total-plus total_plus; total-same total_same; traineeAt trainee_at;
traineeLine line_of_trainee; traineeLines lines_of_trainees; turn-all turn_all; turn-full turn_full; turn-none turn_none; turn-top turn_top;
under-cond under_cond; union-flip union_flip; unstopped-is unstopped_is; up-trans up_trans; upwards-all upwards_all; upwards-fails upwards_fails;
upwards-from upwards_from; upwards-none upwards_none; upwards-suc upwards_suc; walking-all walking_all; walking-none walking_none; wish-all wish_all;
wish-more wish_more; wish-other wish_other; wish-part wish_part; wishEntry entry_of_wish; wishes-apart wishes_apart; wishes-push wishes_push;
within-part within_part; written-dredgers written_dredgers; written-more written_more; wrong-count wrong_count; zeroBarring zero_barring;
zeroContract zero_contract; zeroGroup zero_group; zeroReservation zero_reservation; zeroSeat zero_seat; zeroTrainee zero_trainee; zeros-at zeros_at
"""

PAIRS = dict(pair.split() for pair in NAMES.replace("\n", " ").split(";"))
WORD = r"(?<![\w'\u25cc-])(" + "|".join(sorted(map(re.escape, PAIRS), key=len, reverse=True)) + r")(?![\w'\u25cc-])"


def respell(text):
    def turn(match):
        before = text[: match.start()]
        return match.group(0) if re.search(r"(?<![\w'])[cw]\.$", before) else PAIRS[match.group(0)]

    return re.sub(WORD, turn, text)


def files(root):
    for top in ("crates", "docs"):
        for folder, dirs, names in os.walk(os.path.join(root, top)):
            dirs[:] = sorted(d for d in dirs if d != "out")
            yield from (os.path.join(folder, n) for n in sorted(names))
    yield os.path.join(root, "README.md")


def main(root):
    if len(set(PAIRS.values())) != len(PAIRS):
        raise SystemExit("two names fall together")
    changed = 0
    for path in files(root):
        if not path.endswith((".antt", ".rt", ".edit", ".md")) or not os.path.isfile(path):
            continue
        with open(path, encoding="utf-8") as file:
            old = file.read()
        if path.endswith(".md"):
            new = re.sub(r"`[^`\n]+`", lambda code: respell(code.group(0)), old)
        else:
            new = respell(old)
        if new != old:
            changed += 1
            with open(path, "w", encoding="utf-8") as file:
                file.write(new)
    print(f"{changed} files changed")


if __name__ == "__main__":
    main(sys.argv[1] if len(sys.argv) > 1 else ".")
