#!/usr/bin/env python3
"""Respells the definitions and lemmas that an older Rattle let stand in camel case or with hyphens, as the toolchain spells its own.

usage: python3 tools/respell.py        at the top of a repository, once, after /opt/rattle/port/port.py

It goes by whole words over the .rt, .antt and .edit files below crates/, and over edits/ where that is. No function of src/ has
such a name, no string, input or output holds one, and no two words come to the same one: it stops where they would.
"""

import os
import re

WORDS = dict(line.split() for line in """
addNumber add_number
adjoin-laws adjoin_laws
aloneFault alone_fault
aloneVerdicts alone_verdicts
amplitudeNumber amplitude_number
amplitudeOf amplitude_of
answers-s answers_s
answers-t answers_t
archiveFault archive_fault
archiveReport archive_report
archiveVerdicts archive_verdicts
bitCount bits_before_fill
bitsAt bits_from
bitsReport bits_report
columnsText columns_text
coupled-turns coupled_turns
couplingAt coupling_between
couplingIn coupling_in
couplingOf coupling_of
couplingPlace place_of_coupling
denialNumber denial_number
digitsOf digits_of
dimensionIn dimension_in
end-s end_s
end-t end_t
entryNumber entry_number
faultOf fault_of
faultOr fault_or
faultText fault_text
fieldNumber field_number
firstFault first_fault
formPower form_power
foundBoth found_both
gateMatrix gate_matrix
gateNumber gate_number
gateOf gate_numbered
gauss-laws gauss_laws
gauss-to gauss_to
glyphOf glyph_of
half-turn half_turn
hexAt hex_at
holds-first holds_first
holds-second holds_second
inOrder in_order
inputNumber input_number
int-to int_to
inverseKind kind_inverse
inverseOf inverse_of
isQubit is_qubit
letterOf letter_of
lettersOf letters_of
level-onto-y level_onto_y
lineText line_text
linearAt coefficient_at
linearIn linear_in
linearOf linear_of
linearPlace linear_place
low-plus low_plus
low-times low_times
loweredBy lowered_by
markText mark_text
minus-z minus_z
mod-mul-mod mod_mul_mod
mul-mod-mod mul_mod_mod
neg-neg neg_neg
neg-nil neg_nil
neg-plus neg_plus
neg-times neg_times
nibbleOf nibble_of
nil-plus nil_plus
nil-times nil_times
num-plus num_plus
num-times num_times
ofSheet of_sheet
offLeads off_leads
omega-to omega_to
one-string one_string
one-times one_times
one-to one_to
onto-minus-z onto_minus_z
onto-x onto_x
onto-y onto_y
openNumber open_number
operandsNumber operands_number
opposite-turns opposite_turns
outcomeNumber outcome_number
outcomeText outcome_text
overlapText overlap_text
pair-discrete pair_discrete
pairNumber pair_number
pairsBefore pairs_before
pauliMatrix pauli_matrix
pauliOf pauli_of
phaseIn phase_in
phaseInside phase_inside
phaseOf phase_of
pivotOf row_pivot
placeAfter place_after
plus-left-comm plus_left_comm
plus-neg plus_neg
plus-to plus_to
plus-x plus_x
plus-y plus_y
powerOf power_of
quad-laws quad_laws
quadOf quad_of
quarter-turn quarter_turn
quartersOf quarters_of
readNumber read_number
reportOf report_of
residue-laws residue_laws
residueOf residue_of
restVerdict rest_verdict
resultText result_text
rootOf root_of
rotatedBy rotated_by
rowOfTable table_row
ruleNumber rule_number
seventeen-laws seventeen_laws
shiftIn shift_inside
shiftPlace shift_place
sizesNumber sizes_number
stateEnd end_of_state
stateFault state_fault
stateReport state_report
statesFault states_fault
statesVerdicts states_verdicts
stringsIn strings_in
takenBy taken_by
termAt term_at
termIn term_in
termOf term_of
textNumber text_number
times-assoc times_assoc
times-comm times_comm
times-left-comm times_left_comm
times-middle times_middle
times-neg times_neg
times-nil times_nil
times-one times_one
times-plus times_plus
times-to times_to
tower-laws tower_laws
tripleText triple_text
two-times two_times
w-fourth w_fourth
""".strip().splitlines())

WORD = re.compile(r"[^\W\d][\w'-]*")
ENDINGS = (".rt", ".antt", ".edit")


def files():
    for top in ("crates", "edits"):
        for folder, folders, names in os.walk(top):
            folders[:] = sorted(f for f in folders if f != "out")
            yield from (os.path.join(folder, name) for name in sorted(names) if name.endswith(ENDINGS))


def main():
    new = set(WORDS.values())
    if len(new) != len(WORDS):
        raise SystemExit("respell: two words of the table come to the same one")
    changed = 0
    for path in files():
        with open(path, encoding="utf-8") as f:
            text = f.read()
        told = WORD.sub(lambda m: WORDS.get(m[0], m[0]), text)
        if told != text:
            with open(path, "w", encoding="utf-8") as f:
                f.write(told)
            changed += 1
    print(f"respell: {changed} files")


if __name__ == "__main__":
    main()
