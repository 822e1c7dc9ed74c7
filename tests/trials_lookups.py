"""The judge's cases for what a failed lookup tells: the cell's and the column's word. A name's number is the rule's.

Cells 200 to 249 are 0; cell 255, which nothing reads, is made p - 1 here, so that the last has a word of its own."""
import itertools

from oracle import P, six, words_of
from trials_parts import (
    ADDR_A, EXEC, EXEC_LOOKUPS, EXT, EXT_LOOKUPS, IDX_A, IDX_B, MEMORY, RES, V_A, V_A_BASE, V_B, VALUE_A, VALUE_B, changed)

ROWS = (9, 255)  # in both tables rows whose addresses are free, and are not read by the row before
FIVE = {rule: columns for rule, columns in EXT_LOOKUPS.items() if columns[2] == 5}
SETS = ((0,), (4,), (0, 4), (1, 2), (2, 3), (3, 4), (1, 2, 3, 4), (0, 1, 2, 3, 4))  # which of five values are off


def one_cell(t, parts, start, cells):
    for part, rule, (address, value, _) in [(EXEC, r, c) for r, c in EXEC_LOOKUPS.items()] + [(EXT, 18, EXT_LOOKUPS[18])]:
        for row, (name, at, word, told) in zip(itertools.cycle(ROWS), (
                ("another cell's word", 7, cells[8], (cells[7], cells[8])), ("found 0", 7, 0, (cells[7], 0)),
                ("expected 0", 200, 5, (0, 5)), ("expected 0, found p - 1", 249, P - 1, (0, P - 1)),
                ("the last cell", 255, 1, (P - 1, 1)), ("the last cell, found 0", 255, 0, (P - 1, 0)),
                ("no such cell", 256, P - 1, (0, 0)), ("no such cell, found 0", 256, 0, (0, 0)),
                ("no cell p - 1", P - 1, 5, (0, 0)))):
            given = changed(parts, (part, row, address, at), (part, row, value, word))
            t.judge(f"{rule}: {name}", six(part + 2, part, row, rule, *told), given, start)


def refusals_of_five(t, parts, start, cells):
    """A function for refused cases with five values from a cell on. With vA goes vA base, since rule 18 comes first."""
    def refused(name, row, rule, at, values, told=(0, 0)):
        address, first, _ = FIVE[rule]
        base = [(EXT, row, V_A_BASE, cells[at])] * (first == V_A)
        given = changed(parts, (EXT, row, address, at), *[(EXT, row, first + k, word) for k, word in enumerate(values)], *base)
        t.judge(f"{rule}: {name}, from cell {at}", six(6, 4, row, rule, *told), given, start)

    return refused


def five_cells(t, parts, start, cells):
    """The first that differs; those behind it differ by other words."""
    refused = refusals_of_five(t, parts, start, cells)
    for rule, at, off in itertools.product(FIVE, (7, 251), SETS):
        there = cells[at:at + 5]
        values = [(word + k + 1) % P if k in off else word for k, word in enumerate(there)]
        refused(f"{off} off", 9, rule, at, values, told=(there[off[0]], values[off[0]]))
    for rule in FIVE:
        refused("expected 0", 255, rule, 200, (0, 0, 5, 0, 6), told=(0, 5))
        refused("found 0", 255, rule, 7, cells[7:10] + (0, 0), told=(cells[10], 0))


def across_the_end(t, parts, start, cells):
    """A cell is missing: nothing is told, whichever cell before it differs. A missing one might be read as 0."""
    refused = refusals_of_five(t, parts, start, cells)
    for rule, at in itertools.product(FIVE, range(252, 256)):
        there = (cells[at:] + (0,) * 4)[:5]
        for k in range(256 - at):
            values = [(word + 1) % P if i == k else word for i, word in enumerate(there)]
            refused(f"{k} off and a cell missing", ROWS[k % 2], rule, at, values)


def several_lookups(t, parts, start, cells):
    """The words are those of the lookup that is named, and of no other."""
    def judged(name, answer, *changes):
        t.judge(name, answer, changed(parts, *changes), start)

    judged("no cell for 2, and 3 differs", six(5, 3, 9, 2), (EXEC, 9, ADDR_A, 256), (EXEC, 9, VALUE_B, 8))
    judged("2 and 3 differ", six(5, 3, 9, 2, cells[0], 7), (EXEC, 9, VALUE_A, 7), (EXEC, 9, VALUE_B, 8))
    judged("18 and 19 differ", six(6, 4, 9, 18, cells[0], 7), (EXT, 9, V_A_BASE, 7), (EXT, 9, V_A, 8))
    judged("a cell missing for 19, and 20 differs", six(6, 4, 9, 19), (EXT, 9, IDX_A, 253), (EXT, 9, V_A_BASE, cells[253]),
           (EXT, 9, V_B, 8))
    judged("a cell missing for 20, and 21 differs", six(6, 4, 9, 20), (EXT, 9, IDX_B, 253), (EXT, 9, RES, 8))
    judged("20 and 21 differ", six(6, 4, 9, 20, cells[4], 7), (EXT, 9, V_B + 4, 7), (EXT, 9, RES, 8))
    judged("21 differs, and 18 on the next row", six(6, 4, 9, 21, cells[0], 8), (EXT, 9, RES, 8), (EXT, 10, V_A_BASE, 7))


def cases(t, parts, start):
    parts = changed(parts, (MEMORY, 255, 0, P - 1))
    cells = words_of(parts[1])
    for group in (one_cell, five_cells, across_the_end, several_lookups):
        group(t, parts, start, cells)
