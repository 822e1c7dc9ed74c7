"""The judge's cases for each rule: execution rules 1 to 16, extension rules 18 to 21 and 1 to 17. A name's number is the rule's."""
import itertools

import oracle
from oracle import P, bytes_of, inst, six, words_of
from trials_parts import (
    A, ADDR_A, ADDR_B, ADDR_C, ADDS, B, BE, C, COMP, EXEC, EXT, FP, IDX_A, IDX_B, IDX_R, LEN, MULS, PC, PEQS, PROGRAM, RES, START, V_A,
    V_A_BASE, V_B, VALUE_A, VALUE_B, VALUE_C, ZEROS, changed, code_of, moved, off_by_one, word_at)


def execution_rules(t, parts, start):
    def refused(name, row, rule, *changes, start=start, told=(0, 0)):
        t.judge(name, six(5, 3, row, rule, *told), changed(parts, *changes), start)

    def by_one(part, row, column, by=1):
        return moved(parts, part, row, column, by)

    end, cells = len(parts[0]) // 48, words_of(parts[1])
    refused("1: the first pc is past the program", 0, 1, (EXEC, 0, PC, end), start=(end, 40))
    refused("1: a jump past the program", 5, 1, (PROGRAM, 4, B, end), (EXEC, 5, PC, end))
    for rule, address, value, unused in ((2, ADDR_A, VALUE_A, 2), (3, ADDR_B, VALUE_B, 2), (4, ADDR_C, VALUE_C, 1)):
        for what, row in (("a read", 0), ("an unused operand", unused)):
            refused(f"{rule}: value of {what}", row, rule, by_one(EXEC, row, value), told=off_by_one(parts, EXEC, row, value))
        refused(f"{rule}: another cell, with cell 0's value", 255, rule, (EXEC, 255, address, 255), told=(cells[255], cells[0]))
        for far in (256, 2**30, P - 1):  # 0 is what bytes past the end might be read as
            refused(f"{rule}: address {far} of a read", 0, rule, (EXEC, 0, address, far))
            refused(f"{rule}: unused address {far}, value 0", 255, rule, (EXEC, 255, address, far), (EXEC, 255, value, 0))
    refused("5: another cell with the same value", 0, 5, (EXEC, 0, ADDR_A, 250))
    refused("6: another cell with the same value", 0, 6, (EXEC, 0, ADDR_B, 251))
    refused("7: another cell with the same value", 0, 7, (EXEC, 0, ADDR_C, 252))
    refused("8: false ADD", 1, 8, by_one(PROGRAM, 1, B))
    refused("9: false MUL", 2, 9, by_one(PROGRAM, 2, B))
    refused("10: another cell with the same value", 3, 10, (EXEC, 3, ADDR_B, 253))
    refused("11: false DEREF", 3, 11, by_one(PROGRAM, 3, C))
    refused("12: condition 2", 4, 12, (PROGRAM, 4, A, 2))
    refused("12: condition p - 1", 4, 12, (PROGRAM, 4, A, P - 1))
    refused("13: the jump goes elsewhere", 4, 13, (PROGRAM, 4, B, 5))
    refused("13: the next pc is another", 4, 13, (EXEC, 5, PC, 5))
    refused("14: the next frame is another", 4, 14, by_one(EXEC, 5, FP))
    refused("15: after an untaken jump", 5, 15, by_one(EXEC, 6, PC))
    refused("16: after an untaken jump", 5, 16, by_one(EXEC, 6, FP))
    refused("15: after an ADD", 0, 15, by_one(EXEC, 1, PC))
    refused("16: after an ADD", 0, 16, by_one(EXEC, 1, FP))


def last_row_rules(t):
    """The last row is its own next. Rule 16 cannot be the first to fail there: with J 0 rule 15 fails, since pc is not pc + 1."""
    padding = b"".join([bytes_of((1, 0, 0, 0, 1) + (0,) * 25)] * 256)
    nothing, forth = inst(aux=1), inst(1, 0, fc=0, fpc=1, jump=1)
    for name, program, states, answer in (
            ("13: back and forth", (nothing, forth), [(r % 2, 0) for r in range(256)], six(5, 3, 255, 13)),
            ("14: a frame further", (inst(1, 0, 1, fc=0, fpc=1, jump=1),), [(0, r) for r in range(256)], six(5, 3, 255, 14)),
            ("15: an ADD", (nothing,) * 256, [(r, 0) for r in range(256)], six(5, 3, 255, 15))):
        steps = bytes_of([word for pc, fp in states for word in (pc, fp) + (0,) * 6])
        program = bytes_of([word for i in program for word in i])
        t.judge(f"the last row, {name}", answer, (program, bytes_of(ZEROS), steps, padding), (0, 0))


def element(row, column, words):
    """The changes that put words into an element of an extension row."""
    return [(EXT, row, column + k, word) for k, word in enumerate(words)]


def extension_refusals(t, parts, start):
    """Two functions that the extension rules' cases share: a refused case, and the change that adds to a word of a row."""
    def refused(name, row, rule, *changes, told=(0, 0)):
        t.judge(name, six(6, 4, row, rule, *told), changed(parts, *changes), start)

    def by_one(row, column, by=1):
        return moved(parts, EXT, row, column, by)

    return refused, by_one


def extension_lookups(t, parts, start):
    refused, by_one = extension_refusals(t, parts, start)
    cells = words_of(parts[1])
    for row, what in ((1, "in a group"), (9, "on padding"), (255, "on the last row")):
        refused(f"18: vA base {what}", row, 18, by_one(row, V_A_BASE), told=off_by_one(parts, EXT, row, V_A_BASE))
    for k in range(5):
        for rule, row, name, first in ((19, 3, "vA", V_A), (20, 6, "vB", V_B), (21, 8, "res", RES)):
            refused(f"{rule}: {name} {k}", row, rule, by_one(row, first + k), told=off_by_one(parts, EXT, row, first + k))
    for first in (252, 255, 256, 2**30, P - 1):  # five cells run across the end; 0 is what bytes past it might be read as
        there = (cells[first:] + (0,) * 5)[:5]
        refused(f"vA from cell {first}", 9, 19 if first < 256 else 18, (EXT, 9, IDX_A, first), *element(9, V_A_BASE, there[:1] + there))
        refused(f"20: vB from cell {first}", 9, 20, (EXT, 9, IDX_B, first), *element(9, V_B, there))
        refused(f"21: res from cell {first}", 255, 21, (EXT, 255, IDX_R, first), *element(255, RES, there), *element(255, COMP, there))


def extension_flags(t, parts, start):
    refused, _ = extension_refusals(t, parts, start)
    for rule, column, row in ((1, BE, 9), (2, START, 0), (3, ADDS, 0), (4, MULS, 2), (5, PEQS, 5), (1, BE, 255), (5, PEQS, 255)):
        refused(f"{rule}: 2", row, rule, (EXT, row, column, 2))
        refused(f"{rule}: p - 1", row, rule, (EXT, row, column, P - 1))


def extension_results(t, parts, start):
    refused, by_one = extension_refusals(t, parts, start)
    cells = words_of(parts[1])
    for rule, row in ((6, 0), (7, 2), (8, 5)):
        for k in range(5):
            refused(f"{rule}: comp {k}", row, rule, by_one(row, COMP + k))
        refused(f"{rule}: comp of the next row", row, rule, by_one(row + 1, COMP))
        refused(f"9 in a group of rule {rule}: another result", row, 9, (EXT, row, IDX_R, 0), *element(row, RES, cells[:5]))
    for k in range(5):
        refused(f"9: padding with another comp {k}", 9, 9, by_one(9, COMP + k))
    refused("9: padding with comp 0, as the listing has it", 12, 9, *element(12, COMP, (0,) * 5))
    refused("9: comp 0 on the last row", 255, 9, *element(255, COMP, (0,) * 5))


def extension_neighbours(t, parts, start):
    refused, by_one = extension_refusals(t, parts, start)
    refused("10: a first row too long", 0, 10, by_one(0, LEN))
    refused("10: a length repeated", 2, 10, by_one(3, LEN))
    refused("11: be begins", 0, 11, (EXT, 1, BE, 1))
    refused("11: be ends", 2, 11, (EXT, 3, BE, 0))
    refused("12: add ends", 0, 12, (EXT, 1, ADDS, 0))
    refused("12: add begins", 2, 12, (EXT, 3, ADDS, 1))
    refused("13: mul begins", 0, 13, (EXT, 1, MULS, 1))
    refused("13: mul ends", 2, 13, (EXT, 3, MULS, 0))
    refused("14: peq begins", 0, 14, (EXT, 1, PEQS, 1))
    refused("14: peq ends", 5, 14, (EXT, 6, PEQS, 0))
    refused("15: idxA by 1 without be", 0, 15, by_one(1, IDX_A, -4))
    refused("15: idxA by 5 with be", 2, 15, by_one(3, IDX_A, 4))
    refused("16: idxB by 6", 0, 16, by_one(1, IDX_B))
    refused("16: idxB by 1 with be", 2, 16, by_one(3, IDX_B, -4))
    refused("17: a group of 1 too long", 7, 17, by_one(7, LEN))
    refused("17: padding too long", 100, 17, by_one(100, LEN))
    refused("17: padding of length 0", 100, 17, by_one(100, LEN, -1))
    refused("17: the last row too long", 255, 17, by_one(255, LEN))


def execution_pairs(t, parts, start):
    """Two rules fail on one row: the lower number is named. The faults of each row are in the rules' order."""
    def by_one(part, row, column):
        return moved(parts, part, row, column)

    values = {2: VALUE_A, 3: VALUE_B, 4: VALUE_C}
    for row, more in (
            (0, {5: (EXEC, 0, ADDR_A, 250), 6: (EXEC, 0, ADDR_B, 251), 7: (EXEC, 0, ADDR_C, 252)}),
            (1, {8: by_one(PROGRAM, 1, B)}),
            (2, {9: by_one(PROGRAM, 2, B)}),
            (3, {10: (EXEC, 3, ADDR_B, 253), 11: by_one(PROGRAM, 3, C)}),
            (4, {12: (PROGRAM, 4, A, 2), 13: (PROGRAM, 4, B, 5), 14: by_one(EXEC, 5, FP)})):
        faults = {**{rule: by_one(EXEC, row, column) for rule, column in values.items()}, **more}
        if row != 4:
            faults.update({15: by_one(EXEC, row + 1, PC), 16: by_one(EXEC, row + 1, FP)})
        for first, second in itertools.combinations(faults, 2):
            told = off_by_one(parts, EXEC, row, values[first]) if first in values else (0, 0)
            t.judge(f"{first} and {second} on row {row}", six(5, 3, row, first, *told), changed(parts, faults[first], faults[second]),
                    start)


def extension_pairs(t, parts, start):
    """The same, in the order 18 to 21, 1 to 17."""
    _, by_one = extension_refusals(t, parts, start)
    values = {18: V_A_BASE, 19: V_A, 20: V_B, 21: RES}
    padding = {**{rule: by_one(9, column) for rule, column in values.items()},
               1: (EXT, 9, BE, 2), 3: (EXT, 9, ADDS, 2), 4: (EXT, 9, MULS, 2), 5: (EXT, 9, PEQS, 2), 9: by_one(9, COMP),
               17: by_one(9, LEN)}
    group = {2: (EXT, 0, START, 2), 6: by_one(0, COMP), 10: by_one(0, LEN), 11: (EXT, 1, BE, 1), 12: (EXT, 1, ADDS, 0),
             13: (EXT, 1, MULS, 1), 14: (EXT, 1, PEQS, 1), 15: by_one(1, IDX_A), 16: by_one(1, IDX_B)}
    single = {6: (EXT, 7, ADDS, 1), 7: by_one(7, COMP), 8: (EXT, 7, PEQS, 1), 17: by_one(7, LEN)}
    for row, faults in ((9, padding), (0, group), (7, single)):
        for first, second in itertools.combinations(faults, 2):
            told = off_by_one(parts, EXT, row, values[first]) if first in values else (0, 0)
            t.judge(f"{first} and {second} on row {row}", six(6, 4, row, first, *told), changed(parts, faults[first], faults[second]),
                    start)


def starts_of_two(t, parts, start):
    """The next row's start is neither 0 nor 1: the polynomials decide, before that row's own rule 2."""
    program, memory = code_of(), bytes_of(ZEROS)
    plain = (program, memory) + oracle.table(program, memory, 0, 0, 32 * 256, 120 * 256)[1:]
    t.judge("start 2 on padding, next to padding", six(6, 4, 8, 10), changed(plain, (EXT, 9, START, 2)), (0, 0))
    t.judge("start 2 on padding of length 0: rule 2 itself", six(6, 4, 9, 2),
            changed(plain, (EXT, 9, START, 2), (EXT, 9, LEN, 0), (EXT, 9, IDX_A, 5), (EXT, 9, IDX_B, 5)), (0, 0))
    t.judge("start 2 on the last row", six(6, 4, 254, 10), changed(plain, (EXT, 255, START, 2)), (0, 0))
    for row, rule in ((1, 6), (3, 7), (6, 8)):
        t.judge(f"start 2 within a group: rule {rule}", six(6, 4, row - 1, rule), changed(parts, (EXT, row, START, 2)), start)
    comp = [(EXT, 1, COMP + k, -word_at(parts, EXT, 1, COMP + k) % P) for k in range(5)]
    t.judge("start 2 and comp negated: rule 6 holds", six(6, 4, 0, 17), changed(parts, (EXT, 1, START, 2), *comp), start)
    t.judge("the last row has start 0", six(6, 4, 255, 10),
            changed(plain, (EXT, 254, LEN, 2), (EXT, 255, START, 0), (EXT, 255, IDX_A, 5), (EXT, 255, IDX_B, 5)), (0, 0))


def cases(t, parts, start):
    for group in (execution_rules, extension_lookups, extension_flags, extension_results, extension_neighbours, execution_pairs,
                  extension_pairs, starts_of_two):
        group(t, parts, start)
    last_row_rules(t)
