"""The judge's cases on well-formed input: what the rules let pass, the bus, several faults at once, and single words changed."""
import oracle
import trials_lookups
import trials_rules
from oracle import ADD, MUL, P, PEQ, bytes_of, inst, rows_of, six, words_of
from trials_parts import (
    A, ACCEPTED, ADDR_A, ADDR_B, ADDR_C, AUX, B, BE, C, COMP, DATA, EXEC, EXEC_LOOKUPS, EXT, EXT_LOOKUPS, FP, IDX_A, IDX_B, IDX_R, IMM, LEN,
    MEMORY, PC, PEQS, PROGRAM, RES, START, V_A, V_A_BASE, V_B, VALUE_A, VALUE_B, VALUE_C, ZEROS, Run, changed, code_of, each_kind, each_mode,
    moved, off_by_one, with_groups)

BUS_STEP, BUS_GROUP = 3, 4  # the parts that BUS names
HALF = (P + 1) // 2


def group_row(start, flags, length, a, b, r, be, cells, comp):
    """A row of the extension table, what it looks up taken from the cells."""
    return bytes_of((start, *flags, length, a, b, r, be, cells[a], *cells[a:a + 5], *cells[b:b + 5], *comp, *cells[r:r + 5]))


def buses(t, parts, start):
    rows, cells = rows_of(parts[3], 120), words_of(parts[1])
    adds, muls, peqs, once, pad = rows[0:2], rows[2:5], rows[5:7], rows[7:8], rows[9:]
    sums = [group_row(1, (1, 0, 0), 1, 200, 200, 205, 0, cells, (0,) * 5)]

    def judged(name, answer, *groups):
        t.judge(name, answer, with_groups(parts, [row for group in groups for row in group] + pad + pad[:32]), start)

    judged("no pull at all", six(7, BUS_STEP, 6))
    judged("the first group missing", six(7, BUS_STEP, 6), muls, peqs, once, once)
    judged("the second group missing", six(7, BUS_STEP, 7), adds, peqs, once, once)
    judged("two pushes, one pull", six(7, BUS_STEP, 9), adds, muls, peqs, once)
    judged("two pushes, three pulls", six(7, BUS_STEP, 9), adds, muls, peqs, once, once, once)
    judged("one push, two pulls", six(7, BUS_STEP, 7), adds, muls, muls, peqs, once, once)
    judged("a pull that nothing pushes", six(7, BUS_GROUP, 9), adds, muls, peqs, once, once, sums)
    judged("the same in front", six(7, BUS_GROUP), sums, adds, muls, peqs, once, once)
    judged("one missing and one too many", six(7, BUS_STEP, 8), sums, adds, muls, once, once)
    judged("another order, one missing", six(7, BUS_STEP, 7), once, peqs, adds, once)
    judged("another order", ACCEPTED, once, peqs, adds, once, muls)
    judged("another order, with padding between", ACCEPTED, pad[:3], muls, pad[:1], peqs, once, pad[:2], once, adds)
    judged("a pull that nothing pushes on the last row", six(7, BUS_GROUP, 255), rows[:9], pad[:246], sums)
    for name, column in (("A", A), ("B", B), ("C", C)):
        t.judge(f"the push names another {name}", six(7, BUS_STEP, 6), changed(parts, moved(parts, PROGRAM, 7, column)), start)
    for op, be, n in ((MUL, 0, 2), (PEQ, 0, 2), (ADD, 1, 2), (ADD, 0, 3), (ADD, 0, 2**20)):
        data = oracle.data_word(op, be, n)
        t.judge(f"the push has DATA {data}", six(7, BUS_STEP, 6), changed(parts, (PROGRAM, 7, DATA, data)), start)


def late_push(t):
    """The last row is a jump, so row 254 is the last that can push."""
    program, memory = code_of(*[inst(aux=1)] * 254, inst(data=oracle.data_word(ADD, 0, 1))), bytes_of(ZEROS)
    _, steps, groups = oracle.table(program, memory, 0, 0, 32 * 256, 120 * 256)
    parts, rows = (program, memory, steps, groups), rows_of(groups, 120)
    t.judge("a push on row 254", ACCEPTED, parts, (0, 0))
    t.judge("a push on row 254, no pull", six(7, BUS_STEP, 254), with_groups(parts, rows[1:] + rows[1:2]), (0, 0))


def several_flags(t):
    """A start row with two operation flags pulls twice, and no push matches it; a tail with them pulls nothing. Three flags on a start
    row cannot pass: its group's last row would have s = a + b = a·b, and then a·b + (1-a)(1-b) = s + 1."""
    run = Run(256, 0, 3)
    run.store([0] * 5)
    half, one, some = run.store([HALF, 0, 0, 0, 0]), run.store([1, 0, 0, 0, 0]), run.store(run.draws(5))
    run.extension(ADD, 0, 1, IMM, IMM, IMM)
    parts, start = run.parts(), run.first
    rows, cells = rows_of(parts[3], 120), tuple(run.cells)
    for name, flags, a, b in (("add and mul", (1, 1, 0), 100, 100), ("add and peq", (1, 0, 1), 100, half),
                              ("mul and peq", (0, 1, 1), one, some)):
        comp = cells[b:b + 5]
        head, tail = (group_row(s, flags, 1, a, b, b, 0, cells, comp) for s in (1, 0))
        t.judge(f"{name} on a start row", six(7, BUS_GROUP, 1), with_groups(parts, [rows[0], head] + rows[2:]), start)
        t.judge(f"{name} on a start row in front", six(7, BUS_GROUP), with_groups(parts, [head] + rows), start)
        t.judge(f"{name} on a tail at the top", ACCEPTED, with_groups(parts, [tail] + rows), start)
    three = group_row(1, (1, 1, 1), 1, 100, 100, 100, 0, cells, (0,) * 5)
    t.judge("all three", six(6, 4, 0, 8), with_groups(parts, [three] + rows), start)


def let_pass(t, parts, start):
    rows, cells = rows_of(parts[3], 120), words_of(parts[1])

    def accepted(name, *changes):
        t.judge(name, ACCEPTED, changed(parts, *changes), start)

    def cells_at(row, column, first):
        return [(EXT, row, column + k, cells[first + k]) for k in range(5)]

    accepted("as the tabler leaves it")
    accepted("idxR is another after a group's first row", (EXT, 1, IDX_R, 17), *cells_at(1, RES, 17),
             (EXT, 4, IDX_R, 251), *cells_at(4, RES, 251))
    accepted("be is free on padding", (EXT, 9, BE, 1), (EXT, 200, BE, 1), (EXT, 255, BE, 1))
    accepted("padding of other cells", (EXT, 20, IDX_A, 251), (EXT, 20, V_A_BASE, cells[251]), *cells_at(20, V_A, 251),
             (EXT, 20, IDX_B, 33), *cells_at(20, V_B, 33), (EXT, 20, IDX_R, 2), *cells_at(20, RES, 2), *cells_at(20, COMP, 2))
    accepted("unused addresses name other cells, with their values", (EXEC, 2, ADDR_A, 255), (EXEC, 2, VALUE_A, cells[255]),
             (EXEC, 2, ADDR_B, 3), (EXEC, 2, VALUE_B, cells[3]), (EXEC, 255, ADDR_C, 4), (EXEC, 255, VALUE_C, cells[4]))
    accepted("a group of padding, two rows long, its second comp anything", (EXT, 30, LEN, 2), (EXT, 31, START, 0), (EXT, 31, IDX_A, 5),
             (EXT, 31, V_A_BASE, cells[5]), *cells_at(31, V_A, 5), (EXT, 31, IDX_B, 5), *cells_at(31, V_B, 5), *cells_at(31, COMP, 9))
    t.judge("a tail without its first row at the top", ACCEPTED, with_groups(parts, rows[1:2] + rows), start)
    t.judge("two rows of a tail at the top", ACCEPTED, with_groups(parts, rows[3:5] + rows), start)
    t.judge("a group of 1 on the last row", ACCEPTED, with_groups(parts, rows[:8] + rows[9:] + rows[8:9]), start)
    t.judge("all groups at the end, one row long last", ACCEPTED, with_groups(parts, rows[9:] + rows[:9]), start)
    for first, last, rule in ((0, 2, 6), (2, 5, 7), (5, 7, 8)):
        late = rows[:first] + rows[last:] + rows[first:last]
        t.judge(f"a group that ends on the last row: rule {rule}", six(6, 4, 255, rule), with_groups(parts, late), start)
    program, memory = code_of(inst(data=oracle.data_word(ADD, 0, 2))), bytes_of(ZEROS)
    _, steps, groups = oracle.table(program, memory, 0, 0, 32 * 256, 120 * 256)
    t.judge("the same on memory of zeros: rule 10", six(6, 4, 255, 10), (program, memory, steps, groups[240:] + groups[:240]), (0, 0))


def several_faults(t, parts, start):
    """Stages in number order, then rows, then rules."""
    def judged(name, answer, *changes, start=start):
        t.judge(name, answer, changed(parts, *changes), start)

    def by_one(part, row, column):
        return moved(parts, part, row, column)

    def told(part, row, column, rule):
        return six(part + 2, part, row, rule, *off_by_one(parts, part, row, column))

    judged("words in parts 4 and 2", six(2, 2, 255), (EXT, 0, 0, P), (MEMORY, 255, 0, P))
    judged("two words in part 3", six(2, 3, 70), (EXEC, 9, 0, P), (EXEC, 8, 6, P))
    judged("word in part 4, malformed instruction", six(2, 4, 7679), (EXT, 255, 29, 2**32 - 1), (PROGRAM, 0, DATA, 1))
    judged("malformed instructions 8 and 3, another start", six(3, 1, 3), (PROGRAM, 8, AUX, 3), (PROGRAM, 3, AUX, 3), start=(1, 40))
    judged("another start and rule 2", six(4), by_one(EXEC, 0, VALUE_A), start=(0, 41))
    judged("rule 4 on row 200, extension rule 18 on row 0", told(EXEC, 200, VALUE_C, 4), by_one(EXEC, 200, VALUE_C),
           by_one(EXT, 0, V_A_BASE))
    judged("rule 2 on row 9, rule 4 on row 3", told(EXEC, 3, VALUE_C, 4), by_one(EXEC, 9, VALUE_A), by_one(EXEC, 3, VALUE_C))
    judged("rules 3 and 15 on row 2", told(EXEC, 2, VALUE_B, 3), by_one(EXEC, 2, VALUE_B), by_one(EXEC, 3, PC))
    judged("rules 15 and 16 on row 2", six(5, 3, 2, 15), by_one(EXEC, 3, FP), by_one(EXEC, 3, PC))
    judged("extension rules 18 on row 8, 16 on row 2", six(6, 4, 2, 16), by_one(EXT, 8, V_A_BASE), by_one(EXT, 3, IDX_B))
    judged("extension rules 21 and 1 on row 9", told(EXT, 9, RES, 21), by_one(EXT, 9, RES), (EXT, 9, BE, 2))
    judged("extension rules 1 and 5 on row 9", six(6, 4, 9, 1), (EXT, 9, PEQS, 2), (EXT, 9, BE, 2))
    judged("extension rule 17 on row 99, a push without a pull", six(6, 4, 99, 17), by_one(EXT, 99, LEN), by_one(PROGRAM, 7, A))


def told_of(parts, part, lookups, row, column):
    """The answer where one is added to a value that is looked up; None for another column."""
    for rule, (_, first, count) in lookups.items():
        if first <= column < first + count:
            return six(part + 2, part, row, rule, *off_by_one(parts, part, row, column))
    return None


def each_word(t, parts, start):
    """One is added to each word of some rows. Only be on padding is free."""
    for row in [*range(12), 255]:
        for column in range(8):
            wanted, given = told_of(parts, EXEC, EXEC_LOOKUPS, row, column), changed(parts, moved(parts, EXEC, row, column))
            assert t.judge(f"execution row {row}, column {column}", wanted, given, start)[0] in (4, 5)
    for row in [*range(10), 255]:
        for column in range(30):
            wanted, given = told_of(parts, EXT, EXT_LOOKUPS, row, column), changed(parts, moved(parts, EXT, row, column))
            answer = t.judge(f"extension row {row}, column {column}", wanted, given, start)
            assert answer[0] == (0 if row in (9, 255) and column == BE else 6)


def each_mode_damaged(t):
    """One is added to each word of a program with each kind in each mode; the tables are the sound program's."""
    parts, start = each_mode()
    t.judge("each kind in each mode", ACCEPTED, parts, start)
    for place in range(0, len(parts[0]) // 4, 7):
        row, column = divmod(place, 12)
        answer = t.judge(f"program, instruction {row}, word {column}", None, changed(parts, moved(parts, PROGRAM, row, column)), start)
        assert answer[0] in (0, 3, 5, 7)  # 0 for what is not used, as an untaken jump's destination


def cases(t):
    parts, start = each_kind()
    let_pass(t, parts, start)
    trials_rules.cases(t, parts, start)
    trials_lookups.cases(t, parts, start)
    late_push(t)
    buses(t, parts, start)
    several_faults(t, parts, start)
    each_word(t, parts, start)
    several_flags(t)
    each_mode_damaged(t)
