"""The judge of the second implementation; tests/oracle.py says what it is written from. Rules are polynomials here, as
printed; lookups and the bus are checked directly."""

from collections import Counter

from oracle_words import (
    P, element_difference, element_peq, element_product, element_sum, embed, rows_of, scale, six, words_of)

def well_formed(instruction):
    """Whether an instruction is well-formed (01, Well-formed instructions)."""
    fa, fb, fc, fpc, fpab, mul, jump, aux, data = instruction[3:]
    if max(fa, fb, fc, fpc, fpab) > 1 or fa + fpab > 1 or fb + fpab > 1 or fc + fpc > 1:
        return False
    kind = (mul, jump, aux)
    if kind == (0, 0, 0):
        return data % 2 == 0 and data % 32 // 4 in (1, 2, 4) and 1 <= data // 32 <= 2**20
    known = (kind in ((0, 0, 1), (1, 0, 0)) or (kind == (0, 0, 2) and (fa, fb) == (0, 1))
             or (kind == (0, 1, 0) and fc == 0))
    return known and fpab == 0 and data == 0

def refusal(lengths, parts):
    """SIZE by all four lengths, WORD and INSTRUCTION by the words of parts given, or None (01, Layouts, Verdicts)."""
    fits = (lengths[0] % 48 == 0 and 1 <= lengths[0] // 48 <= 2**20,
            lengths[1] in [4 << m for m in range(8, 30)],
            lengths[2] in [32 << k for k in range(8, 26)],
            lengths[3] in [120 << k for k in range(8, 21)])
    if not all(fits):
        return six(1, fits.index(False) + 1)
    for number, part in enumerate(parts, 1):
        words = words_of(part)
        if max(words) >= P:
            return six(2, number, next(i for i, w in enumerate(words) if w >= P))
    for i, instruction in enumerate(rows_of(words_of(parts[0]), 12)):
        if not well_formed(instruction):
            return six(3, 1, i)
    return None

def selected(instruction, row):
    """The three selected values (0.6.0, 3.3.3)."""
    oa, ob, oc, fa, fb, fc, fpc, fpab = instruction[:8]
    fp, va, vb, vc = row[1], row[5], row[6], row[7]
    return ((fa * oa + (1 - fa - fpab) * va + fpab * (fp + oa)) % P,
            (fb * ob + (1 - fb - fpab) * vb + fpab * (fp + ob)) % P,
            (fc * oc + (1 - fc - fpc) * vc + fpc * (fp + oc)) % P)

# rule to the columns of its address and of its first value, and how many cells it looks up (01, Layouts and the rules)
EXEC_LOOKUPS = {2: (2, 5, 1), 3: (3, 6, 1), 4: (4, 7, 1)}
EXT_LOOKUPS = {18: (5, 9, 1), 19: (5, 10, 5), 20: (6, 15, 5), 21: (7, 25, 5)}

def looked_up(cells, row, columns):
    """None where the cells are there and hold the values; else the first that differs, as (cell's word, value), or
    (0, 0) where a cell is missing (0.6.0, 3.5.3; 02, M-104; points 7 and 17)."""
    address, first, count = columns
    index, values = row[address], row[first:first + count]
    if index + count > len(cells):
        return 0, 0
    return next((pair for pair in zip(cells[index:index + count], values) if pair[0] != pair[1]), None)

def exec_rules(code, cells, row, after):
    """(rule, polynomial) of an execution row; a rule holds at 0 modulo P (01, Execution rules; 0.6.0, 3.3.3)."""
    pc, fp, aa, ab, ac, va, vb, _ = row
    next_pc, next_fp = after[:2]
    yield 1, not pc < len(code)
    for rule, columns in EXEC_LOOKUPS.items():
        yield rule, looked_up(cells, row, columns) is not None
    oa, ob, oc, fa, fb, fc, fpc, fpab, mul, jump, aux, _ = code[pc]
    na, nb, nc = selected(code[pc], row)
    yield 5, (1 - fa - fpab) * (aa - (fp + oa))
    yield 6, (1 - fb - fpab) * (ab - (fp + ob))
    yield 7, (1 - fc - fpc) * (ac - (fp + oc))
    add, deref = aux * (2 - aux), aux * (aux - 1) // 2
    yield 8, add * (nb - (na + nc))
    yield 9, mul * (nb - na * nc)
    yield 10, deref * (ab - (va + ob))
    yield 11, deref * (vb - nc)
    j = jump * na
    yield 12, j * (1 - na)
    yield 13, j * (next_pc - nb)
    yield 14, j * (next_fp - nc)
    yield 15, (1 - j) * (next_pc - (pc + 1))
    yield 16, (1 - j) * (next_fp - fp)

def ext_rules(cells, row, after):
    """(rule, coordinates) of an extension row in order (01, Extension rules; 0.6.0, 3.5.3 and 3.5.5)."""
    start, add, mul, peq, length, ia, ib, _, be, base = row[:10]
    va, vb, comp, res = row[10:15], row[15:20], row[20:25], row[25:30]
    n_start, n_add, n_mul, n_peq, n_length, n_ia, n_ib, _, n_be, _ = after[:10]
    for rule, columns in EXT_LOOKUPS.items():
        yield rule, (looked_up(cells, row, columns) is not None,)
    for rule, flag in ((1, be), (2, start), (3, add), (4, mul), (5, peq)):
        yield rule, (flag * (1 - flag),)
    a = element_sum(embed(be * base), scale(1 - be, va))
    tail = scale(1 - n_start, after[20:25])
    if add:  # rules 6 to 8 are products with a flag, 0 where it is
        yield 6, scale(add, element_difference(element_difference(comp, element_sum(a, vb)), tail))
    if mul:
        yield 7, scale(mul, element_difference(element_difference(comp, element_product(a, vb)), tail))
    if peq:
        factor = element_sum(tail, embed(n_start))
        yield 8, scale(peq, element_difference(comp, element_product(element_peq(a, vb), factor)))
    yield 9, scale(start, element_difference(comp, res))
    for rule, value in ((10, length - n_length - 1), (11, be - n_be), (12, add - n_add), (13, mul - n_mul),
                        (14, peq - n_peq), (15, n_ia - ia - (be + (1 - be) * 5)), (16, n_ib - ib - 5)):
        yield rule, ((1 - n_start) * value,)
    yield 17, (n_start * (length - 1),)

def judge_rows(code, cells, steps, groups):
    """EXEC or EXTENSION by the first rule that fails, or None; the last row is its own next (01, Execution rules)."""
    for place, row in enumerate(steps):
        for rule, value in exec_rules(code, cells, row, steps[min(place + 1, len(steps) - 1)]):
            if value % P:
                return six(5, 3, place, rule, *said(cells, row, EXEC_LOOKUPS, rule))
    for place, row in enumerate(groups):
        for rule, value in ext_rules(cells, row, groups[min(place + 1, len(groups) - 1)]):
            if any(c % P for c in value):
                return six(6, 4, place, rule, *said(cells, row, EXT_LOOKUPS, rule))
    return None

def said(cells, row, lookups, rule):
    """(expected, found) for a rule that fails (02, M-104)."""
    return looked_up(cells, row, lookups[rule]) if rule in lookups else (0, 0)

def judge_bus(code, steps, groups):
    """BUS by the first unequal tuple, or None (01, The bus)."""
    pushes = [(place, (code[row[0]][11],) + selected(code[row[0]], row))
              for place, row in enumerate(steps) if code[row[0]][8:11] == (0, 0, 0)]
    pulls = []
    for place, (start, add, mul, peq, length, ia, ib, ir, be, *_) in enumerate(groups):
        aux = (2 * be + 4 * add + 8 * mul + 16 * peq + 32 * length) % P
        pulls += [(place, (aux, ia, ib, ir))] * (start * (add + mul + peq))
    pushed, pulled = Counter(t for _, t in pushes), Counter(t for _, t in pulls)
    for part, side in ((3, pushes), (4, pulls)):
        for place, item in side:
            if pushed[item] != pulled[item]:
                return six(7, part, place)
    return None

def judge(program, memory, pc, fp, exec_table, ext_table):
    """The answer to two tables, verdicts 0 to 7 in number order (01, Verdicts and The bus; 02, M-104)."""
    parts = (program, memory, exec_table, ext_table)
    refused = refusal([len(part) for part in parts], parts)
    if refused:
        return refused
    code, cells = rows_of(words_of(program), 12), words_of(memory)
    steps, groups = rows_of(words_of(exec_table), 8), rows_of(words_of(ext_table), 30)
    if steps[0][:2] != (pc, fp):
        return six(4)
    return judge_rows(code, cells, steps, groups) or judge_bus(code, steps, groups) or six(0)
