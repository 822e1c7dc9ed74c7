"""The words that a failed lookup tells: checks of the oracle's expected and found by hand.

Sources: document 02's M-104 ("02, M-104"), document 01 ("01, <heading>") and the founders' decided points 7 and 17.
tests/oracle.py, run as a program, runs the checks below too.
"""

from itertools import product

from oracle import ADD, P, ext, inst, judge, make, poke, run, six, table, words_of
from oracle_forms import FRESH, count

ROW = 9  # its indexes are free in both tables, and no row before it reads them
SINGLE = ((5, 3, 2, 2, 5), (5, 3, 3, 3, 6), (5, 3, 4, 4, 7), (6, 4, 18, 5, 9))  # verdict, part, rule, address, value
FIVE = ((19, 5, 10), (20, 6, 15), (21, 7, 25))  # rule, its address and first value
WIDTHS = {3: 8, 4: 30}

def tables():
    """(cells, the four parts) of an ADD and a group of two. Cell k is 1000 + k, but 200 to 209 are 0, 255 is p - 1."""
    cells = [1000 + k for k in range(200)] + [0] * 10 + [1000 + k for k in range(210, 255)] + [P - 1]
    cells[64:69] = [4 * k + 4106 for k in range(5)]  # of the elements at 16, 21, 32 and 37
    answer, parts, steps, groups = run([inst(1, 3, 2, aux=1), ext(ADD, 0, 2, 16, 32, 64)], cells)
    assert answer == six(0)
    return cells, (*parts, steps, groups)

def judged(parts, *changes):
    """The answer with words changed, each as part, row, column, word (01, Layouts)."""
    given = list(parts)
    for part, row, column, word in changes:
        given[part - 1] = poke(given[part - 1], WIDTHS[part] * row + column, word)
    return judge(*given[:2], 0, 0, *given[2:])

def check_single(check, parts):
    """One cell: its word and the value; nothing where there is no such cell (02, M-104)."""
    for verdict, part, rule, address, value in SINGLE:
        for at, word, wanted in (
                (7, 5, (1007, 5)), (7, 0, (1007, 0)), (0, P - 1, (1000, P - 1)), (200, 5, (0, 5)), (209, P - 1, (0, P - 1)),
                (255, 0, (P - 1, 0)), (255, P - 2, (P - 1, P - 2)), (256, 5, (0, 0)), (256, 0, (0, 0)), (P - 1, 7, (0, 0))):
            answer = judged(parts, (part, ROW, address, at), (part, ROW, value, word))
            check("rule %d, cell %d, value %d" % (rule, at, word), answer, six(verdict, part, ROW, rule, *wanted))

def of_five(parts, rule, address, first, at, values, base):
    """The answer with an index and five values; with idxA vA base too, which comes first (01, Extension rules)."""
    changes = [(4, ROW, address, at)] + [(4, ROW, first + k, value) for k, value in enumerate(values)]
    return judged(parts, *changes, *[(4, ROW, 9, base)] * (rule == 19))

def check_five(check, cells, parts):
    """Every set of differing cells, in range to the last cell and across it (02, M-104; point 17)."""
    for (rule, address, first), at in product(FIVE, (7, 198, 203, 251, 252, 253, 254, 255)):
        there = cells[at:at + 5] + [0] * (at - 251)  # 0 is what cells past the end might be read as
        for off in product((0, 1), repeat=5):
            if at <= 251 and not any(off):
                continue
            values = [(word + more) % P for word, more in zip(there, off)]
            wanted = (there[off.index(1)], values[off.index(1)]) if at <= 251 else (0, 0)
            answer = of_five(parts, rule, address, first, at, values, cells[at])
            check("rule %d, five from %d, off %r" % (rule, at, off), answer, six(6, 4, ROW, rule, *wanted))

def check_edges(check, cells, parts):
    """A word of 0 on either side, indexes far out, and what of several lookups is told (02, M-104; 01, Verdicts)."""
    for rule, address, first in FIVE:
        zeros = of_five(parts, rule, address, first, 200, [0, 0, 5, 0, 6], 0)
        check("rule %d, expected 0" % rule, zeros, six(6, 4, ROW, rule, 0, 5))
        nothing = of_five(parts, rule, address, first, 7, [1007, 1008, 1009, 0, 0], 1007)
        check("rule %d, found 0" % rule, nothing, six(6, 4, ROW, rule, 1010, 0))
        for at in (256, 260, 2**30, P - 5, P - 4, P - 1):
            answer = of_five(parts, rule, address, first, at, [1, 2, 3, 4, 5], 0)
            check("rule %d, five from %d" % (rule, at), answer, six(6, 4, ROW, 18 if rule == 19 else rule))
    check("2 before 3", judged(parts, (3, ROW, 5, 8), (3, ROW, 6, 9)), six(5, 3, ROW, 2, 1000, 8))
    check("no cell for 2, another for 3", judged(parts, (3, ROW, 2, 256), (3, ROW, 6, 9)), six(5, 3, ROW, 2))
    check("18 before 19", judged(parts, (4, ROW, 9, 8), (4, ROW, 10, 9)), six(6, 4, ROW, 18, 1000, 8))
    check("no fifth cell for 19, another for 20", judged(parts, (4, ROW, 5, 252), (4, ROW, 9, cells[252]), (4, ROW, 15, 9)),
          six(6, 4, ROW, 19))
    check("the row before", judged(parts, (4, ROW, 9, 8), (4, ROW - 1, 29, 9)), six(6, 4, ROW - 1, 21, 1004, 9))
    counted = count(*parts[:2], 0, 0, poke(parts[2], 8 * ROW + 5, 8), parts[3], FRESH)
    check("a count tells what the judge does", counted, (six(5, 3, ROW, 2, 1000, 8), FRESH))

def check_values(check):
    """In an accepted table a value that is changed is told with the word that it was (02, M-104)."""
    rules = {(3, 5): 2, (3, 6): 3, (3, 7): 4, (4, 9): 18}
    rules.update({(4, first + k): rule for rule, _, first in FIVE for k in range(5)})
    program, memory = make(1, 42, 10, 20)
    _, steps, groups = table(program, memory, 0, 0, 32 * 256, 120 * 256)
    for (part, column), row, by in product(rules, (0, 1, 7, 255), (1, P - 1)):
        old = words_of((steps, groups)[part - 3])[WIDTHS[part] * row + column]
        answer = judged((program, memory, steps, groups), (part, row, column, (old + by) % P))
        check("part %d, row %d, column %d by %d" % (part, row, column, by), answer,
              six(part + 2, part, row, rules[part, column], old, (old + by) % P))

def self_check():
    """M-104's own checks; (passed, failed)."""
    passed, failed = [], []

    def check(name, got, wanted):
        (passed if got == wanted else failed).append("%s: got %r, wanted %r" % (name, got, wanted))

    cells, parts = tables()
    check_single(check, parts)
    check_five(check, cells, parts)
    check_edges(check, cells, parts)
    check_values(check)
    return passed, failed
