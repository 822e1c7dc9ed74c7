"""Range checks by hand, for tests/ranges.py: programs over a few cells, and the finds that their tables must have.

Cells hold what CELLS says, or else 0; cell 26 holds 64, where five zeros are. So t is 15 for cells 20 and 21, and a
DEREF of any of them, with β 0, 1, 11 or p - 1, leads to a 0. The runs begin at pc 0 and fp 0, and end in a jump to
itself behind the program.
"""
from oracle import ADD, P, data_word, inst
from oracle_ranges import add, deref

CELLS = {20: 5, 21: 9, 22: 14, 23: 5, 24: 9, 26: 64, 30: 1, 31: 255, 32: 255, 33: P - 10}
X, J = 20, 21
D, A, E = deref(X, 0, 0), add(X, J, 15), deref(J, 0, 0)
NOTHING = inst(1, 3, 2, aux=1)  # 1 + 2 = 3
UNTAKEN = inst(0, 0, 0, fc=0, jump=1)
DATA = data_word(ADD, 0, 1)

def onward(at, fp=0):
    """A jump from instruction `at` to the next, into the frame so far on."""
    return inst(1, at + 1, fp, fc=0, fpc=1, jump=1)

def like(kind, cell, value):
    """Another kind with the words A and B of a DEREF of that cell with β 0, whose step is legal."""
    return {"add": inst(cell, 0, -value % P, fa=0, aux=1), "mul": inst(cell, 0, 0, fa=0, mul=1),
            "jump": inst(25, 0, 0, fa=0, fc=0, jump=1), "ext": inst(26, 0, 0, fa=0, data=DATA)}[kind]

# name: (program, finds)
FOUND = {
    "one": ([D, A, E], [(0, 15)]),
    "t 1": ([deref(25, 0, 0), add(25, 25, 1), deref(25, 0, 0)], [(0, 1)]),
    "t 2": ([deref(25, 0, 0), add(25, 30, 2), deref(30, 0, 0)], [(0, 2)]),
    "t 2M - 1": ([deref(31, 0, 0), add(31, 32, 511), deref(32, 0, 0)], [(0, 511)]),
    "t M": ([deref(31, 0, 0), add(31, 25, 256), deref(25, 0, 0)], [(0, 256)]),
    "t M + 1": ([deref(30, 0, 0), add(30, 32, 257), deref(32, 0, 0)], [(0, 257)]),
    "x is j": ([D, add(X, X, 11), D], [(0, 11)]),
    "j is x + 1, and x is j + 1": ([D, A, E, E, add(J, X, 15), D], [(0, 15), (3, 15)]),
    "two that share a row": ([D, A, E, add(J, X, 15), D], [(0, 15), (2, 15)]),
    "four that share rows": ([D, A, E, add(J, 26, 74), deref(26, 0, 0), add(26, X, 70), D, A, E],
                             [(0, 15), (2, 74), (4, 70), (6, 15)]),
    "x is j, three that share rows": ([D, add(X, X, 11)] * 3 + [D], [(0, 11), (2, 11), (4, 11)]),
    "two, one right behind the other": ([D, A, E] * 2, [(0, 15), (3, 15)]),
    "a DEREF before": ([D, D, A, E], [(1, 15)]),
    "a DEREF behind": ([D, A, E, E], [(0, 15)]),
    "an ADD before": ([A, D, A, E], [(1, 15)]),
    "an ADD behind": ([D, A, E, A], [(0, 15)]),
    "behind a taken jump": ([onward(0), D, A, E], [(1, 15)]),
    "behind an untaken jump": ([UNTAKEN, D, A, E], [(1, 15)]),
    "before a jump": ([D, A, E, UNTAKEN, NOTHING, onward(5)], [(0, 15)]),
    "in another frame": ([onward(0, 7), deref(X - 7, 0, 0), add(X - 7, J - 7, 15), deref(J - 7, 0, 0)], [(1, 15)]),
    "in a frame in which offsets wrap": ([onward(0, 100), deref(X - 100, 0, 0), add(X - 100, J - 100, 15),
                                          deref(J - 100, 0, 0)], [(1, 15)]),
    "x wraps and j does not": ([onward(0, X + 1), deref(-1, 0, 0), add(-1, 0, 15), deref(0, 0, 0)], [(1, 15)]),
    "by another way round": ([inst(1, 3, 0, fc=0, fpc=1, jump=1), NOTHING, onward(6), D, A, E,
                              inst(1, 8, 0, fc=0, fpc=1, jump=1), NOTHING], [(1, 15)]),
    "to row H - 2": ([NOTHING] * 252 + [D, A, E], [(252, 15)]),
    "at both ends": ([D, A, E] + [NOTHING] * 249 + [D, A, E], [(0, 15), (252, 15)]),
    "as many as there may be": ([D] + [add(X, X, 11), D] * 127, [(row, 11) for row in range(0, 254, 2)]),
}
MISSED = {
    "nothing": [], "the first two": [D, A], "the last two": [A, E], "no ADD": [D, E], "the ADD alone": [A],
    "first β 1": [deref(X, 0, 0, 1), A, E], "first β p - 1": [deref(X, 0, 0, -1), A, E],
    "first β 11": [deref(X, 0, 0, 11), A, E], "second β 1": [D, A, deref(J, 0, 0, 1)],
    "second β p - 1": [D, A, deref(J, 0, 0, -1)], "both β 1": [deref(X, 0, 0, 1), A, deref(J, 0, 0, 1)],
    "commuted": [D, add(J, X, 15), E], "turned round": [E, A, D], "the DEREFs turned round": [E, A, E],
    "A is the cell after x": [deref(22, 0, 0), add(23, J, 15), E], "A is the cell before x": [D, add(19, J, 10), E],
    "A has x's value": [D, add(23, J, 15), E], "C has j's value": [D, add(X, 24, 15), E],
    "the third is of the cell after j": [D, A, deref(22, 0, 0)],
    "the third is of the cell before j": [D, add(X, 24, 15), deref(23, 0, 0)],
    "the third is of x": [D, A, D], "B in a cell": [D, add(X, J, 23, fb=0), E],
    "A immediate": [D, add(X, J, X + 9 + 1, fa=1), E], "C immediate": [D, add(X, J, 5 + J + 1, fc=1), E],
    "C fp + j": [D, add(X, J, 5 + J + 1, fpc=1), E], "all immediate": [D, add(X, J, X + J + 1, fa=1, fc=1), E],
    "MUL": [D, add(X, J, 46, aux=0, mul=1), E], "DEREF for ADD": [D, add(X, J, 17, aux=2), E],
    "jump for ADD": [deref(25, 0, 0), add(25, J, 15, aux=0, jump=1), E],
    "ext for ADD": [deref(26, 0, 0), add(26, 26, 65, aux=0, data=DATA), deref(26, 0, 0)],
    "first an ADD": [like("add", X, 5), A, E], "first a MUL": [like("mul", X, 5), A, E],
    "first a jump": [like("jump", 25, 0), add(25, J, 10), E], "first an ext": [like("ext", 26, 64), add(26, J, 74), E],
    "third an ADD": [D, A, like("add", J, 9)], "third a MUL": [D, A, like("mul", J, 9)],
    "third a jump": [D, add(X, 25, 6), like("jump", 25, 0)], "third an ext": [D, add(X, 26, 70), like("ext", 26, 64)],
    "untaken jump before the ADD": [D, UNTAKEN, A, E], "untaken jump behind the ADD": [D, A, UNTAKEN, E],
    "taken jump before the ADD": [D, onward(1), A, E], "taken jump behind the ADD": [D, A, onward(2), E],
    "a step before the ADD": [D, NOTHING, A, E], "a step behind the ADD": [D, A, NOTHING, E],
    "entered at the ADD": [inst(1, 2, 0, fc=0, fpc=1, jump=1), D, A, E],
    "entered at the third": [inst(1, 3, 0, fc=0, fpc=1, jump=1), D, A, E],
    "never run": [inst(1, 4, 0, fc=0, fpc=1, jump=1), D, A, E],
    "never run, t p": [inst(1, 4, 0, fc=0, fpc=1, jump=1), D, add(X, J, P), E],
    "left by a jump, the rest elsewhere": [D, inst(1, 4, 0, fc=0, fpc=1, jump=1), A, E, A, E],
    "a frame between": [onward(0, P - 1), deref(X + 1, 0, 0), onward(2, 1), A, E],
    "B p - 1, first β": [deref(33, 0, 0, 12), add(33, J, P), E],
    "B p - 1, second β": [deref(J, 0, 0), add(J, 33, P), deref(33, 0, 0, 12)],
    "cut by the last row": [NOTHING] * 253 + [D, A], "cut before the ADD by the last row": [NOTHING] * 254 + [D],
}
