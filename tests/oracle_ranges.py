"""Range checks in a table, written from the documents alone as tests/oracle.py is.

Sources: document 02's M-108 ("02, M-108"), draft 0.6.0's 2.6.3, document 01 ("01, <heading>") and the founders' decided
points 20 and 28. A find is (row, bound). tests/oracle.py, run as a program, runs the checks below too.
"""

import struct
from itertools import product

import oracle
from oracle import P, inst, six

LIST, PLAIN = 19, (0, 1, 0, 0, 0, 2)  # fA, fB, fpAB, MUL, JUMP and AUX of every DEREF

def checked(instruction):
    """The cell of a DEREF with β 0, or None (0.6.0, 2.6.3; 01, Well-formed instructions)."""
    a, beta, _, fa, fb, _, _, fpab, mul, jump, aux, _ = instruction
    return a if (fa, fb, fpab, mul, jump, aux) == PLAIN and beta == 0 else None

def added(instruction):
    """x, j and t of an ADD of cells x and j to immediate t - 1, or Nones (0.6.0, 2.6.3; point 20)."""
    x, b, j, fa, fb, fc, fpc, _, mul, jump, aux, _ = instruction
    return (x, j, b + 1) if (fa, fb, fc, fpc, mul, jump, aux) == (0, 1, 0, 0, 0, 0, 1) else (None, None, None)

def finds_of(code, steps):
    """Every find, in row order (02, M-108; point 20). Equal frames need no test: an ADD and a DEREF keep theirs."""
    insts, finds = [code[row[0]] for row in steps], []
    for row, (first, middle, last) in enumerate(zip(insts, insts[1:], insts[2:])):
        x, j, bound = added(middle)
        if bound is not None and checked(first) == x and checked(last) == j:
            finds.append((row, bound))
    return finds

def ranges(program, memory, pc, fp, exec_table, ext_table, room=None):
    """(answer, finds written) for a buffer of so many bytes, or a long one; none on refusal (02, M-108; point 20)."""
    answer = oracle.judge(program, memory, pc, fp, exec_table, ext_table)
    if answer != six(0):
        return answer, []
    finds = finds_of(oracle.rows_of(oracle.words_of(program), 12), oracle.rows_of(oracle.words_of(exec_table), 8))
    if room is not None and 8 * len(finds) > room:
        return six(LIST, 0, len(finds)), []
    return answer, finds

def bytes_of(finds):
    """Row and bound of each find, 4 bytes each (02, M-108)."""
    return b"".join(struct.pack("<II", *find) for find in finds)

# ---- what tests build range checks of ----
def deref(cell, value, mode=1, beta=0, fp=0):
    """A DEREF of an offset, where C must be the value: as an immediate (0), in the cell at C (1), or fp + C (2)."""
    c = (value, value, (value - fp) % P)[mode]
    return inst(cell % P, beta % P, c, fa=0, fc=int(mode == 0), fpc=int(mode == 2), aux=2)

def add(x, j, bound, **changed):
    """An ADD of the cells at offsets x and j to the immediate below a bound."""
    return inst(x % P, bound - 1, j % P, **{"fa": 0, "fc": 0, "aux": 1, **changed})

# ---- self-check ----
def found(insts, cells, **how):
    """(answer, finds) of a program's run; the tables are the oracle's own."""
    answer, parts, steps, groups = oracle.run(insts, cells, **how)
    start = how.get("pc", 0), how.get("fp", 0)
    return ranges(*parts, *start, steps, groups) if answer == six(0) else (answer, [])

def check_document(check):
    """Example 2.1 of 0.6.0, with x 7 and y 20: z is 240 (0.6.0, 2.6.3)."""
    cells = [0] * 1024
    cells[2:12] = 7, 20, 0, 2, 0, 140, 240, 0, 759, 0  # cells 4, 6, 9 and 11 are what the DEREFs lead to
    cells[4], cells[6], cells[9], cells[11] = cells[7], cells[2], cells[240], cells[759]
    body = [deref(2, 4), add(2, 5, 10), deref(5, 6), inst(2, 7, 3, 0, 0, 0, mul=1), inst(7, 8, 100, 0, 0, 1, aux=1),
            deref(8, 9), add(8, 10, 1000), deref(10, 11)]
    check("example 2.1", found(body, cells), (six(0), [(0, 10), (5, 1000)]))

def check_bounds(check):
    """Every bound that a memory of 256 cells allows is found with each value; above it a step is stuck (01)."""
    for v, w in [(0, 0), (0, 1), (1, 0), (255, 0), (0, 255), (255, 255), (254, 255), (128, 127)]:
        cells = [0] * 10 + [v, w] + [0] * 244
        body = [deref(10, cells[v], 0), add(10, 11, v + w + 1), deref(11, cells[w], 0)]
        check("values %d and %d" % (v, w), found(body, cells), (six(0), [(0, v + w + 1)]))
    for v, w in ((256, 0), (0, 256), (P - 1, 0), (0, P - 1), (P - 1, 2)):
        cells = [0] * 10 + [v, w] + [0] * 244
        body = [deref(10, 0, 0), add(10, 11, (v + w) % P + 1), deref(11, 0, 0)]
        check("a value of %d" % max(v, w), found(body, cells)[0], six(9, 0, 0 if v > 255 else 2, 3))

def check_bound_p(check):
    """B p - 1, which no accepted table has in a find, since two cells below M do not add up to it (0.6.0, 2.6.3)."""
    code = [deref(1, 0), add(1, 2, P), deref(2, 0)]
    check("t p, of the instructions alone", finds_of(code, [(0,), (1,), (2,)]), [(0, P)])
    check("t 1, of the instructions alone", finds_of([code[0], add(1, 2, 1), code[2]], [(0,), (1,), (2,)]), [(0, 1)])

def check_frames(check):
    """Offsets that wrap, and the C of each DEREF in each mode (01, The machine; point 20)."""
    for fp, modes in product((0, 1, 200, P - 1, P - 100), product(range(3), repeat=2)):
        cells = [3] * 20 + [5, 9] + [3] * 234
        first, last = (deref(at - fp, (3, -fp % P, 3)[mode], mode, fp=fp) for at, mode in zip((20, 21), modes))
        body = [first, add(20 - fp, 21 - fp, 15), last]
        check("fp %d, C %s" % (fp, modes), found(body, cells, fp=fp), (six(0), [(0, 15)]))

def check_refusals(check):
    """The judge first, then LIST with the finds' number (02, M-108; point 20)."""
    _, parts, steps, groups = oracle.run([deref(1, 0), add(1, 1, 1), deref(1, 0)] * 4, [0] * 256)
    tables, finds = (*parts, 0, 0, steps, groups), [(row, 1) for row in (0, 3, 6, 9)]
    for room in (0, 1, 7, 8, 31, 32, 33, 40):
        wanted = (six(0), finds) if room >= 32 else (six(19, 0, 4), [])
        check("%d bytes" % room, ranges(*tables, room), wanted)
    check("the judge first", ranges(*parts, 1, 0, steps, groups, 0), (six(4), []))
    check("bytes", bytes_of([(1, 258), (65536, P)]).hex(), "0100000002010000" + "000001000100007f")
    check("verdict 19", oracle.NAMES[LIST], "LIST")

def self_check():
    """M-108's own checks; (passed, failed)."""
    passed, failed = [], []

    def check(name, got, wanted):
        (passed if got == wanted else failed).append("%s: got %r, wanted %r" % (name, got, wanted))

    check_document(check)
    check_bounds(check)
    check_bound_p(check)
    check_frames(check)
    check_refusals(check)
    return passed, failed
