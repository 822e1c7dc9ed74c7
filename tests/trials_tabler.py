"""The tabler's cases: each way to be stuck, room, runs that stay or not, wrapping, each mode, and makers' recipes."""
import oracle
from oracle import ADD, MUL, P, PEQ, bytes_of, ext, inst, six
from trials_parts import ACCEPTED, ZEROS, code_of, each_mode

NOTHING = inst(aux=1)  # 0 + 0 = 0
OPS = (("add", ADD), ("mul", MUL), ("peq", PEQ))
CALL = oracle.data_word(ADD, 0, 1)
# Each kind as it holds on cells of 0, with its operands immediate where they may be.
KINDS = {"ADD": {"aux": 1}, "MUL": {"mul": 1}, "DEREF": {"aux": 2, "fa": 0}, "JUMP": {"jump": 1, "fc": 0, "fpc": 1},
         "extension": {"data": CALL}}


def stuck(rule, row=0):
    return six(9, 0, row, rule)


def to(dest, further=0):
    """A taken jump, into the frame so much further."""
    return inst(1, dest, further, fc=0, fpc=1, jump=1)


def tabled(t, name, answer, instructions, cells=ZEROS, start=(0, 0), height=256, room=256):
    """A program, with a jump to itself at its end."""
    t.table(name, answer, code_of(*instructions), bytes_of(cells), start, 32 * height, 120 * room)


def with_cells(words, count=256):
    """Cells of 0, but for some."""
    cells = [0] * count
    for at, word in words.items():
        cells[at] = word
    return cells


def reads(t):
    """Rules 2 to 4: the last cell is a legal read, and the one after it is none, in each kind that can read it there."""
    for kind, own in KINDS.items():
        for rule, operand, flag in ((2, "a", "fa"), (3, "b", "fb"), (4, "c", "fc")):
            if kind == "DEREF" and operand == "b":
                continue  # its target is in derefs()
            read = {**own, flag: 0, **({"fpc": 0} if operand == "c" else {})}
            for offset, answer in ((255, ACCEPTED), (256, stuck(rule)), (P - 1, stuck(rule))):
                tabled(t, f"{kind} reads cell {offset} for {operand}", answer, [inst(**{**read, operand: offset})])
    for fp, offset, answer in ((P - 1, 1, ACCEPTED), (P - 1, 256, ACCEPTED), (P - 1, 257, stuck(2)), (1, P - 1, ACCEPTED),
                               (1, 255, stuck(2)), (2, P - 1, ACCEPTED), (256, P - 256, ACCEPTED), (1, P - 2, stuck(2))):
        tabled(t, f"frame {fp}, offset {offset}", answer, [inst(offset, fa=0, aux=1)], start=(0, fp))
    tabled(t, "a frame past M, no read", ACCEPTED, [NOTHING], start=(0, P - 1))
    tabled(t, "all three reads illegal: A first", stuck(2), [inst(256, 256, 256, fa=0, fb=0, fc=0, aux=1)])
    tabled(t, "B and C illegal: B first", stuck(3), [inst(0, 256, 256, fa=0, fb=0, fc=0, mul=1)])
    tabled(t, "a later row", stuck(4, 3), [NOTHING] * 3 + [inst(c=256, fc=0, aux=1)])


def derefs(t):
    for pointer, beta, answer in ((0, 255, ACCEPTED), (0, 256, stuck(3)), (255, 0, ACCEPTED), (256, 0, stuck(3)), (P - 1, 256, ACCEPTED),
                                  (P - 1, 257, stuck(3)), (P - 1, 1, ACCEPTED), (P - 1, 0, stuck(3)), (9, P - 9, ACCEPTED)):
        value = pointer if (pointer + beta) % P == 0 else 0  # cell 0 holds the pointer
        tabled(t, f"DEREF of {pointer} + {beta}", answer, [inst(0, beta, value, fa=0, aux=2)], with_cells({0: pointer}))


def equations(t):
    """Rule 5: each equation true, and one off, by an immediate and by a cell."""
    for name, words, a, b, c in (("ADD", {"aux": 1}, P - 1, 0, 1), ("ADD", {"aux": 1}, 5, 12, 7), ("MUL", {"mul": 1}, P - 1, 1, P - 1),
                                 ("MUL", {"mul": 1}, 6, 42, 7), ("MUL", {"mul": 1}, 2**16, 2**24 - 1, 2**15)):
        for off in (0, 1, P - 1):
            answer, wrong = (stuck(5) if off else ACCEPTED), (b + off) % P
            tabled(t, f"{name} of {a} and {c} is {wrong}", answer, [inst(a, wrong, c, **words)])
            tabled(t, f"{name} of {a} and {c} is {wrong}, in cells", answer, [inst(7, 8, 9, fa=0, fb=0, fc=0, **words)],
                   with_cells({7: a, 8: wrong, 9: c}))
    for off in (0, 1, P - 1):
        answer, value = (stuck(5) if off else ACCEPTED), (31 + off) % P
        tabled(t, f"DEREF gives 31, C is {value}", answer, [inst(2, 3, value, fa=0, aux=2)], with_cells({2: 50, 53: 31}))
        tabled(t, f"DEREF gives 31, C's cell is {value}", answer, [inst(2, 3, 4, fa=0, fc=0, aux=2)],
               with_cells({2: 50, 53: 31, 4: value}))
        tabled(t, f"DEREF gives 31, C's frame is {value}", answer, [inst(2, 3, value, fa=0, fc=0, fpc=1, aux=2)],
               with_cells({2: 50, 53: 31}))


def jumps(t):
    """Rule 6, and B and C read on every jump."""
    for condition in (2, 3, P - 1):
        tabled(t, f"condition {condition}", stuck(6), [inst(condition, 1, fc=0, jump=1)])
        tabled(t, f"condition {condition} in a cell", stuck(6), [inst(9, 1, fa=0, fc=0, jump=1)], with_cells({9: condition}))
    tabled(t, "condition 2, C illegal", stuck(4), [inst(2, 1, 256, fc=0, jump=1)])
    for taken in (0, 1):
        tabled(t, f"condition {taken}, B illegal", stuck(3), [inst(taken, 256, fb=0, fc=0, jump=1)])
        tabled(t, f"condition {taken}, C illegal", stuck(4), [inst(taken, 1, 256, fc=0, jump=1)])
    tabled(t, "untaken, destination and frame anything", ACCEPTED, [inst(0, P - 1, P - 1, fc=0, fpc=1, jump=1)])
    tabled(t, "taken forwards and backwards", ACCEPTED, [to(2), to(3), to(1)])
    tabled(t, "taken into another frame", ACCEPTED, [inst(1, 1, 4, fc=0, jump=1), inst(1, fa=0, aux=1)], with_cells({4: P - 1}))


def ends(t):
    """Rule 1 and OPEN."""
    for start, answer in (((1, 0), ACCEPTED), ((2, 0), stuck(1)), ((P - 1, 0), stuck(1)), ((0, P - 1), ACCEPTED)):
        tabled(t, f"start {start} in a program of 2", answer, [NOTHING], start=start)
    out = to(2000)
    tabled(t, "a jump out of the program", stuck(1, 1), [out])
    tabled(t, "a jump out to p - 1", stuck(1, 4), [NOTHING] * 3 + [to(P - 1)])
    for height in (256, 512):
        last = six(11, 0, height - 1)
        tabled(t, f"a jump out on row {height - 1}", last, [NOTHING] * (height - 1) + [out], height=height)
        tabled(t, f"a jump out on row {height - 2}", stuck(1, height - 1), [NOTHING] * (height - 2) + [out], height=height)
        tabled(t, f"the jump to itself on row {height}", last, [NOTHING] * height, height=height)
        tabled(t, f"the jump to itself on row {height - 1}", ACCEPTED, [NOTHING] * (height - 1), height=height)
        tabled(t, f"back and forth, {height} rows", last, [to(1), to(0)], height=height)
    tabled(t, "to itself, a frame further", six(11, 0, 255), [to(0, further=1)])
    tabled(t, "to itself, but the condition is 0 later", six(11, 0, 255), [inst(0, 0, 1, fa=0, fc=0, fpc=1, jump=1)] + [NOTHING] * 9,
           with_cells({k: 1 for k in range(250)}))


def element_cells(t):
    """Rule 7: the last element ends on cell M - 1, and one further."""
    for n in (1, 2, 9):
        for name, be, a, b, c in (("A", 0, 256 - 5 * n, 0, 0), ("A with be", 1, 252 - n, 0, 0), ("B", 0, 0, 256 - 5 * n, 0),
                                  ("B with be", 1, 0, 256 - 5 * n, 0), ("C", 0, 0, 0, 251), ("C with be", 1, 0, 0, 251)):
            for more, answer in ((0, ACCEPTED), (1, stuck(7))):
                at = [operand + more * (letter == name[0]) for letter, operand in zip("ABC", (a, b, c))]
                tabled(t, f"{name} to the last cell + {more}, N {n}", answer, [ext(ADD, be, n, *at)])
    for far in (256, P - 5, P - 1):
        for at in ((far, 0, 0), (0, far, 0), (0, 0, far)):
            tabled(t, f"elements at {at}", stuck(7), [ext(MUL, 1, 1, *at)])
            relative = inst(*[(x - 9) % P for x in at], fa=0, fb=0, fc=0, fpc=1, fpab=1, data=CALL)
            tabled(t, f"elements at {at}, by the frame", stuck(7), [relative], start=(0, 9))
    tabled(t, "an address in a cell is M", stuck(7), [inst(3, fa=0, data=CALL)], with_cells({3: 256}))
    tabled(t, "the cell of an address is M", stuck(2), [inst(256, 256, fa=0, data=CALL)])


def results(t):
    """Rule 8: each operation with the right result, and with each coordinate one off."""
    for name, op in OPS:
        for be in (0, 1):
            cells = [k * k * 1234567 % P for k in range(1, 101)] + [0] * 156
            cells[100:105] = oracle.result(tuple(cells), oracle.data_word(op, be, 3), 2, 40)
            call = [ext(op, be, 3, 2, 40, 100)]
            tabled(t, f"{name}, be {be}", ACCEPTED, call, cells)
            for k in range(5):
                wrong = cells[:100 + k] + [(cells[100 + k] + 1) % P] + cells[101 + k:]
                tabled(t, f"{name}, be {be}, coordinate {k} wrong", stuck(8), call, wrong)
    tabled(t, "the result among its own elements", ACCEPTED, [ext(ADD, 0, 1, 7, 12, 7)], with_cells({7: 5}))


def rooms(t):
    """ROOM: the lengths so far, plus 1, are at most K; STUCK comes first in a row, and earlier rows come first."""
    def room(row):
        return six(10, 0, row)

    tabled(t, "K - 1 rows in 5 groups", ACCEPTED, [ext(ADD, 0, 51)] * 5)
    tabled(t, "K rows in 5 groups and 1", room(5), [ext(ADD, 0, 51)] * 5 + [ext(ADD, 0, 1)])
    tabled(t, "K - 1 rows of one each", ACCEPTED, [ext(MUL, 1, 1)] * 255, height=256)
    tabled(t, "one too many in two groups", room(1), [ext(ADD, 0, 128)] * 2, [0] * 1024)
    for n, answer in ((255, ACCEPTED), (256, room(0)), (257, room(0))):
        tabled(t, f"one group of {n}", answer, [ext(ADD, 0, n)], [0] * 2048)
    tabled(t, "K 512, 511 rows", ACCEPTED, [ext(ADD, 0, 255), ext(ADD, 0, 256)], [0] * 2048, room=512)
    tabled(t, "K 512, 512 rows", room(1), [ext(ADD, 0, 256)] * 2, [0] * 2048, room=512)
    tabled(t, "K rows, and cells past M: STUCK", stuck(7), [ext(ADD, 0, 256)])
    tabled(t, "K rows, and a wrong result: STUCK", stuck(8), [ext(PEQ, 0, 256)], [0] * 2048)
    tabled(t, "N 2^20, and cells past M: STUCK", stuck(7), [ext(ADD, 1, 2**20)])
    tabled(t, "N 2^20 by addresses near p: STUCK", stuck(7), [ext(MUL, 0, 2**20, P - 1, P - 1, P - 1)])
    tabled(t, "ROOM, and a row later STUCK", room(2), [NOTHING, ext(ADD, 0, 200), ext(ADD, 0, 56), inst(2, jump=1, fc=0)], [0] * 1024)
    tabled(t, "STUCK, and a row later ROOM", stuck(6, 1), [ext(ADD, 0, 200), inst(2, jump=1, fc=0), ext(ADD, 0, 56)], [0] * 1024)
    tabled(t, "a loop with a group of 1 in each turn: OPEN", six(11, 0, 255), [ext(ADD, 0, 1), to(0)])
    tabled(t, "a loop with a group of 3 in each turn: ROOM", room(170), [ext(ADD, 0, 3), to(0)])


def recipes(t):
    for seed in (0x000000002fffffff, 0x000000012fffffff, 0xffffffff2fffffff):
        for n in (1, 124):
            t.table(f"recipe {seed:016x}, n {n}", ACCEPTED, *oracle.make(1, seed, 10, n), (0, 0))


def cases(t):
    (program, memory, *_), start = each_mode()
    t.table("each kind in each mode", ACCEPTED, program, memory, start)
    for group in (reads, derefs, equations, jumps, ends, element_cells, results, rooms, recipes):
        group(t)
