"""Parts for the cases of tests/trials.py: programs with operands in each mode and the memory that makes them run; changes to parts."""
import oracle
from oracle import ADD, MUL, P, PEQ, bytes_of, inst, six, words_of

PROGRAM, MEMORY, EXEC, EXT = 1, 2, 3, 4
WORDS = (12, 1, 8, 30)  # words in a row of each part
A, B, C, FA, FB, FC, FPC, FPAB, MUL_WORD, JUMP, AUX, DATA = range(12)
PC, FP, ADDR_A, ADDR_B, ADDR_C, VALUE_A, VALUE_B, VALUE_C = range(8)
START, ADDS, MULS, PEQS, LEN, IDX_A, IDX_B, IDX_R, BE, V_A_BASE = range(10)
V_A, V_B, COMP, RES = 10, 15, 20, 25
# rule to the columns of its address and of its first value, and how many cells it looks up
EXEC_LOOKUPS = {2: (ADDR_A, VALUE_A, 1), 3: (ADDR_B, VALUE_B, 1), 4: (ADDR_C, VALUE_C, 1)}
EXT_LOOKUPS = {18: (IDX_A, V_A_BASE, 1), 19: (IDX_A, V_A, 5), 20: (IDX_B, V_B, 5), 21: (IDX_R, RES, 5)}
ACCEPTED = six(0)
ZEROS = [0] * 256
IMM, CELL, REL = "imm", "cell", "fp"


def changed(parts, *changes):
    """The parts with some words changed: each change is part, row, column, word."""
    data = [bytearray(part) for part in parts]
    for part, row, column, word in changes:
        at = 4 * (WORDS[part - 1] * row + column)
        data[part - 1][at:at + 4] = word.to_bytes(4, "little")
    return tuple(bytes(part) for part in data)


def word_at(parts, part, row, column):
    return words_of(parts[part - 1])[WORDS[part - 1] * row + column]


def moved(parts, part, row, column, by=1):
    """The change that adds to a word."""
    return part, row, column, (word_at(parts, part, row, column) + by) % P


def off_by_one(parts, part, row, column):
    """Expected and found where one was added to a value that is looked up: the word that stood there, and the new."""
    return word_at(parts, part, row, column), moved(parts, part, row, column)[3]


def with_groups(parts, rows):
    """The parts with other rows in the extension table: padding is cut off at the end, so that there are 256 of them."""
    table = b"".join(rows)
    assert len(table) >= 120 * 256
    return parts[:3] + (table[:120 * 256],)


def code_of(*instructions):
    """A program that ends in a jump to itself."""
    last = inst(1, len(instructions), fc=0, fpc=1, jump=1)
    return bytes_of([word for i in instructions + (last,) for word in i])


class Run:
    """Instructions one after the other, each with the cells that make it legal. Operands are given by value and mode."""

    def __init__(self, count, fp, seed):
        self.code, self.cells, self.free, self.fp, self.state, self.first = [], [0] * count, 0, fp, seed, (0, fp)

    def draws(self, count):
        words = []
        for _ in range(count):
            number, self.state = oracle.draw(self.state)
            words.append(number % P)
        return words

    def store(self, words):
        """The number of the first of some cells that hold the words."""
        at = self.free
        self.free += len(words)
        assert self.free <= len(self.cells)
        self.cells[at:self.free] = words
        return at

    def operand(self, value, mode):
        if mode == IMM:
            return value
        return ((self.store([value]) if mode == CELL else value) - self.fp) % P

    def emit(self, values, modes, **words):
        a, b, c = (self.operand(value, mode) for value, mode in zip(values, modes))
        flags = {"fa": modes[0] == IMM, "fb": modes[1] == IMM, "fc": modes[2] == IMM, "fpc": modes[2] == REL, "fpab": modes[0] == REL}
        self.code.append(inst(a, b, c, **{name: int(flag) for name, flag in flags.items()}, **words))

    def add(self, *modes):
        a, c = self.draws(2)
        self.emit((a, (a + c) % P, c), modes, aux=1)

    def mul(self, *modes):
        a, c = self.draws(2)
        self.emit((a, a * c % P, c), modes, mul=1)

    def deref(self, mode):
        value, beta = self.draws(2)
        self.emit(((self.store([value]) - beta) % P, beta, value), (CELL, IMM, mode), aux=2)

    def jump(self, taken, *modes, over=0):
        """A jump over some instructions, to a frame that is drawn; where it is not taken the destination is drawn too."""
        dest, frame = self.draws(2)
        self.emit((taken, len(self.code) + 1 + over if taken else dest, frame), modes, jump=1)
        if taken:
            self.fp = frame

    def extension(self, op, be, n, *modes):
        data = oracle.data_word(op, be, n)
        a, b = self.store(self.draws(n + 4 if be else 5 * n)), self.store(self.draws(5 * n))
        c = self.store(oracle.result(tuple(self.cells), data, a, b))
        self.emit((a, b, c), modes, data=data)

    def parts(self):
        """The four parts, at H = K = 256."""
        program, memory = code_of(*self.code), bytes_of(self.cells)
        answer, steps, groups = oracle.table(program, memory, *self.first, 32 * 256, 120 * 256)
        assert answer == ACCEPTED
        return program, memory, steps, groups


def each_kind():
    """A run with a row for each way to break a rule. Rows 0 to 10 are instructions 0 to 4 and 6 to 11; the jump at 4 passes over 5.
    Groups: add at rows 0 and 1, mul with be at 2 to 4, peq at 5 and 6, and the same mul at 7 and at 8. Cells 200 to 249 are 0."""
    run = Run(256, 40, 7)
    run.store(run.draws(5))
    run.add(CELL, CELL, CELL)
    run.add(CELL, IMM, REL)
    run.mul(IMM, IMM, CELL)
    run.deref(IMM)
    run.jump(1, IMM, IMM, CELL, over=1)
    run.code.append(inst(1, 3, 1, aux=1))
    run.jump(0, IMM, CELL, REL)
    run.extension(ADD, 0, 2, IMM, IMM, IMM)
    run.extension(MUL, 1, 3, CELL, IMM, REL)
    run.extension(PEQ, 0, 2, IMM, CELL, CELL)
    run.extension(MUL, 0, 1, REL, REL, IMM)
    run.code.append(run.code[-1])
    assert run.free <= 200
    steps = run.parts()[2]
    for cell, row, column in ((250, 0, VALUE_A), (251, 0, VALUE_B), (252, 0, VALUE_C), (253, 3, VALUE_B)):
        run.cells[cell] = words_of(steps)[8 * row + column]  # a second cell with the same value
    return run.parts(), run.first


def each_mode():
    """A run with each kind in each mode of its operands, its frames drawn, so that offsets wrap."""
    run = Run(1024, 1, 11)
    plain = [(a, b, c) for a in (IMM, CELL) for b in (IMM, CELL) for c in (IMM, CELL, REL)]
    for modes in plain:
        run.add(*modes)
        run.mul(*modes)
    for mode in (IMM, CELL, REL):
        run.deref(mode)
    for modes in plain:
        if modes[2] != IMM:
            run.jump(0, *modes)
            run.jump(1, *modes)
    for k, modes in enumerate(plain + [(REL, REL, c) for c in (IMM, CELL, REL)]):
        run.extension((ADD, MUL, PEQ)[k % 3], k // 3 % 2, 1 + k % 4, *modes)
    return run.parts(), run.first
