"""Range checks through the library: as tests/ranges_table.py has them by hand, and as tests/oracle_ranges.py has them.

`ranges.py cases | target/c/ranges | ranges.py compare`: tests/ranges calls the proved code. By hand are programs with
their finds, which the oracle must have too. By the oracle are programs by chance, over a memory whose cells are all
alike so that any step is legal, and tables that the judge refuses.
"""
import random
import struct
import sys

sys.dont_write_bytecode = True
import oracle
import oracle_ranges
from oracle import P, inst, poke, six
from oracle_ranges import add, deref
from ranges_table import CELLS, FOUND, MISSED, NOTHING

FILL, BEFORE, HEAD, ANSWER, VERDICT = b"\xa5", 16, struct.Struct("<10Q"), struct.Struct("<6I"), struct.Struct("<I")
LENGTHS = [(found, told) for found in (0, 4, 7, 8, 9, 16) for told in (0, 8, 16, 23, 24, 25)]


class Tables:
    """Four parts and a start, with the judge's answer and the finds that an accepted table has."""

    def __init__(self, name, parts, start, answer, finds):
        self.name, self.parts, self.start, self.answer, self.finds = name, parts, start, answer, finds

    def by_oracle(self):
        found = oracle_ranges.ranges(*self.parts[:2], *self.start, *self.parts[2:])
        if found != (self.answer, self.finds):
            yield f"oracle: {self.name}: {found!r:.300}, not {self.answer}, {self.finds!r:.200}"


class Case:
    """One call, on tables or on those of the case before, with so much room."""

    def __init__(self, tables, room, first, found=8, told=24):
        self.tables, self.room, self.first, self.found, self.told = tables, room, first, found, told
        self.name = f"{tables.name}, finds of {room}, found of {found}, answer of {told}"
        self.answer, self.finds = tables.answer, tables.finds
        if (found, told) != (8, 24):
            self.answer, self.finds = six(13), []
        elif self.answer == six(0) and 8 * len(self.finds) > room:
            self.answer, self.finds = six(19, 0, len(self.finds)), []

    def given(self):
        lengths = [len(part) for part in self.tables.parts]
        head = HEAD.pack(self.first, *self.tables.start, *lengths, self.room, self.found, self.told)
        return head + b"".join(self.tables.parts if self.first else ())

    def wanted(self):
        """What the driver writes of it, in parts: the rooms hold what they held before and behind the buffers."""
        written = oracle_ranges.bytes_of(self.finds), struct.pack("<Q", len(self.finds)), ANSWER.pack(*self.answer)
        if self.answer[0] == 13:
            written = b"", b"", b""
        rooms = [(FILL * BEFORE + data).ljust(length + 2 * BEFORE, FILL)
                 for data, length in zip(written, (self.room, self.found, self.told))]
        return (("verdict", VERDICT.pack(self.answer[0])), *zip(("finds", "found", "answer"), rooms))

    def by_library(self, stream):
        for part, wanted in self.wanted():
            got = stream.read(len(wanted))
            if got != wanted:
                yield f"library: {self.name}: {part} {got.hex():.200}, not {wanted.hex():.200}"


def tabled(name, insts, cells, finds=None, fp=0, height=256):
    """The tables of a run that must be accepted; finds that are not by hand are the oracle's."""
    answer, parts, steps, groups = oracle.run(insts, cells, fp=fp, height=height)
    if answer != six(0):
        raise ValueError(f"{name}: {answer}")
    whole = (*parts, steps, groups)
    if finds is None:
        finds = oracle_ranges.ranges(*parts, 0, fp, steps, groups)[1]
    return Tables(name, whole, (0, fp), answer, finds)


def loop():
    """Four turns of one find, in four frames: 5 + 9, 6 + 8, 7 + 7 and 8 + 6."""
    cells = [0] * 256
    cells[20:24], cells[40:44], cells[60:64] = (5, 6, 7, 8), (9, 8, 7, 6), (1, 1, 1, 0)
    body = [deref(20, 0, 0), add(20, 40, 15), deref(40, 0, 0), inst(60, 0, 1, fa=0, fc=0, fpc=1, jump=1)]
    yield tabled("a loop", body, cells, [(0, 15), (4, 15), (8, 15), (12, 15)])
    yield tabled("a loop whose last turn is cut", body[:2] + [inst(60, 0, 1, fa=0, fc=0, fpc=1, jump=1)], cells, [])


def by_hand():
    cells = [CELLS.get(at, 0) for at in range(256)]
    for name, (insts, finds) in FOUND.items():
        yield tabled(name, insts, cells, finds)
    for name, insts in MISSED.items():
        yield tabled(name, insts, cells, [])
    for fp in (3, 250, P - 1, P - 200):
        three = [deref(20 - fp, 0, 0), add(20 - fp, 21 - fp, 15), deref(21 - fp, 0, 0)]
        yield tabled(f"from fp {fp}", three, cells, [(0, 15)], fp)
    for modes in range(9):
        first, last = (deref(at, 0, mode) for at, mode in zip((20, 21), divmod(modes, 3)))
        yield tabled(f"C of the DEREFs in modes {divmod(modes, 3)}", [first, add(20, 21, 15), last], cells, [(0, 15)])
    yield tabled("to row 510", [NOTHING] * 508 + FOUND["one"][0], cells, [(508, 15)], height=512)
    wide = [0] * 20 + [2**17 - 1] * 2 + [0] * (2**17 - 22)
    yield tabled("t 2^18 - 1", FOUND["one"][0][:1] + [add(20, 21, 2**18 - 1), deref(21, 0, 0)], wide, [(0, 2**18 - 1)])
    yield from loop()


def some_step(choose, value, at, fp):
    """A legal step where every cell is the value: mostly DEREF and ADD in turn, of two cells that are neighbours."""
    x, j, c = ((choose.randrange(7, 9) - fp) % P for _ in range(3))
    mode, beta = choose.randrange(3), choose.choice((0,) * 7 + (1,))
    both = deref(x, c if mode == 1 else value, mode, beta, fp), add(x, j, 2 * value + 1)
    others = (inst(x, c, j, 0, 0, 0, aux=1) if value == 0 else NOTHING, add(x, j, (value + j) % P + 1, fc=1),
              add(x, j, (value + fp + j) % P + 1, fpc=1), add(x, j, (x + value) % P + 1, fa=1),
              inst(x, value * value % P, j, fa=0, fc=0, mul=1),
              inst(choose.randrange(2), at + 1, 0, fc=0, fpc=1, jump=1))
    return choose.choice((both[at % 2],) * 18 + both + others)


def by_chance(choose):
    for turn in range(120):
        value, fp = choose.choice((0, 1, 2, 100, 254)), choose.choice((0, 0, 5, P - 3))
        insts = [some_step(choose, value, at, fp) for at in range(choose.choice((20, 60, 255)))]
        yield tabled(f"by chance {turn}, cells {value}, fp {fp}", insts, [value] * 256, None, fp)


def refused(tables, choose):
    """One table with something wrong, for each verdict of the judge; its finds would be as they were."""
    program, memory, steps, groups = tables.parts
    wrong = [(program[:-1], memory, steps, groups), (program, memory, steps, poke(groups, 9, P)),
             (poke(program, 3, 2), memory, steps, groups), (program, memory, poke(steps, 1, 9), groups),
             (program, memory, poke(steps, 8 * 255 + 7, 1), groups), (program, memory, poke(steps, 8 * 3, 77), groups),
             (program, memory, steps, poke(groups, 30 * choose.randrange(256) + 10, 1)),
             (program, memory, steps, poke(groups, 30 * 7 + 1, 1))]
    for number, parts in enumerate(wrong):
        answer = oracle.judge(*parts[:2], *tables.start, *parts[2:])
        if answer != six(0):
            yield Tables(f"{tables.name}, refused {number}", parts, tables.start, answer, [])


def cases():
    choose = random.Random(108)
    every = [*by_hand(), *by_chance(choose)]
    every += [bad for tables in every[:3] + every[-6:] for bad in refused(tables, choose)]
    for number, tables in enumerate(every):
        need = 8 * len(tables.finds)
        rooms = {need + 40, need, max(need - 1, 0), max(need - 8, 0), need + choose.randrange(1, 8), 0}
        for first, room in enumerate(sorted(rooms, reverse=True)):
            yield Case(tables, room, first == 0)
        if number % 40 == 0:
            yield from (Case(tables, room, False, *lengths) for lengths in LENGTHS for room in (0, need))


def reached(every):
    """Whether there is enough of each verdict, of finds and of none."""
    verdicts = [case.answer[0] for case in every]
    few = [(verdict, verdicts.count(verdict)) for verdict in (*range(8), 13, 19) if verdicts.count(verdict) < 5]
    finds = sum(len(case.finds) for case in every if case.first)
    chance = [len(case.finds) for case in every if case.first and case.tables.name.startswith("by chance")]
    if few or finds < 500 or min(len(FOUND), len(MISSED)) < 25 or sum(chance) < 400:
        yield f"too few cases: {few}, {finds} finds, {chance}"


def main(words_given):
    every = list(cases())
    if words_given == ["cases"]:
        sys.stdout.buffer.write(b"".join(case.given() for case in every))
        return 0
    stream, faults = sys.stdin.buffer, list(reached(every))
    for tables in by_hand():
        faults += tables.by_oracle()
    for case in every:
        faults += case.by_library(stream)
    faults += ["the driver wrote more than was asked for"] * bool(stream.read(1))
    tables = [case for case in every if case.first]
    said = f"ranges: {len(every)} calls on {len(tables)} tables with {sum(len(case.finds) for case in tables)} finds"
    print("\n".join(faults[:20]) or said)
    return bool(faults)


if __name__ == "__main__":
    sys.exit(main(sys.argv[1:]))
