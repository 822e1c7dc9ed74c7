"""The judge of a memory in two buffers through the library: as by hand below, and as tests/oracle_split.py has it.

`split.py cases | target/c/split | split.py compare`: tests/split calls the proved code. Cell k holds 1000 + k wherever
nothing else is said, so that what a lookup finds is known by hand; the oracle must have all of it too. By the oracle
alone are recipes' tables, cut everywhere and damaged by chance.
"""
import random
import struct
import sys
from functools import cached_property
from itertools import product

sys.dont_write_bytecode = True
import oracle
from oracle import ADD, MUL, P, PEQ, bytes_of, ext, poke, rows_of, six, words_of
from oracle_split import LOOKUPS, ROW, at_cut, cut, five, halted, judge_split, looks_up

FILL, BEFORE, HEAD, ANSWER, VERDICT = b"\xa5", 16, struct.Struct("<9Q"), struct.Struct("<6I"), struct.Struct("<IB")
PARTS = (0, 1, 2, 5, 6)  # of the arguments: program, public, rest, tables; 3 and 4 are the start
M = 8


class Case:
    """One call, with its answer by hand if there is one; `told` is the length of the answer's buffer."""

    def __init__(self, name, given, by_hand=None, told=24):
        self.name, self.given, self.by_hand, self.told = name, given, by_hand, told
        self.parts = [given[number] for number in PARTS]
        self.lengths = [len(part) for part in self.parts]

    def follow(self, before):
        """Which parts the case before has not."""
        return [not before or part != old for part, old in zip(self.parts, before.parts if before else self.parts)]

    def bytes(self, before):
        follow = self.follow(before)
        mask = sum(new << bit for bit, new in enumerate(follow))
        head = HEAD.pack(mask, *self.given[3:5], *self.lengths, self.told)
        return head + b"".join(part for part, new in zip(self.parts, follow) if new)

    @cached_property
    def answer(self):
        return six(13) if self.told != 24 else judge_split(*self.given)

    def by_library(self, stream):
        """Faults of the oracle and of what the driver wrote: the verdict, no part changed, and the answer's room."""
        if self.by_hand not in (None, self.answer):
            yield f"oracle: {self.name}: {self.answer}, not {self.by_hand}"
        data = b"" if self.told != 24 else ANSWER.pack(*self.answer)
        wanted = VERDICT.pack(self.answer[0], 0) + (FILL * BEFORE + data).ljust(self.told + 2 * BEFORE, FILL)
        got = stream.read(len(wanted))
        if got != wanted:
            yield f"library: {self.name}: {got.hex():.200}, not {wanted.hex():.200}"


class Lengths(Case):
    """Lengths of a memory whose bytes are not there. The execution table's is bad: part 3 says that they are taken."""

    def __init__(self, parts, first, rest, taken):
        program, _, steps, groups = parts
        given = program, b"", b"", 0, 0, steps[1:], groups
        super().__init__(f"lengths {first} + {rest}", given, six(1, 3 if taken else 2))
        self.lengths[1:3] = first, rest

    def follow(self, before):
        program, _, _, *tables = super().follow(before)
        return program, False, False, *tables, True

    @cached_property
    def answer(self):
        return six(1, 3 if cut(*self.lengths[1:3]) else 2)


def long_lengths():
    """Every cut from 2^7 words to 2^30, and lengths or sums that are good when they are cut to 32 or 64 bits."""
    parts, high = halted(M), 2**32
    for m, below in product(range(7, 31), range(31)):
        if below <= m:
            yield Lengths(parts, 4 << below, (4 << m) - (4 << below), 8 <= m <= 29 and below < m)
    for first, rest in ((4, high + 1020), (high + 4, 1020), (high + 4, high + 1020), (high, high), (high - 4, 4),
                        (high, high**2 + 1024 - high), (high << 2, high**2 + 1024 - (high << 2)),
                        (high << 31, high << 31), (high << 31, (high << 31) + 1024), (4, high**2 - 4),
                        (high**2 - 4, 1028), (high**2 - 1, high**2 - 1), (high**2 - 1, 1025), (512, high**2 - 512)):
        yield Lengths(parts, first, rest, False)


def lengths():
    """Pairs of lengths, taken or not, over one long memory."""
    program, _, steps, groups = halted(M)
    memory = bytes_of(range(1000, 1000 + 3 * 2**10))
    taken = [(4 << k, (4 << m) - (4 << k)) for m in (8, 9, 10, 11) for k in range(m)]
    off = [(a, b) for a, b in product((-4, -1, 0, 1, 4), repeat=2) if a or b]
    refused = [(1024, 0), (0, 1024), (0, 0), (2048, 0), (4096, 0), (0, 2048), (12, 1012), (1012, 12), (4, 0), (0, 4),
               (256, 256), (4, 508), (500, 12), (512, 1024), (1024, 512), (4, 1024), (8, 2044), (4, 2040), (1020, 4),
               (1016, 8), (896, 128), (768, 256), (2, 1022), (3, 1021), (6, 1018), (1023, 1), (1024, 1), (1, 1023),
               (1536, 512), (512, 1532), (1024, 4096), (2048, 1024)]
    refused += [(4 * k + a, 1024 - 4 * k + b) for k in (1, 8, 128) for a, b in off]
    for first, rest in taken + refused:
        parts = program, memory[:first], memory[first:first + rest], 0, 0, steps, groups
        yield Case(f"{first} + {rest} bytes", parts, six(0) if (first, rest) in taken else six(1, 2))


def orders():
    """The lowest part of bad length is told, and before a word."""
    program, memory, steps, groups = halted(M)
    good = [(4 << below, 1024) for below in range(M)]
    for pair, bad in product(good + [(0, 1024), (1024, 1024), (12, 1024), (32, 1023)], product((0, 1), repeat=4)):
        changed = poke(program, 0, P) if bad[3] else program
        given = (changed[:len(changed) - bad[0]], memory[:pair[0]], memory[pair[0]:pair[1]], 0, 0,
                 steps[:len(steps) - 32 * bad[1]], groups + bytes(120 * bad[2]))
        failing = [part for part, fails in zip((1, 2, 3, 4), (bad[0], pair not in good, *bad[1:3])) if fails]
        wanted = six(1, failing[0]) if failing else six(2, 1) if bad[3] else six(0)
        yield Case(f"{pair}, bad {bad}", given, wanted)


def words():
    """Words at or above p about the seam, one or two of them, and in other parts."""
    program, memory, steps, groups = halted(M)
    for below in range(M):
        places = sorted({0, 2**below - 1, 2**below, 255})
        for one, other in product(places, repeat=2):
            bad = poke(poke(memory, one, P), other, 2**32 - 1)
            yield Case(f"words {one}, {other}, cut 2^{below}", at_cut((program, bad, steps, groups), below),
                       six(2, 2, min(one, other)))
        bad = poke(memory, 200, P)
        first, last = (poke(program, 11, P), bad, steps, groups), (program, bad, poke(steps, 0, P), poke(groups, 0, P))
        yield Case(f"program first, cut 2^{below}", at_cut(first, below), six(2, 1, 11))
        yield Case(f"tables last, cut 2^{below}", at_cut(last, below), six(2, 2, 200))


def about(below):
    """The halted run, in all rows of which every lookup is about the seam or the end."""
    parts, seam = halted(M), 2**below
    ones = [k for k in (0, seam - 1, seam, 255) if k >= 0]
    runs = [k for k in (*range(seam - 5, seam + 1), 0, 251) if k >= 0]
    steps, groups = rows_of(words_of(parts[2]), 8), rows_of(words_of(parts[3]), 30)
    for row in range(256):
        cells = [ones[(row + k * (row // 4)) % len(ones)] for k in range(3)]
        steps[row] = steps[row][:2] + (*cells, *(1000 + k for k in cells))
        a, b, r = (runs[(row + k * (row // 8)) % len(runs)] for k in range(3))
        values = [five(parts, k) for k in (a, b, r)]
        groups[row] = groups[row][:5] + (a, b, r, 0, 1000 + a) + values[0] + values[1] + values[2] * 2
    return (*parts[:2], *(bytes_of([word for row in table for word in row]) for table in (steps, groups)))


def lookups():
    """Accepted tables, and each lookup with each of its cells off, about the seam, up to the end and past it."""
    for below in range(M):
        yield Case(f"lookups about 2^{below}", at_cut(about(below), below), six(0))
    for below, (rule, (part, _, _, count)) in product((0, 1, 2, 5, 7), LOOKUPS.items()):
        seam, parts = 2**below, about(below)
        for index in sorted({k for k in range(seam - count, seam + 1) if k >= 0} | {256 - count}):
            for off in range(count):
                values = [1000 + index + k + (k == off) for k in range(count)]
                yield Case(f"rule {rule} from {index}, cut 2^{below}, off {off}",
                           at_cut(looks_up(parts, rule, index, values), below),
                           six(part + 2, part, ROW, rule, 1000 + index + off, 1001 + index + off))
        for index in (*range(257 - count, 257), 256 + seam, P - 1):
            values = (five(parts, index) + (0,))[:count]
            yield Case(f"rule {rule} from {index}, cut 2^{below}", at_cut(looks_up(parts, rule, index, values), below),
                       six(part + 2, part, ROW, 18 if rule == 19 and index > 255 else rule))


def group(operand, index, op, be):
    """The parts of a group of two that has an operand there, and a halt; its result is the oracle's."""
    at = [140, 170, 200]
    at[operand] = index
    cells = [1000 + k for k in range(256)]
    cells[at[2]:at[2] + 5] = oracle.result(tuple(cells), 2 * be + op + 64, *at[:2])
    answer, parts, steps, groups = oracle.run([ext(op, be, 2, *at)], cells)
    if answer != six(0):
        raise ValueError(f"a group of {at}: {answer}")
    return (*parts, steps, groups), at


def groups():
    """Groups across the seam, at each of its four places, accepted and with each value off."""
    columns = ((19, 10), (20, 15), (21, 25))
    for below, operand, before in product((0, 2, 4, 6), range(3), range(1, 5)):
        if before > 2**below:
            continue
        parts, _ = group(operand, 2**below - before, (ADD, MUL, PEQ)[before % 3], below // 2 % 2)
        name = f"operand {operand}, {before} cells before 2^{below}"
        yield Case(name, at_cut(parts, below), six(0))
        rule, first = columns[operand]
        for k in range(5):
            word = words_of(parts[3])[first + k]
            bad = (*parts[:3], poke(parts[3], first + k, (word + 1) % P))
            yield Case(f"{name}, value {k}", at_cut(bad, below), six(6, 4, 0, rule, word, (word + 1) % P))


def verdicts():
    """What is refused wherever the cut is, by hand."""
    parts, _ = group(0, 14, MUL, 0)
    program, memory, steps, pulls = parts
    padding = pulls[-120:]
    for below in range(M):
        _, first, rest, *_ = at_cut(parts, below)
        for name, given, wanted in (
                ("malformed", (poke(program, 12 + 3, 2), first, rest, 0, 0, steps, pulls), six(3, 1, 1)),
                ("start", (program, first, rest, 1, 0, steps, pulls), six(4)),
                ("start of 33 bits", (program, first, rest, 0, 2**32, steps, pulls), six(4)),
                ("frame", (program, first, rest, 0, 0, poke(steps, 8 * 7 + 1, 1), pulls), six(5, 3, 6, 14)),
                ("pc", (program, first, rest, 0, 0, poke(steps, 8 * 9, 2), pulls), six(5, 3, 8, 13)),
                ("flag", (program, first, rest, 0, 0, steps, poke(pulls, 30 * 255 + 3, 2)), six(6, 4, 255, 5)),
                ("nothing pulled", (program, first, rest, 0, 0, steps, padding * 256), six(7, 3, 0)),
                ("nothing pushed", (program, first, rest, 1, 0, steps[-32:] * 256, pulls), six(7, 4, 0))):
            yield Case(f"{name}, cut 2^{below}", given, wanted)


def recipes(choose):
    """Recipes' tables cut everywhere, and damaged: by the oracle alone."""
    for seed, m in ((0, 10), (2**32, 10), (choose.randrange(2**64), 11)):
        parts = oracle.make(2, seed, m, 40)
        _, steps, pulls = oracle.table(*parts, 0, 0, 32 * 256, 120 * 256)
        for below in range(m):
            yield Case(f"recipe {seed:x}, cut 2^{below}", at_cut((*parts, steps, pulls), below), six(0))
            whole, which = [*parts, steps, pulls], choose.randrange(1, 4)
            place = choose.randrange(min(len(whole[which]) // 4, 400))
            whole[which] = poke(whole[which], place, choose.choice((0, 1, 5, 2**below, 2**m - 1, 2**m, P - 1, P)))
            yield Case(f"recipe {seed:x}, cut 2^{below}, part {which + 1} word {place}", at_cut(whole, below))


def answers():
    """Other lengths of the answer, where all else is good, and where not."""
    parts = halted(M)
    for told, below in product((0, 8, 16, 20, 23, 25, 32, 48), (0, 3, 7, 8)):
        yield Case(f"an answer of {told}, cut 2^{below}", at_cut(parts, below), six(13), told)
    yield Case("an answer of 24", at_cut(parts, 0), six(0))


def cases():
    choose = random.Random(109)
    return [*lengths(), *long_lengths(), *orders(), *words(), *lookups(), *groups(), *verdicts(), *recipes(choose),
            *answers()]


def reached(every):
    """Whether there is enough of each verdict, and each for every cut of the small memory."""
    counts = [sum(case.answer[0] == verdict for case in every) for verdict in (*range(8), 13)]
    cuts = {(cut(*case.lengths[1:3]), case.answer[0]) for case in every}
    missing = [(below, verdict) for below, verdict in product(range(M), range(8)) if ((M, below), verdict) not in cuts]
    if min(counts) < 8 or missing:
        yield f"too few cases: {counts} by verdict, none for the cuts and verdicts {missing}"


def main(words_given):
    every = cases()
    if words_given == ["cases"]:
        for case, before in zip(every, [None] + every):
            sys.stdout.buffer.write(case.bytes(before))
        return 0
    stream, faults = sys.stdin.buffer, list(reached(every))
    for case in every:
        faults += case.by_library(stream)
    faults += ["the driver wrote more than was asked for"] * bool(stream.read(1))
    by_hand = sum(case.by_hand is not None for case in every)
    print("\n".join(faults[:20]) or f"split: {len(every)} calls, {by_hand} of them by hand")
    return bool(faults)


if __name__ == "__main__":
    sys.exit(main(sys.argv[1:]))
