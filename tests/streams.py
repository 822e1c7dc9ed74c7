"""Jumps and hosts through the library: by hand, and as tests/oracle_streams.py has them.

`streams.py cases | target/c/streams | streams.py compare`: tests/streams calls the proved code. By hand are states that
document 01's numbers and the generator's own period give, every edge of a host and every wrong length, which the oracle
must have too. Every jump of up to a million draws is compared with as many single advances.
"""
import random
import struct
import sys

sys.dont_write_bytecode = True
import oracle_streams
from oracle import six

JUMP, HOST, TWICE, WALK = range(4)
NAMES = ("jump", "host", "two jumps", "walk")
FILL, ROOM, BEFORE = b"\xa5", 64, 16
HEAD, NUMBER, ANSWER, WALKED = struct.Struct("<6Q"), struct.Struct("<Q"), struct.Struct("<6I"), struct.Struct("<3Q")
INCREMENT, STATES, MILLION = 1442695040888963407, 2**64, 10**6
MIXED = 0x0123456789ABCDEF
# (state, draws, state after them). One draw from 0 is the increment, from 1 the multiplier more. The period is 2^64,
# and 2^k draws change bit k and none below: 2^63 change the highest bit alone, and one less than 2^64 is a step back.
# The last four were walked once, draw by draw.
BY_HAND = (
    (0, 0, 0), (MIXED, 0, MIXED), (STATES - 1, 0, STATES - 1),
    (0, 1, INCREMENT), (1, 1, 7806831264735756412), (2**32, 1, 6961151790551630159), (0, 2, 1876011003808476466),
    (INCREMENT, STATES - 1, 0), (7806831264735756412, STATES - 1, 1), (1876011003808476466, STATES - 2, 0),
    (0, 2**63, 2**63), (1, 2**63, 2**63 + 1), (MIXED, 2**63, 0x8123456789ABCDEF), (STATES - 1, 2**63, 2**63 - 1),
    (INCREMENT, 2**63 - 1, 2**63), (2**63, 2**63 + 1, INCREMENT),
    (0, 2**32, 0x4C575B0500000000), (MIXED, 2**32, 0x9E748EC889ABCDEF),
    (1, 5 * 10**9, 0x082DA0D34C744201), (MIXED, 5 * 10**9, 0x7613F680B9367FEF),
)
# (seed, host, its start). Of 0 and 1 by one draw's pair, doubled forty times; all other hosts on from there lead back.
FIRST_HOST = 0x575B050000000000
HOSTS_BY_HAND = (
    (0, 1, FIRST_HOST), (1, 1, 0xCEAE690000000001), (FIRST_HOST, 2**24 - 1, 0), (0xCEAE690000000001, 2**24 - 1, 1),
    (0, 2**23, 2**63), (MIXED, 2**23, 0x8123456789ABCDEF), (STATES - 1, 2**23, 2**63 - 1),
)
FIRST_DRAWS = {0: 335903614, 1: 1817669548, 2**32: 1620769451}  # document 01's, by their seed
TAKEN = (0, 1, 2, 2**23, 2**24 - 2, 2**24 - 1)
REFUSED = (2**24, 2**24 + 1, 2**25, 2**32 - 1, 2**32, 2**32 + 1, 2**32 + 2**24 - 1, 2**40, 2**40 + 1, 2**48, 2**56,
           2**63, 2**63 + 1, STATES - 1)
NEXT_LENGTHS, ANSWER_LENGTHS = (0, 4, 7, 8, 9, 16, 24), (0, 8, 16, 23, 24, 25, 32)


class Case:
    """One call, or two jumps, and what it must give; no state where nothing is written."""

    def __init__(self, asked, state, numbers, answer, after=None, lengths=(8, 24)):
        self.asked, self.state, self.numbers, self.answer, self.after = asked, state, numbers, answer, after
        self.lengths = lengths
        self.name = f"{NAMES[asked]} from {state:016x} of {numbers}, next and answer of {lengths}"

    def given(self):
        return HEAD.pack(self.asked, self.state, *(*self.numbers, 0)[:2], *self.lengths)

    def wanted(self):
        """What the driver writes of it, in parts: the rooms hold what they held before and behind the buffers."""
        written = b"", b""
        if self.answer[0] != 13:
            written = NUMBER.pack(self.after), ANSWER.pack(*self.answer)
        rooms = [(FILL * BEFORE + bytes_written).ljust(ROOM, FILL) for bytes_written in written]
        return (("verdict", NUMBER.pack(self.answer[0])), *zip(("next", "answer"), rooms))

    def by_oracle(self):
        found = self.answer, self.after
        if self.asked == HOST and self.answer[0] != 13:
            found = oracle_streams.host(self.state, *self.numbers)
        elif self.answer[0] != 13:
            found = six(0), oracle_streams.jump(self.state, sum(self.numbers) % STATES)
        if found != (self.answer, self.after):
            yield f"oracle: {self.name}: {found}, not {self.answer}, {self.after:016x}"

    def by_library(self, stream):
        for part, wanted in self.wanted():
            found = stream.read(len(wanted))
            if found != wanted:
                yield f"library: {self.name}: {part} {found.hex()}, not {wanted.hex()}"


class Walk:
    """Every jump of up to so many draws beside single advances; the last of them is the oracle's too."""

    def __init__(self, state, most):
        self.asked, self.state, self.most = WALK, state, most

    def given(self):
        return HEAD.pack(WALK, self.state, self.most, 0, 8, 24)

    def by_oracle(self):
        return ()

    def by_library(self, stream):
        differing, least, after = WALKED.unpack(stream.read(WALKED.size).ljust(WALKED.size, FILL))
        if differing:
            yield f"library: from {self.state:016x} {differing} jumps of up to {self.most} differ, first of {least}"
        if after != oracle_streams.jump(self.state, self.most + 1):
            yield f"oracle: from {self.state:016x} {self.most + 1} advances come to {after:016x}"


def by_hand():
    """The states above, and the same in two jumps that together go round once more."""
    for state, draws, after in BY_HAND:
        yield Case(JUMP, state, (draws,), six(0), after)
        yield Case(TWICE, state, (draws, 0), six(0), after)
        yield Case(TWICE, state, (2**63, (draws + 2**63) % STATES), six(0), after)
        yield Case(TWICE, state, (draws, -draws % STATES), six(0), state)
    for state in (0, 1, MIXED, STATES - 1):
        yield Case(TWICE, state, (2**63, 2**63), six(0), state)
        yield Case(TWICE, state, (STATES - 1, 1), six(0), state)


def hosts(choose):
    """Those above, host 0 and what is refused by hand, the others by the oracle."""
    for seed, number, start in HOSTS_BY_HAND:
        yield Case(HOST, seed, (number,), six(0), start)
    for seed in (0, 1, MIXED, 2**63, STATES - 1, choose.getrandbits(64)):
        yield Case(HOST, seed, (0,), six(0), seed)
        for number in REFUSED:
            yield Case(HOST, seed, (number,), (18, 0, 0, 0, 0, 0), seed)
        for number in TAKEN + tuple(choose.getrandbits(choose.randint(1, 24)) for _ in range(200)):
            yield Case(HOST, seed, (number,), *oracle_streams.host(seed, number))


def other_lengths():
    """ANSWER, with numbers that are taken and before HOST; the one pair that is right is no case here."""
    for next_len in NEXT_LENGTHS:
        for answer_len in ANSWER_LENGTHS:
            for asked, number in ((JUMP, 0), (JUMP, STATES - 1), (HOST, 1), (HOST, 2**24), (HOST, STATES - 1)):
                if (next_len, answer_len) != (8, 24):
                    yield Case(asked, MIXED, (number,), six(13), None, (next_len, answer_len))


def some_draws(choose):
    """Of any width, one bit, all bits, or any."""
    width = choose.randint(0, 63)
    return choose.choice((2**width, 2**width - 1, STATES - 1 - width, choose.getrandbits(width + 1),
                          choose.getrandbits(64)))


def by_chance(choose):
    """Jumps by the oracle, alone and in two of which it knows the sum alone."""
    for _ in range(3000):
        state, draws, more = choose.getrandbits(64), some_draws(choose), some_draws(choose)
        yield Case(JUMP, state, (draws,), six(0), oracle_streams.jump(state, draws))
        yield Case(TWICE, state, (draws, more), six(0), oracle_streams.jump(state, (draws + more) % STATES))
    for width in range(64):
        yield Case(JUMP, MIXED, (2**width,), six(0), oracle_streams.jump(MIXED, 2**width))
        yield Case(TWICE, MIXED, (2**width, 2**width), six(0), oracle_streams.jump(MIXED, 2**(width + 1)))


def cases():
    choose = random.Random(106)
    yield from by_hand()
    yield from hosts(choose)
    yield from other_lengths()
    yield from by_chance(choose)
    for seed in (0, MIXED, choose.getrandbits(64)):
        yield Walk(seed, MILLION)


def kept(every):
    """Hosts that are taken keep the lower 40 bits of their seed, and no two of one seed start alike."""
    starts = {}
    for case in every:
        if case.asked == HOST and case.answer[0] == 0:
            starts.setdefault((case.state, case.after), set()).update(case.numbers)
            if (case.after ^ case.state) % 2**40:
                yield f"{case.name}: {case.after:016x} has other bits below the 40th"
    yield from (f"hosts {numbers} of one seed start alike" for numbers in starts.values() if len(numbers) > 1)


def reached(every):
    """Whether enough of each kind is there, and document 01's first draws."""
    firsts = {state: after >> 32 for state, draws, after in BY_HAND if draws == 1}
    if firsts != FIRST_DRAWS:
        yield f"document 01's first draws are {FIRST_DRAWS}, not {firsts}"
    asked = [(case.asked, case.answer[0]) for case in every if case.asked != WALK]
    counts = [asked.count(which) for which in ((JUMP, 0), (TWICE, 0), (HOST, 0), (HOST, 18), (JUMP, 13), (HOST, 13))]
    if min(counts) < 80:
        yield f"too few cases: {counts}"


def main(words_given):
    every = list(cases())
    if words_given == ["cases"]:
        sys.stdout.buffer.write(b"".join(case.given() for case in every))
        return 0
    stream, faults = sys.stdin.buffer, [*reached(every), *kept(every)]
    for case in every:
        faults += case.by_oracle()
        faults += case.by_library(stream)
    faults += ["the driver wrote more than was asked for"] * bool(stream.read(1))
    walks = [case for case in every if case.asked == WALK]
    said = f"streams: {len(every) - len(walks)} calls, and every jump of up to {MILLION} draws from {len(walks)} seeds"
    print("\n".join(faults[:20]) or said)
    return bool(faults)


if __name__ == "__main__":
    sys.exit(main(sys.argv[1:]))
