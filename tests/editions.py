"""Programs of draft 0.5.0 through the library: words, answers and runs as tests/editions_table.py has them by hand.

`editions.py cases | target/c/editions | editions.py compare`: tests/editions translates, tables and judges by the
proved code. What the table says is compared with tests/oracle_editions.py too, whose machine computes each run again.
"""
import re
import struct
import sys

sys.dont_write_bytecode = True
import oracle
import oracle_editions
from editions_table import PROGRAMS, REFUSED
from oracle import P, six

CELLS, ROWS, FILL, HEAD, ANSWER = 256, 256, b"\xa5", struct.Struct("<5Q"), struct.Struct("<6I")
UNCALLED, GOOD = ANSWER.unpack(FILL * ANSWER.size), "3 8 5  1 1 0  1 0 0 0  0 0  0 0"


def words(text):
    """Numbers, where -k stands for p - k; `pc:fp` and `cell=word` are two."""
    for mark in ":=":
        text = text.replace(mark, " ")
    return tuple(number if number >= 0 else P + number for number in map(int, text.split()))


def program(insts):
    return oracle.bytes_of([word for inst in insts for word in words(inst)])


class Case:
    """What the driver gets, and what it must write."""

    def __init__(self, name, old, answer, room=None, new=None, cells="", start="0:0"):
        self.name, self.old, self.answer, self.new = name, old, answer, new
        self.room = 48 * (len(old) // 56) if room is None else room
        self.pc, self.fp = words(start)
        held = words(cells)
        named = dict(zip(held[::2], held[1::2]))
        self.cells = tuple(named.get(index, 0) for index in range(CELLS))
        self.tabled, self.states, self.judged = UNCALLED, None, UNCALLED

    def given(self):
        memory = oracle.bytes_of(self.cells)
        return HEAD.pack(len(self.old), self.room, len(memory), self.pc, self.fp) + self.old + memory

    def runs(self, run):
        """Takes the tabler's answer and the rows' states from a run as it is written."""
        states, end, rule = re.fullmatch(r"(.+) (stays|open|stuck) ?(\d?)", run).groups()
        self.begins = [words(state) for state in states.split()]
        if end == "stuck":
            self.tabled = six(9, 0, len(self.begins) - 1, int(rule))
        elif end == "open":
            self.tabled = six(11, 0, ROWS - 1)
        else:
            self.tabled = self.judged = six(0)
            self.states = self.begins + self.begins[-1:] * (ROWS - len(self.begins))
        return self


def translated():
    for name, cells, start, insts, run in PROGRAMS:
        old, new = zip(*(inst.split(" -> ") for inst in insts))
        yield Case(name, program(old), six(0), new=program(new), cells=cells, start=start).runs(run)


def refused():
    """Each reason at places 0 and 2 with another behind it; then SIZE and WORD, which come first."""
    for name, inst in REFUSED:
        for place in (0, 2):
            yield Case(f"{name}, at {place}", program([GOOD] * place + [inst, GOOD, REFUSED[0][1]]), six(15, 0, place))
    two, bad = program([GOOD, GOOD]), program([REFUSED[0][1], GOOD])
    for size in (0, 1, 55, 57, 111, 113):
        yield Case(f"old of {size} bytes", (two + two)[:size], six(1, 1), room=96)
    for room in (0, 47, 48, 95, 97, 112, 144):
        yield Case(f"program of {room} bytes", bad, six(1, 1), room=room)
    for place in (0, 5, 13, 14, 27):
        yield Case(f"word {place}", oracle.poke(bad, place, P + place), six(2, 1, place))
    yield Case("no byte at all", b"", six(1, 1))


def differences(case, found):
    """Between what was found and the table, by name."""
    answer, new, tabled, rows, judged = found
    wanted = FILL * case.room if case.new is None else case.new
    states = [row[:2] for row in oracle.rows_of(oracle.words_of(rows), 8)] if case.states else None
    for name, got, right in (("answer", answer, case.answer), ("tabler", tabled, case.tabled),
                             ("judge", judged, case.judged), ("states", states, case.states)):
        if got != right:
            yield f"{case.name}: {name} {got!r:.120}, not {right!r:.120}"
    for place in [place for place in range(case.room) if new[place] != wanted[place]][:1]:
        yield f"{case.name}: byte {place % 48} of instruction {place // 48} is {new[place]}, not {wanted[place]}"


def by_oracle(case):
    """The same of the Python implementation: its translation, and its own run of the old program."""
    answer, new = oracle_editions.translate(case.old, case.room)
    tabled, rows = UNCALLED, b""
    if answer[0] == 0:
        code = oracle.rows_of(oracle.words_of(case.old), 14)
        tabled, states = oracle_editions.old_run(code, case.cells, case.pc, case.fp, ROWS)
        rows = oracle.bytes_of([word for state in states for word in (*state, *[0] * 6)])
        if states[:len(case.begins)] != case.begins[:len(states)]:
            yield f"{case.name}: the oracle's run begins {states[:len(case.begins)]}, not {case.begins}"
    yield from differences(case, (answer, FILL * case.room if new is None else new, tabled, rows, case.judged))


def by_library(case, stream):
    """What the driver wrote of the case."""
    sizes = ANSWER.size, case.room, ANSWER.size, 32 * ROWS, ANSWER.size
    parts = [stream.read(size) for size in sizes]
    if [len(part) for part in parts] != list(sizes):
        yield f"{case.name}: the driver stopped"
        return
    answers = [ANSWER.unpack(parts[k]) for k in (0, 2, 4)]
    yield from differences(case, (answers[0], parts[1], answers[1], parts[3], answers[2]))


def reached(cases):
    """Whether the table has each translatable form, and each rule by which a run is stuck."""
    forms = {inst[3:] for case in cases if case.new for inst in oracle.rows_of(oracle.words_of(case.old), 14)}
    rules = {case.tabled[3] for case in cases if case.tabled[0] == 9}
    if len(forms) != 27 or rules != {1, 2, 3, 4, 5, 6}:
        yield f"the table has {len(forms)} forms of 27, and runs stuck by rules {sorted(rules)}"


def main(words_given):
    cases = [*translated(), *refused()]
    if words_given == ["cases"]:
        sys.stdout.buffer.write(b"".join(case.given() for case in cases))
        return 0
    stream, faults = sys.stdin.buffer, [*reached(cases)]
    for case in cases:
        faults += [f"oracle: {fault}" for fault in by_oracle(case)]
        faults += [f"library: {fault}" for fault in by_library(case, stream)]
    faults += ["the driver wrote more than was asked for"] * bool(stream.read(1))
    print("\n".join(faults) or f"editions: {len(PROGRAMS)} programs and {len(cases) - len(PROGRAMS)} refusals")
    return bool(faults)


if __name__ == "__main__":
    sys.exit(main(sys.argv[1:]))
