"""Small tables for the program `test_trials`, and what it must print of them, computed by the second implementation (tests/oracle.py).

  python3 tests/trials.py stdin     the program's standard input
  python3 tests/trials.py stdout    what it must write
  python3 tests/trials.py names     a name for each line of that

Each case states the answer that it is made for, and the generator fails where the second implementation answers otherwise."""
import functools
import struct
import sys

sys.dont_write_bytecode = True
import oracle
import trials_input
import trials_judge
import trials_tabler
from trials_parts import EXEC, EXEC_LOOKUPS, EXT, EXT_LOOKUPS

CAPACITY = 65536  # bytes in each of the program's buffers
WIDTHS = (48, 64, 32, 120)  # bytes that are compared at once: a row of each part, or some cells
DIRT = b"\xd1"  # what the tables hold before the tabler: four of it are no word


@functools.lru_cache(8)
def checksum(data):
    """The bytes as digits to the base 257, behind a 1."""
    total = 1
    for byte in data:
        total = (total * 257 + byte) % (2**55 - 55)
    return total


def differences(old, new, width):
    """(at, bytes, stop): the bytes from `at` on, again and again up to `stop`, make old new. Equal rows are written once."""
    at = 0
    while at < len(new):
        row = new[at:at + width]
        stop = at + len(row)
        while new[stop:stop + width] == row:
            stop += width
        if old[at:stop] != new[at:stop]:
            changed = [i for i in range(at, stop) if old[i] != new[i]]
            low, high = changed[0], changed[-1] + 1
            if high - low <= width:
                yield low, new[low:high], high
            else:
                yield at, row[:(row + row).find(row, 1)], stop
        at = stop


class Trials:
    """The program's parts as the commands so far left them, those commands, and the lines that they print."""

    def __init__(self):
        self.buffers = [bytearray(CAPACITY) for _ in WIDTHS]
        self.lengths = [0] * 4
        self.start = (0, 0)
        self.stdin = bytearray()
        self.stdout = bytearray()
        self.names = []
        self.seen = set()

    def command(self, kind, part=0, at=0, size=0, stop=0, body=b""):
        self.stdin += kind + struct.pack("<BHHH", part, at, size, stop) + body

    def hand_in(self, parts, start):
        """Commands for what differs from what is handed in already."""
        for part, (buffer, data, width) in enumerate(zip(self.buffers, parts, WIDTHS), 1):
            for at, body, stop in differences(bytes(buffer[:len(data)]), data, width):
                self.command(b"F", part, at, len(body), stop, body)
            buffer[:len(data)] = data
            if self.lengths[part - 1] != len(data):
                self.lengths[part - 1] = len(data)
                self.command(b"L", part, len(data))
        if self.start != start:
            self.start = start
            self.command(b"S", body=struct.pack("<QQ", *start))

    def line(self, name, numbers):
        self.names.append(name)
        self.stdout += b"".join(b"%d " % n for n in numbers) + b"\n"

    def judge(self, name, wanted, parts, start):
        """The judge on four parts. `wanted` is the answer that the case is made for, or None where the caller looks at it itself."""
        program, memory, steps, groups = parts
        self.hand_in(parts, start)
        self.command(b"J")
        answer = oracle.judge(program, memory, *start, steps, groups)
        assert wanted in (None, answer), (name, answer, wanted)
        self.seen.add((b"J", answer[0], answer[3], any(answer[4:])))
        self.line(name, answer)
        return answer

    def table(self, name, wanted, program, memory, start, exec_len=32 * 256, ext_len=120 * 256):
        """The tabler on tables that hold dirt, and the judge on what it left."""
        before = DIRT * exec_len, DIRT * ext_len
        self.hand_in((program, memory) + before, start)
        self.command(b"T")
        answer, *after = oracle.table(program, memory, *start, exec_len, ext_len)
        assert answer == wanted, (name, answer, wanted)
        self.seen.add((b"T", answer[0], answer[3], any(answer[4:])))
        steps, groups = before if answer[0] in (1, 2, 3, 4) else after
        self.line(name, answer + (checksum(steps), checksum(groups)))
        self.buffers[EXEC - 1][:exec_len] = steps
        self.buffers[EXT - 1][:ext_len] = groups
        judged = self.judge(name + ", judged", None, (program, memory, steps, groups), start)
        assert (judged[0] == 0) == (answer[0] == 0), (name, answer, judged)


def covered(seen):
    """Each verdict and rule has been the answer to some case; lookups with words and without, no other with words."""
    plain = {(kind, verdict, 0) for kind, verdicts in ((b"J", (0, 1, 2, 3, 4, 7)), (b"T", (0, 1, 2, 3, 4, 10, 11))) for verdict in verdicts}
    ruled = {(b"J", 5, r) for r in range(1, 17)} | {(b"J", 6, r) for r in range(1, 22)} | {(b"T", 9, r) for r in range(1, 9)}
    told = {(b"J", 5, r) for r in EXEC_LOOKUPS} | {(b"J", 6, r) for r in EXT_LOOKUPS}
    return seen == {(*case, False) for case in plain | ruled} | {(*case, True) for case in told}


def main(what):
    trials = Trials()
    trials_input.cases(trials)
    trials_judge.cases(trials)
    trials_tabler.cases(trials)
    assert covered(trials.seen)
    if what == "names":
        for number, name in enumerate(trials.names, 1):
            print(number, name)
    else:
        sys.stdout.buffer.write(trials.stdin if what == "stdin" else trials.stdout)


main(sys.argv[1])
