"""Both versions of a recipe: seeds at version 2's edges, and checks of the oracle's labels and cells.

Sources: document 02's M-103 ("02, M-103"), document 01 ("01, <heading>") and the founders' decided points 2, 5 and 16.
tests/oracle.py, run as a program, runs the checks below too.
"""

import oracle
from oracle import BOUND, P, draw, label, make, read_label, six

# Of the 2^64 seeds 271 throw away their first eight draws, and of one the ninth is as large: lattice points in a box.
EIGHT, NINE = (0x00FFDB37CB0C5F43, 0x7EC17CC095A397D9), 0xF145D301722DD9A0
BAD_VERSIONS = (0, 3, 2**31, 2**32 - 1)

def before(state, draws):
    """The state so many draws earlier: the generator run backwards (01, Draws, recipe, label)."""
    for _ in range(draws):
        state = (state - 1442695040888963407) * pow(6364136223846793005, -1, 2**64) % 2**64
    return state

def drawing(number, draws):
    """A seed whose draw of that number, counted from 1, is the one given (01, Draws, recipe, label)."""
    return before(number << 32 | 0x9E3779B9, draws)

def all_draws(seed, count):
    """The first draws of a seed (01, Draws, recipe, label)."""
    numbers = []
    for _ in range(count):
        number, seed = draw(seed)
        numbers.append(number)
    return numbers

def thrown(seed):
    """How many draws version 2 throws away for each of the 32 cells (02, M-103)."""
    numbers, counts = all_draws(seed, 32 * 9), []
    for _ in range(32):
        large = [number >= BOUND for number in numbers[:8]] + [False]
        counts.append(large.index(False))
        numbers = numbers[counts[-1] + 1:]
    return counts

# ---- self-check ----
def check_edges(check):
    """The bound, and what the seeds above are (02, M-103)."""
    check("each word has two draws below the bound", (BOUND, BOUND % P, BOUND // P), (2 * P, 0, 2))
    check("three draws for words below this", 2**32 - BOUND, 33554430)
    for seed in EIGHT:
        numbers = all_draws(seed, 9)
        check("%016x" % seed, (min(numbers[:8]) >= BOUND, numbers[8] < BOUND, thrown(seed)[0]), (True, True, 8))
    check("%016x" % NINE, (min(all_draws(NINE, 9)) >= BOUND, all_draws(NINE, 9)[8]), (True, 4273307063))
    for number in (BOUND - 1, BOUND, 2**32 - 1):
        check("drawing %d" % number, all_draws(drawing(number, 5), 5)[4], number)

def cells_of(version, seed):
    """The 32 drawn cells as the maker leaves them, and its first instruction (01, Draws, recipe, label)."""
    program, memory = make(version, seed, 10, 1)
    return list(oracle.words_of(memory)[:32]), oracle.words_of(program)[:12]

def check_cells(check, seed):
    """Cells by counting draws: the last of a cell's is taken, the instruction's three follow (02, M-103; point 16)."""
    numbers, at, cells = all_draws(seed, 32 * 9 + 3), -1, []
    for count in thrown(seed):
        at += count + 1
        cells.append(numbers[at] % P)
    check("cells of version 2, %016x" % seed, cells_of(2, seed)[0], cells)
    check("cells of version 1, %016x" % seed, cells_of(1, seed)[0], [number % P for number in numbers[:32]])
    for version, first in ((1, 32), (2, at + 1)):
        words, jumps = cells_of(version, seed)[1], numbers[first] % 5 == 3
        check("instruction of version %d, %016x" % (version, seed), bool(words[9]), jumps)
    if not any(thrown(seed)):
        check("nothing thrown away, %016x" % seed, make(2, seed, 10, 124), make(1, seed, 10, 124))

def check_bound(check):
    """A draw at the bound is thrown away and the one before it is not, in the first cell and the last (02, M-103)."""
    for place in (1, 32):
        for number, count in ((BOUND - 1, 0), (BOUND, 1), (2**32 - 1, 1), (0, 0)):
            seed = drawing(number, place)
            wanted = all_draws(seed, place + count)[-1] % P
            check("draw %d is %d" % (place, number), cells_of(2, seed)[0][place - 1], wanted)
    check("p - 1 is drawn", cells_of(2, drawing(BOUND - 1, 1))[0][0], P - 1)
    check("the ninth draw is taken", cells_of(2, NINE)[0][0], 4273307063 - 2 * P)
    check("the ninth draw of 00ffdb37cb0c5f43", cells_of(2, EIGHT[0])[0][0], 1030086921)
    check("an instruction's draws are taken", cells_of(2, before(EIGHT[0], 32)), cells_of(1, before(EIGHT[0], 32)))

def refuses(call, *recipe):
    """Whether a recipe is out of range (point 2)."""
    try:
        call(*recipe)
    except ValueError:
        return True
    return False

def check_labels(check):
    """Labels of either version, every byte where it stands, and every cut (02, M-103; points 2 and 5)."""
    ok, nothing = six(0), (0,) * 4
    for version in (1, 2):
        good = label(version, 0x12FFFFFFF, 10, 124)
        check("label of version %d" % version, read_label(good), ok + (version, 0x12FFFFFFF, 10, 124))
        for end in range(len(good)):
            check("version %d cut at %d" % (version, end), read_label(good[:end]), six(8, 0, end) + nothing)
        for byte in range(256):
            wanted = {ord("1"): ok + (1, 0x12FFFFFFF, 10, 124), ord("2"): ok + (2, 0x12FFFFFFF, 10, 124)}
            text = good[:2] + bytes([byte]) + good[3:]
            check("version's byte %d" % byte, read_label(text), wanted.get(byte, six(8, 0, 2) + nothing))
        for more in (b"1", b"2", b"0"):
            check("two digits", read_label(good[:3] + more + good[3:]), six(8, 0, 3) + nothing)
    for version in BAD_VERSIONS:
        for call in (label, make):
            check("version %d is out of range" % version, refuses(call, version, 0, 10, 1), True)

def check_recipes(check):
    """Whole recipes of version 2 are tabled and accepted (01, Draws, recipe, label; 02, M-103)."""
    for seed in (0, 1, 0x12FFFFFFF, 2**64 - 1, NINE, *EIGHT):
        parts = make(2, seed, 10, 124)
        answer, steps, groups = oracle.table(*parts, 0, 0, 32 * 256, 120 * 256)
        check("recipe %016x" % seed, (answer, oracle.judge(*parts, 0, 0, steps, groups)), (six(0),) * 2)

def self_check():
    """M-103's own checks; (passed, failed)."""
    passed, failed = [], []

    def check(name, got, wanted):
        (passed if got == wanted else failed).append("%s: got %r, wanted %r" % (name, got, wanted))

    check_edges(check)
    for start in (*EIGHT, NINE, drawing(BOUND, 1), drawing(BOUND - 1, 32)):
        for draws in (0, 1, 5, 24, 25, 31, 32, 33, 40):  # the run of large draws at, across and after the last cell
            check_cells(check, before(start, draws))
    for seed in range(60):
        check_cells(check, seed)
    check_bound(check)
    check_labels(check)
    check_recipes(check)
    return passed, failed
