"""What any recipe makes runs to its jump to itself and is accepted, with room to spare: why no verdict is number 12.

Sources: document 02's M-107 ("02, M-107"), document 01 ("01, <heading>") and the founders' decided point 27.
tests/oracle.py, run as a program, runs the checks below too.
"""

from itertools import product

import oracle
from oracle import VERSIONS, judge, make, rows_of, six, table, words_of
from oracle_versions import EIGHT, NINE

LEAST = 256  # of H and of K
# both ends, some that differ in the upper half alone, and those that throw away most draws
SEEDS = (0, 1, 2**63, 2**64 - 1, 0x000000002FFFFFFF, 0x000000012FFFFFFF, 0xFFFFFFFF2FFFFFFF, *EIGHT, NINE)
LENGTHS = (1, 2, 62, 123, 124)
FORMS = 17  # of what is made, but for cells: three kinds, two conditions, and N, operation and be of an extension
# By either version all of its first sixteen instructions are extensions with N 2. The low 33 bits of a state decide
# which c are odd, so those were chosen first and the others searched.
FULL, FULL_LENGTH = 0x3982ECCE0872B501, 16

def lengths(code):
    """N of each extension instruction (01, Well-formed instructions)."""
    return [words[11] // 32 for words in code if words[8:11] == (0, 0, 0)]

def form(words):
    """A made instruction but for its cells: opcode words and DATA, and a JUMP's condition (01, Draws, recipe)."""
    return words[8:] + words[:1] * words[9]

def firsts(version):
    """The least seed for each form that a first instruction has (01, Draws, recipe)."""
    seeds = {}
    for seed in range(400):
        seeds.setdefault(form(words_of(make(version, seed, 10, 1)[0])[:12]), seed)
    return list(seeds.values())

# ---- self-check ----
def check_states(check, name, n, steps):
    """Before row r pc is min(r, n) and fp is 0, so it stays on instruction n within the rows (02, M-107)."""
    states = [row[:2] for row in rows_of(words_of(steps), 8)]
    check("%s: rows with another state" % name, [r for r, state in enumerate(states) if state != (min(r, n), 0)], [])

def check_rows(check, name, used, groups, cells):
    """As many rows have an operation as the lengths add up to; all others are padding (01, The tabler; 02, M-107)."""
    rows, padding = rows_of(words_of(groups), 30), (1, 0, 0, 0, 1, 0, 0, 0, 0, cells[0]) + cells[:5] * 4
    active = [r for r, row in enumerate(rows) if sum(row[1:4]) != 0]
    check("%s: rows with an operation" % name, active, list(range(used)))
    check("%s: rows with none and no padding" % name, [r for r in range(used, len(rows)) if rows[r] != padding], [])

def check_run(check, recipe, height=LEAST, room=LEAST):
    """A recipe's run, tabled and judged; gives the sum of its lengths (02, M-107)."""
    program, memory = make(*recipe)
    code, n = rows_of(words_of(program), 12), recipe[3]
    used, name = sum(lengths(code[:n])), "v=%d seed=%016x m=%d n=%d" % recipe + ", H %d, K %d" % (height, room)
    answer, steps, groups = table(program, memory, 0, 0, 32 * height, 120 * room)
    check("%s: tabled" % name, answer, six(0))
    check("%s: at most 2n rows, and one to spare" % name, (used <= 2 * n, used < LEAST), (True, True))
    if answer == six(0):
        check("%s: judged" % name, judge(program, memory, 0, 0, steps, groups), six(0))
        check_states(check, name, n, steps)
        check_rows(check, name, used, groups, words_of(memory))
    return used

def check_larger(check):
    """More rows of either table, and more memory (02, M-107; 01, Layouts)."""
    for version, (height, room) in product(VERSIONS, ((512, 256), (256, 512), (512, 512))):
        for seed, m, n in ((NINE, 10, 124), (0xFFFFFFFF2FFFFFFF, 11, 123), (2**64 - 1, 16, 1)):
            check_run(check, (version, seed, m, n), height, room)
    for version, m, n in product(VERSIONS, (11, 16), (1, 124)):
        check_run(check, (version, 0x12FFFFFFF, m, n))

def check_full(check):
    """The bound is reached: every instruction an extension with N 2 (01, Draws, recipe; 02, M-107)."""
    for version, n in product(VERSIONS, (1, FULL_LENGTH - 1, FULL_LENGTH)):
        check("all of 2n rows, version %d, n %d" % (version, n), check_run(check, (version, FULL, 10, n)), 2 * n)

def self_check():
    """M-107's own checks; (passed, failed)."""
    passed, failed = [], []

    def check(name, got, wanted):
        (passed if got == wanted else failed).append("%s: got %r, wanted %r" % (name, got, wanted))

    check("no verdict is number 12", oracle.NAMES[12] is None, True)
    for version in VERSIONS:
        seeds = firsts(version)
        check("forms of a first instruction, version %d" % version, len(seeds), FORMS)
        for recipe in [*product(SEEDS, (10,), LENGTHS), *product(seeds, (10,), (1,))]:
            check_run(check, (version, *recipe))
    check_larger(check)
    check_full(check)
    return passed, failed
