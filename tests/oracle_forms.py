"""Form counts over a campaign and their report, written from the documents alone as tests/oracle.py is.

Sources: document 02's M-100 ("02, M-100"), document 01 ("01, <heading>") and the founders' decided points 14 and 28.
A grid is a tuple of 135 Python integers. tests/oracle.py, run as a program, runs the checks below too.
"""

import struct
from itertools import product

import oracle

KINDS, MODES = ("add", "mul", "deref", "jump", "ext"), ("imm", "cell", "fp")
FORMS = [".".join(names) for names in product(KINDS, MODES, MODES, MODES)]  # grid order: kind slowest, C fastest
FRESH, OK = (0,) * len(FORMS), oracle.six(0)
LIMIT = 2**63 - 1

def grid_of(data):
    """The 135 counters of a C call's grid (02, M-100; point 28)."""
    return struct.unpack("<135Q", data)

def bytes_of(grid):
    """The inverse of grid_of (02, M-100; point 28)."""
    return struct.pack("<135Q", *grid)

def form(instruction):
    """The name of a well-formed instruction's form (01, Well-formed instructions; 02, M-100)."""
    fa, fb, fc, fpc, fpab, mul, jump, aux, _ = instruction[3:]
    kind = {(0, 0, 1): "add", (1, 0, 0): "mul", (0, 0, 2): "deref", (0, 1, 0): "jump", (0, 0, 0): "ext"}[mul, jump, aux]
    flags = (fa, fpab), (fb, fpab), (fc, fpc)
    return ".".join((kind, *("imm" if immediate else "fp" if relative else "cell" for immediate, relative in flags)))

def count(program, memory, pc, fp, exec_table, ext_table, grid):
    """(answer, grid after the tables) (02, M-100; point 14)."""
    answer = oracle.judge(program, memory, pc, fp, exec_table, ext_table)
    if answer[0] != 0:
        return answer, grid
    steps = oracle.rows_of(oracle.words_of(exec_table), 8)
    if sum(grid) + len(steps) > LIMIT:
        return oracle.six(14), grid
    code, after = oracle.rows_of(oracle.words_of(program), 12), list(grid)
    for row in steps:
        after[FORMS.index(form(code[row[0]]))] += 1
    return answer, tuple(after)

def report(grid, room=None):
    """(answer, text) for a buffer of so many bytes, or a long one; no text on refusal (02, M-100; point 14)."""
    text = "".join("%s=%d\n" % line for line in zip(FORMS, grid) if line[1] != 0).encode()
    if room is not None and len(text) > room:
        return oracle.six(1, 5, len(text)), b""
    return oracle.six(0), text

# ---- self-check ----
def possible():
    """The forms of all well-formed instructions: they depend on no operand, nor on N (01, Well-formed instructions)."""
    data = (0, 1, 4, 32, 36, 38, 40, 48, 50, 64)
    every = product(*[range(3)] * 5, range(3), range(3), range(4), data)
    return {form(found) for found in ((0, 0, 0) + words for words in every) if oracle.well_formed(found)}

def said_possible():
    """The same by the kinds' operands in words (01, Well-formed instructions and The machine, without flags)."""
    two, three = ("imm", "cell"), MODES
    wanted = [("add", two, two, three), ("mul", two, two, three), ("deref", ("cell",), ("imm",), three),
              ("jump", two, two, ("cell", "fp")), ("ext", two, two, three), ("ext", ("fp",), ("fp",), three)]
    return {".".join(names) for kind, *modes in wanted for names in product((kind,), *modes)}

def instruction_of(name):
    """An instruction of a possible form; with operands 0, memory 0 and fp 0 its step is legal (01, The machine)."""
    kind, *modes = name.split(".")
    a, b, c = ((mode == "imm", mode == "fp") for mode in modes)
    return oracle.inst(fa=int(a[0]), fb=int(b[0]), fc=int(c[0]), fpc=int(c[1]), fpab=int(a[1]), mul=int(kind == "mul"),
                       jump=int(kind == "jump"), aux={"add": 1, "deref": 2}.get(kind, 0),
                       data=oracle.data_word(oracle.ADD, 0, 1) if kind == "ext" else 0)

def in_last(total):
    """A grid whose total stands in its last counter (02, M-100)."""
    return FRESH[:-1] + (total,)

def check_forms(check, names):
    """Which forms are possible, and a run of each of them once (02, M-100)."""
    check("50 possible forms", (len(names), set(names) == said_possible()), (50, True))
    answer, parts, steps, groups = oracle.run([instruction_of(name) for name in names], [0] * 256)
    wanted = [int(name in names) for name in FORMS]
    wanted[FORMS.index("jump.imm.imm.fp")] += 256 - 50  # the end of the run stays
    check("each form once", (answer, *count(*parts, 0, 0, steps, groups, FRESH)), (OK, OK, tuple(wanted)))
    return (*parts, 0, 0, steps, groups), tuple(wanted)

def check_limit(check, tables, rows):
    """Totals at 2^63 - 1 and beyond; a refused table is not asked for its rows (02, M-100; point 14)."""
    over, refused, left = oracle.six(14), oracle.six(4), 9223372036854775807 - 256
    spread = (left // 135,) * 134
    for grid in (in_last(left), spread + (left - sum(spread),)):
        after = tuple(old + more for old, more in zip(grid, rows))
        check("2^63 - 1 is taken", (count(*tables, grid), sum(after)), ((OK, after), 2**63 - 1))
        more = grid[:5] + (grid[5] + 1,) + grid[6:]
        check("one more is not", count(*tables, more), (over, more))
    for grid in ((2**64 - 1,) * 135, in_last(2**64 - 1), (2**63, 2**63) + FRESH[2:]):
        check("a total far beyond", count(*tables, grid), (over, grid))
        check("the judge comes first", count(*tables[:2], 1, *tables[3:], grid), (refused, grid))

def check_campaign(check, tables, rows):
    """The total over accepted tables and refused ones (02, M-100)."""
    grid, others = FRESH, oracle.run([oracle.ext(oracle.ADD, 0, 1)], [0] * 256, height=512)
    others = (*others[1], 0, 0, *others[2:])
    for now in (tables, others, tables[:2] + (1,) + tables[3:], others, tables[:-1] + (b"",)):
        grid = count(*now, grid)[1]
    wanted = list(rows)
    wanted[FORMS.index("ext.imm.imm.imm")] += 2
    wanted[FORMS.index("jump.imm.imm.fp")] += 2 * 511
    check("campaign", (grid, sum(grid)), (tuple(wanted), 256 + 2 * 512))

def check_report(check, rows):
    """Lines, their order, any counter and every length of the buffer (02, M-100; point 14)."""
    grid = list(FRESH)
    grid[0 * 27 + 1 * 9 + 0 * 3 + 2], grid[134], grid[2 * 27 + 1 * 9 + 0 * 3 + 0] = 12, 2**64 - 1, 10
    text = b"add.cell.imm.fp=12\nderef.cell.imm.imm=10\next.fp.fp.fp=18446744073709551615\n"
    check("report", report(grid), (OK, text))
    for room in range(77):
        wanted = (OK, text) if room >= 75 else (oracle.six(1, 5, 75), b"")
        check("report in %d bytes" % room, report(grid, room), wanted)
    check("report of a fresh grid", report(FRESH, 0), (OK, b""))
    check("longest report", len(report((2**64 - 1,) * 135)[1]), 5076)
    lines = report(rows)[1].decode().split("\n")
    check("report of all forms", (len(lines), "jump.imm.imm.fp=207" in lines, lines[-1]), (51, True, ""))
    check("grid's bytes", (len(bytes_of(grid)), grid_of(bytes_of(grid))), (1080, tuple(grid)))

def self_check():
    """M-100's own checks; (passed, failed)."""
    passed, failed = [], []

    def check(name, got, wanted):
        (passed if got == wanted else failed).append("%s: got %r, wanted %r" % (name, got, wanted))

    found = possible()
    tables, rows = check_forms(check, [name for name in FORMS if name in found])
    check_limit(check, tables, rows)
    check_campaign(check, tables, rows)
    check_report(check, rows)
    return passed, failed
