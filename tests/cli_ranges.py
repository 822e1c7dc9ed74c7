"""`uisnabar ranges`, for tests/cli.py: finds written out here, by hand from document 02's M-108, and by words of the
instructions; tables and the judge's answers by tests/oracle.py, the example by docs/VERDICTS.md."""
import os
import pathlib
import re
import resource
import struct

import cli_cases
import oracle
import oracle_listings
import shelf
from cli_run import COMMAND, FILES, ROOT, check, could_not, limited, run, unwritable, write
from oracle import P, bytes_of, inst, six, words_of
from trials_parts import ADDR_B, B, EXEC, MEMORY, PROGRAM, VALUE_A, VALUE_C, changed, each_kind, each_mode

PAGE = re.search(r"^## Range checks\n(.+?)^## ", (ROOT / "docs/VERDICTS.md").read_text(), re.M | re.S)[1]
THREE, SIX, MANY, NONE = 10, 11, 12, 13  # offsets of cells that hold 3, 6, 200 and 0
FRAMES = (0, 40, P - 2)  # from the last every offset wraps
ACCEPTED = six(0)


def deref(cell, beta=0, c=0, **flags):
    """A DEREF; its words lead to cells that hold 0, which C is."""
    return inst(cell, beta, c, **{"fa": 0, "aux": 2, **flags})


def add(a, total, c, **flags):
    """An ADD of two cells to an immediate."""
    return inst(a, total, c, **{"fa": 0, "fc": 0, "aux": 1, **flags})


FIRST, SECOND, LAST = deref(THREE), add(THREE, 9, SIX), deref(SIX)
# instructions, and the finds: row, offset, bound and word
FOUND = (
    ((FIRST, SECOND, LAST), ((0, THREE, 10, 3),)),
    ((add(THREE, 3, NONE),) * 7 + (FIRST, SECOND, LAST), ((7, THREE, 10, 3),)),
    ((FIRST, SECOND, LAST) * 2, ((0, THREE, 10, 3), (3, THREE, 10, 3))),
    ((deref(NONE), add(NONE, 0, NONE), deref(NONE)), ((0, NONE, 1, 0),)),
    ((deref(MANY), add(MANY, 400, MANY), deref(MANY)), ((0, MANY, 401, 200),)),
    ((FIRST, SECOND, LAST, add(SIX, 206, MANY), deref(MANY)), ((0, THREE, 10, 3), (2, SIX, 207, 6))),
    ((deref(THREE, c=NONE, fc=0), SECOND, LAST), ((0, THREE, 10, 3),)),
    ((FIRST, SECOND, deref(SIX, c=NONE, fc=0)), ((0, THREE, 10, 3),)),
    ((deref(THREE, 1), FIRST, SECOND, LAST, add(THREE, 9, SIX)), ((1, THREE, 10, 3),)),
    ((deref(THREE), add(THREE, 6, THREE)) * 127 + (deref(THREE),), tuple((2 * i, THREE, 7, 3) for i in range(127))),
)
NOT_FOUND = (
    (), (FIRST, SECOND), (SECOND, LAST), (FIRST, LAST), (LAST, SECOND, FIRST), (FIRST, SECOND, FIRST), (deref(NONE), SECOND, LAST),
    (deref(THREE, 1), SECOND, LAST), (FIRST, SECOND, deref(SIX, 1)), (FIRST, SECOND, deref(SIX, P - 1)),
    (FIRST, add(SIX, 9, THREE), LAST), (FIRST, add(SIX, 9, THREE), FIRST), (LAST, add(THREE, 9, SIX), LAST),
    # an immediate that is the cell's offset
    (FIRST, add(THREE, THREE + 6, SIX, fa=1), LAST), (FIRST, add(THREE, 3 + SIX, SIX, fc=1), LAST),
    (FIRST, add(THREE, SIX, THREE, fb=0), FIRST), (FIRST, inst(THREE, 18, SIX, fa=0, fc=0, mul=1), LAST),
    (FIRST, FIRST, SECOND, SECOND, LAST), (FIRST, SECOND, add(THREE, 3, NONE), LAST), (FIRST, inst(0, 5, 0, fc=0, fpc=1, jump=1), LAST),
)


def laid(code, fp, held=(), cells=256):
    """The parts of a run of instructions with a halt behind them, over cells that hold these words, and its start."""
    held = dict(held or (((offset + fp) % P, word) for offset, word in ((THREE, 3), (SIX, 6), (MANY, 200))))
    answer, parts, *tables = oracle.run(code, [held.get(cell, 0) for cell in range(cells)], fp=fp)
    assert answer == ACCEPTED, (code, answer)
    return (*parts, *tables), (0, fp)


def by_words(parts):
    """The finds of accepted tables, by the words of the instructions: row, cell, bound, word."""
    code, cells = (words_of(part) for part in parts[:2])
    rows = [words_of(parts[2])[at:at + 8] for at in range(0, len(parts[2]) // 4, 8)]
    for row in range(len(rows) - 2):
        one, two, three = (code[12 * rows[at][0]:12 * rows[at][0] + 12] for at in (row, row + 1, row + 2))
        x, total, j = two[:3]
        if one[:2] == (x, 0) and three[:2] == (j, 0) and one[10] == three[10] == 2 and two[3:] == (0, 1, 0, 0, 0, 0, 0, 1, 0):
            cell = (rows[row][1] + x) % P
            yield row, cell, total + 1, cells[cell]


def lines(finds):
    return "".join(f"row={row} cell={cell} bound={bound} value={word}\n" for row, cell, bound, word in finds).encode()


def told(answer, parts, start, finds):
    """Status, standard output and standard error."""
    if answer == ACCEPTED:
        return 0, lines(finds), f"ACCEPTED: range checks found in {len(parts[2]) // 32} rows: {len(finds)}\n"
    return 1, b"", shelf.six_lines(answer).decode() + cli_cases.sentence(answer, parts, start) + "\n"


def asked(name, parts, start, finds, answer=ACCEPTED):
    write(parts)
    words = ["ranges", "--pc", str(start[0]), "--fp", str(start[1]), *FILES]
    check(name, run(*words), told(answer, parts, start, finds))


def by_hand():
    """What is a range check and what is none, in three frames."""
    for code, finds in (*FOUND, *((code, ()) for code in NOT_FOUND)):
        for fp in FRAMES:
            parts, start = laid(code, fp)
            wanted = [(row, (offset + fp) % P, bound, word) for row, offset, bound, word in finds]
            check(f"the words of {code}, fp {fp}", list(by_words(parts)), wanted)
            asked(f"{code}, fp {fp}", parts, start, wanted)
    for fp in FRAMES[1:]:  # an fp-relative C, of a DEREF and of the ADD
        zero = (P - fp) % P
        parts, start = laid((FIRST, SECOND, deref(SIX, c=zero, fc=0, fpc=1)), fp)
        asked(f"an fp-relative C, fp {fp}", parts, start, [(0, (THREE + fp) % P, 10, 3)])
        parts, start = laid((FIRST, add(THREE, (3 + fp + SIX) % P, SIX, fc=0, fpc=1), LAST), fp)
        asked(f"an ADD's fp-relative C, fp {fp}", parts, start, [])


def frames():
    """A function that checks its cell 2, called in three frames: the same instructions, other cells and words."""
    code = (deref(2), add(2, 99, 3), deref(3), inst(1, 4, 5, fb=0, fc=0, jump=1))  # cells 4 and 5: where to, and the frame
    calls = ((P - 1, 40, 0, 80), (80, 99, 0, 120), (120, 0, 4, 120))
    held = {(fp + offset) % P: word for fp, x, to, then in calls for offset, word in ((2, x), (3, 99 - x), (4, to), (5, then))}
    asked("a check in three frames", *laid(code, P - 1, held), [(0, 1, 100, 40), (4, 82, 100, 99), (8, 122, 100, 0)])


def refused():
    """Every verdict and rule of the judge, and each kind and mode: nothing is found that is none."""
    for name, answer, parts, start in cli_cases.cases():
        asked(f"ranges, {name}", parts, start, list(by_words(parts)) if answer == ACCEPTED else (), answer)
    for name, (parts, start) in (("each kind", each_kind()), ("each mode", each_mode())):
        asked(f"ranges, {name}", parts, start, list(by_words(parts)))
    parts, start = laid((FIRST, SECOND, LAST), 0)
    asked("a check, another start", parts, (0, 2**32), (), six(4))
    asked("a check, a part cut", (*parts[:3], parts[3][:-1]), start, (), six(1, 4))


def edges():
    """The largest bounds that a memory gives; and a bound that the cell does not keep: no such table is accepted."""
    for cells in (256, 2**16):
        code = (deref(2), add(2, 2 * cells - 2, 3), deref(3))  # both words are the last cell's number, which holds 0
        parts, start = laid(code, 0, {2: cells - 1, 3: cells - 1}, cells)
        asked(f"the largest word of {cells} cells", parts, start, [(0, 2, 2 * cells - 1, cells - 1)])
    parts, start = laid((FIRST, add(THREE, 18, SIX), LAST), 0, {THREE: 12, SIX: 6})
    asked("12 is below 19", parts, start, [(0, THREE, 19, 12)])
    parts = changed(parts, (PROGRAM, 1, B, 9))
    asked("12 is not below 10, by the sum", parts, start, (), six(5, 3, 1, 8))
    parts = changed(parts, *[(*place, P - 3) for place in ((MEMORY, SIX, 0), (EXEC, 1, VALUE_C), (EXEC, 2, VALUE_A), (EXEC, 2, ADDR_B))])
    asked("12 is not below 10, by the last DEREF", parts, start, (), six(5, 3, 2, 3))


def many():
    """More lines than are written at once, from tables of 2^17 rows."""
    rows = 2**17
    code = (deref(5), add(5, 0, 5)) * (rows // 2 - 1) + (deref(5), inst(1, rows - 1, fc=0, fpc=1, jump=1))
    steps = [struct.pack("<8I", pc, 0, 5, 0, 5 * (pc % 2), 0, 0, 0) for pc in range(rows)]
    padding = struct.pack("<30I", 1, 0, 0, 0, 1, *[0] * 25)
    write((bytes_of([word for i in code for word in i]), bytes(1024), b"".join(steps), padding * 256))
    finds = [(row, 5, 1, 0) for row in range(0, rows - 2, 2)]
    status, out, said = run("ranges", *FILES)
    check("2^16 - 1 finds", (status, out == lines(finds), said), (0, True, f"ACCEPTED: range checks found in {rows} rows: {len(finds)}\n"))
    unwritable(("ranges", *FILES))


def longest():
    """More rows than a table may have: no more room is asked for than the longest that may be needs."""
    write(laid((FIRST, SECOND, LAST), 0)[0])
    os.truncate("exec", 32 * 2**26)
    said = f"SIZE: the execution table has {32 * 2**26} bytes, and must be {cli_cases.LAYOUTS[2][2]}\n"
    check("2^26 rows", run("ranges", *FILES), (1, b"", shelf.six_lines(six(1, 3)).decode() + said))
    if len(COMMAND) == 1:  # an emulator has memory of its own
        about = f"there is no memory for the {8 * 2**25} bytes that the finds may have"
        could_not("too little memory", run("ranges", *FILES, **limited(2**25, resource.RLIMIT_DATA)), about)


def unwritten():
    """What cannot be written is status 2; a refusal writes nothing there, and is one wherever it goes."""
    parts, _ = laid((FIRST, SECOND, LAST), 0)
    write(parts)
    closed = ['exec "$@" >&-', "sh", *COMMAND, "ranges"]
    unwritable(("ranges", *FILES))
    could_not("finds to closed output", run(*closed, *FILES, command=["sh", "-c"]), "standard output cannot be written: Bad file")
    check("a refusal to closed output", run(*closed, "--pc", "1", *FILES, command=["sh", "-c"]), told(six(4), parts, (1, 0), ()))


def tables():
    """What the table program writes, in one file, of some labels; options stand anywhere."""
    for label in sorted((ROOT / "shelf").glob("kind-*.label")) + [ROOT / "shelf/seed-0.label"]:
        _, whole = shelf.answer_and_tables(label.read_bytes())
        pathlib.Path("tables").write_bytes(whole)
        parts = whole[:-43008], whole[-43008:-38912], whole[-38912:-30720], whole[-30720:]
        check(f"ranges, {label.name}", run("ranges", "--pc", "0", "tables"), told(ACCEPTED, parts, (0, 0), list(by_words(parts))))
    check("ranges, another start", run("ranges", "tables", "--fp", "1"), told(six(4), parts, (0, 1), ()))
    pathlib.Path("tables").write_bytes(b"")
    could_not("ranges, no tables", run("ranges", "tables"), "empty")


def usage():
    write(laid((), 0)[0])
    for words in ((), ("program", "memory"), FILES[:3]):
        about = f"ranges takes PROGRAM MEMORY EXEC EXT, or TABLES alone: {len(words)} files were handed in"
        could_not(f"ranges {words}", run("ranges", *words), about)
    could_not("ranges, five files", run("ranges", *FILES, "ext"), '"ext" is one too many')
    for option in ("--paste", "--bound", "-x"):
        could_not(f"ranges {option}", run("ranges", option, *FILES), f'ranges has no option "{option}"')
    for text in ("", "-1", "0x1", str(2**64)):
        could_not(f"ranges --fp {text!r}", run("ranges", *FILES, "--fp", text), "--fp takes a decimal number")
    could_not("ranges of what is missing", run("ranges", "none"), "none: No such file")
    for place, name in enumerate(FILES):
        found = run("ranges", *FILES[:place], "folder", *FILES[place + 1:])
        could_not(f"ranges of a folder for {name}", found, "folder: not a regular file")


def page():
    """docs/VERDICTS.md's example: assembled, run by tests/oracle.py, and found; README.md's line, which --help has."""
    listing = "".join(line + "\n" for line in re.findall(r"^    (op=.+)$", PAGE, re.M))
    answer, program = oracle_listings.read_listing(listing.encode())
    cells = [{2: 7, 5: 2, 6: 7}.get(cell, 0) for cell in range(256)]
    check("the page's listing", (answer, len(program)), (ACCEPTED, 4 * 48))
    answer, steps, groups = oracle.table(program, bytes_of(cells), 0, 0, 32 * 256, 120 * 256)
    rows = [tuple(map(int, row.split(" | "))) for row in re.findall(r"^\| \d(?: to 255)? \| (\d.+) \|$", PAGE, re.M)]
    check("the page's rows", (answer, words_of(steps)), (ACCEPTED, tuple(word for row in rows + rows[3:] * 252 for word in row)))
    write((program, bytes_of(cells), steps, groups))
    _, out, said = run("ranges", *FILES)
    check("the page's lines", f"```\n{out.decode()}{said}```\n" in PAGE, True)
    write(laid((add(0, 0, 0),) * 12 + (deref(34), add(34, 255, 35), deref(35)), 0, {34: 7, 35: 248})[0])
    line = run("ranges", *FILES)[1].decode()
    check("README.md's line, and --help's", (f"\n    {line}" in (ROOT / "README.md").read_text(), line.strip() in run("--help")[1].decode()),
          (True, True))


GROUPS = (by_hand, frames, refused, edges, many, longest, unwritten, tables, usage, page)
