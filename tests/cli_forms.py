"""`uisnabar count` and `uisnabar report`, for tests/cli.py: answers, grids and reports by tests/oracle_forms.py."""
import fcntl
import os
import pathlib
import shutil
import stat
import subprocess

import cli_cases
import oracle_forms
import shelf
from cli_run import COMMAND, FILES, ROOT, as_nobody, check, could_not, limited, run, unwritable, write
from oracle import six
from oracle_forms import FORMS, FRESH, LIMIT, in_last
from trials_parts import each_kind, each_mode

GRID, NEXT = pathlib.Path("grid"), pathlib.Path(".grid.counting")
FULL = (2**64 - 1,) * len(FORMS)
POSSIBLE = [name for name in FORMS if name in oracle_forms.possible()]
ACCEPTED, OVER = six(0), six(14)


def put(grid):
    """The file becomes this grid, or there is none."""
    GRID.unlink(missing_ok=True)
    if grid is not None:
        GRID.write_bytes(oracle_forms.bytes_of(grid))


def left():
    """What stands there: the grid, or nothing, and whether a count left its own file."""
    return oracle_forms.grid_of(GRID.read_bytes()) if GRID.exists() else None, NEXT.exists()


def words_of(start, grid="grid"):
    return ["count", str(grid), "--pc", str(start[0]), "--fp", str(start[1]), *FILES]


def said_of(answer, parts, start, after):
    """The sentence on standard error."""
    rows = len(parts[2]) // 32
    if answer == ACCEPTED:
        return f"ACCEPTED: {rows} rows were counted, and the grid's total is now {sum(after)}\n"
    if answer == OVER:
        return f"GRID: {rows} rows more would bring the grid's total above {LIMIT}: nothing was counted; begin a new grid\n"
    return cli_cases.sentence(answer, parts, start) + "\n"


def counted(name, parts, start, grid):
    """One count beside tests/oracle_forms.py: answer, sentence, status, grid. A refusal leaves the grid, or makes none."""
    put(grid)
    answer, after = oracle_forms.count(*parts[:2], *start, *parts[2:], grid or FRESH)
    wanted = int(answer[0] > 0), shelf.six_lines(answer), said_of(answer, parts, start, after)
    check(name, run(*words_of(start)), wanted)
    check(name + ", the grid", left(), (after if answer == ACCEPTED else grid, False))
    return after


def counts():
    """Every verdict and rule, with no grid and beside one; accepted tables one after the other."""
    held = tuple(range(1, 136))
    for name, _, parts, start in cli_cases.cases():
        write(parts)
        counted(f"count, {name}", parts, start, None)
        counted(f"count, {name}, into a grid", parts, start, held)
    grid = None
    for name, (parts, start) in (("each kind", each_kind()), ("each mode", each_mode()), ("each kind again", each_kind())):
        write(parts)
        grid = counted(f"count, {name}", parts, start, grid)
    check("all forms in one table", [name for name, rows in zip(FORMS, grid) if rows], POSSIBLE)


def limits():
    """The total at 2^63 - 1 and beyond, whatever a grid holds; the limit is tested last."""
    parts, start = each_mode()
    write(parts)
    rows = len(parts[2]) // 32
    spread = (LIMIT // 135,) * 134
    for name, grid in (("in one counter", in_last(LIMIT - rows)), ("in all", spread + (LIMIT - rows - sum(spread),))):
        check(f"2^63 - 1 {name}", sum(counted(f"2^63 - 1 {name}", parts, start, grid)), LIMIT)
        counted(f"one more {name}", parts, start, (grid[0] + 1,) + grid[1:])
        counted(f"the judge first {name}", parts, (1, 0), (grid[0] + 1,) + grid[1:])
    for grid in (FULL, in_last(2**64 - 1), in_last(LIMIT), in_last(2**63), (2**63, 2**63) + FRESH[2:]):
        counted("a total far beyond", parts, start, grid)
        counted("a total far beyond, the judge first", parts, (1, 0), grid)


def tables():
    """What the table program writes, in one file; options stand anywhere."""
    _, whole = shelf.answer_and_tables((ROOT / "shelf/seed-0.label").read_bytes())
    pathlib.Path("tables").write_bytes(whole)
    put(None)
    for total, words in ((256, ["grid", "tables"]), (512, ["--pc", "0", "grid", "--", "tables"])):
        found = run("count", *words)
        check(f"count {words}", found, (0, shelf.six_lines(ACCEPTED), said_of(ACCEPTED, (0, 0, bytes(8192)), 0, (total,))))
    before = left()
    check("count, another start", run("count", "grid", "--pc", "1", "tables")[0], 1)
    pathlib.Path("tables").write_bytes(b"")
    could_not("count, no tables", run("count", "grid", "tables"), "empty")
    check("the grid after refusals", left(), before)


def said_reached(grid):
    """What standard error must have of a report."""
    total, strange = sum(grid), sum(rows > 0 for name, rows in zip(FORMS, grid) if name not in POSSIBLE)
    missing = [name for name, rows in zip(FORMS, grid) if name in POSSIBLE and not rows]
    rows = f"{total} rows" if total <= LIMIT else f"more than {LIMIT} rows, which no count gives"
    more = f"; {strange} counters of other forms are not 0, which no count gives" * bool(strange)
    return f"{50 - len(missing)} of the 50 possible forms were reached, in {rows}{more}\n" + "".join(f"not reached: {m}\n" for m in missing)


def reports():
    """A fresh grid, each counter alone, all, and none of the possible."""
    alone = [FRESH[:place] + (place + 1,) + FRESH[place + 1:] for place in range(135)]
    ones = tuple(int(name in POSSIBLE) for name in FORMS)
    for grid in (FRESH, *alone, ones, tuple(1 - one for one in ones), FULL, in_last(LIMIT), in_last(LIMIT + 1), (1,) + in_last(LIMIT)[1:],
                 (2**63, 2**63) + FRESH[2:], tuple(10**(place % 20) for place in range(135))):
        put(grid)
        text = oracle_forms.report(grid)[1]
        check(f"report of {grid}", run("report", "grid"), (0, text, said_reached(grid)))
        check("the report's grid", left(), (grid, False))
    put(FULL)
    check("the longest report", len(run("report", "grid")[1]), 5076)
    os.symlink("grid", "link")
    check("a report through a link", run("report", "link")[0], 0)
    os.unlink("link")


def no_grids():
    """What is no grid, for both; nothing is made, and nothing changed."""
    parts, start = each_kind()
    write(parts)
    for length in (0, 1, 1079, 1081, 2160):
        GRID.write_bytes(bytes(length))
        for words in (words_of(start), ["report", "grid"]):
            could_not(f"{words[0]}, a grid of {length} bytes", run(*words), f"grid: {length} bytes, and no grid, which has 1080")
        check("its bytes", (GRID.read_bytes(), NEXT.exists()), (bytes(length), False))
    put(None)
    shutil.rmtree("grids", ignore_errors=True)
    os.mkdir("grids")
    os.symlink("nowhere", "grids/lost")
    os.mkfifo("grids/pipe")
    os.mkdir("grids/folder")
    before = sorted(os.listdir("grids"))
    for path, about, reported in (
            ("grids/pipe", "not a regular file", "not a regular file"), ("grids/folder", "Is a directory", "not a regular file"),
            ("grids/folder/", "names no file", "not a regular file"), ("grids/none/", "names no file", "No such file"),
            ("", "names no file", "No such file"), ("grids/none/grid", "nothing can be written beside it", "No such file"),
            ("grids/lost", "a symbolic link", "No such file"), ("program/grid", "Not a directory", "Not a directory"),
            ("x" * 250, "File name too long", "No such file"), ("x/" * 3000, "names no file", "File name too long"),
            ("x/" * 3000 + "x", "File name too long", "File name too long")):
        could_not(f"count into {path[:40]!r}", run(*words_of(start, path)), about)
        could_not(f"report of {path[:40]!r}", run("report", path), reported)
    could_not("report of nothing", run("report", "grid"), "grid: No such file")
    check("nothing was made", (sorted(os.listdir("grids")), left()), (before, (None, False)))


def linked():
    """A link is not replaced, and what it names isn't either."""
    parts, start = each_kind()
    write(parts)
    put(FRESH)
    os.symlink("grid", "link")
    could_not("count into a link", run(*words_of(start, "link")), "link: a symbolic link: name the grid itself")
    check("the link", (os.readlink("link"), left(), os.path.exists(".link.counting")), ("grid", (FRESH, False), False))
    os.unlink("link")


def permissions():
    """A grid keeps its permissions; one that may not be read or written stays, as does a folder. Root asks as nobody."""
    parts, start = each_kind()
    write(parts)
    put(FRESH)
    GRID.chmod(0o640)
    check("a grid's permissions", (run(*words_of(start))[0], stat.S_IMODE(GRID.stat().st_mode)), (0, 0o640))
    put(None)
    check("a fresh grid's permissions", (run(*words_of(start), umask=0o027)[0], stat.S_IMODE(GRID.stat().st_mode)), (0, 0o640))
    how = as_nobody()
    for mode, about, reported in ((0o000, "grid: Permission denied", 2), (0o444, "grid: Permission denied", 0)):
        put(FRESH)
        GRID.chmod(mode)
        could_not(f"count into a grid of mode {mode:o}", run(*words_of(start), **how), about)
        check(f"report of a grid of mode {mode:o}", run("report", "grid", **how)[0], reported)
        GRID.chmod(0o644)
        check(f"the grid of mode {mode:o}", left(), (FRESH, False))
    GRID.chmod(0o666)
    os.chmod(".", 0o555)
    could_not("count in a folder that is only read", run(*words_of(start), **how), "grid: nothing can be written beside it")
    check("report in a folder that is only read", run("report", "grid", **how)[0], 0)
    os.chmod(".", 0o700)
    check("the grid there", left(), (FRESH, False))


def together():
    """Tables that come at once are all counted; what a killed count left is taken over."""
    parts, start = each_kind()
    write(parts)
    put(None)
    many = [subprocess.Popen([*COMMAND, *words_of(start)], stdout=subprocess.DEVNULL, stderr=subprocess.DEVNULL) for _ in range(24)]
    check("24 at once", ([one.wait(timeout=120) for one in many], sum(left()[0])), ([0] * 24, 24 * 256))
    for rest in (b"", b"x" * 1081):
        put(FRESH)
        NEXT.write_bytes(rest)
        check(f"{len(rest)} bytes of a killed count", (run(*words_of(start))[0], sum(left()[0]), left()[1]), (0, 256, False))


def held(meanwhile):
    """(status, standard output) of a count that has to wait until another, which does this meanwhile, is done."""
    with open(NEXT, "wb") as other:
        fcntl.flock(other, fcntl.LOCK_EX)
        with subprocess.Popen([*COMMAND, *words_of(each_kind()[1])], stdout=subprocess.PIPE, stderr=subprocess.DEVNULL) as waiting:
            try:
                return waiting.wait(timeout=0.5), "it did not wait"
            except subprocess.TimeoutExpired:
                meanwhile(other)
            fcntl.flock(other, fcntl.LOCK_UN)
            return waiting.wait(timeout=120), waiting.stdout.read()


def replaced(other):
    """What a count that ends does."""
    other.write(oracle_forms.bytes_of(in_last(1000)))
    other.flush()
    NEXT.rename(GRID)


def waits():
    """A count that waited sees the grid as it then is; tables that become shorter meanwhile are not counted."""
    accepted = 0, shelf.six_lines(ACCEPTED)
    for name, meanwhile, wanted, total in (("replaced", replaced, accepted, 1256), ("left", lambda _: NEXT.unlink(), accepted, 257),
                                           ("killed", lambda _: None, accepted, 257),
                                           ("tables became shorter", lambda _: os.truncate("exec", 0), (2, b""), 1)):
        write(each_kind()[0])
        put(in_last(1))
        check(f"waited, {name}", (held(meanwhile), sum(left()[0])), (wanted, total))
    write(each_kind()[0])
    check("after tables that became shorter", (run(*words_of(each_kind()[1]))[0], sum(left()[0]), left()[1]), (0, 257, False))


def unwritten():
    """What cannot be written is status 2, and nothing is counted."""
    parts, start = each_kind()
    write(parts)
    for grid in (None, FRESH):
        for words in (words_of(start), words_of((9, 9))):
            put(grid)
            unwritable(words)
            done = subprocess.run(["sh", "-c", 'exec "$@" >&-', "sh", *COMMAND, *words], capture_output=True, timeout=120, check=False)
            check(f"{words} to closed output", (done.returncode, left()), (2, (grid, False)))
        for most, about in ((0, "File too large"), (1079, "No space left")):
            could_not(f"a grid in {most} bytes", run(*words_of(start), **limited(most)), f".grid.counting: cannot be written: {about}")
            check(f"the grid in {most} bytes", left(), (grid, False))
    for grid in (FULL, in_last(1)):
        put(grid)
        unwritable(("report", "grid"))


def usage():
    write(each_kind()[0])
    put(None)
    for words in ((), ("grid",), ("grid", "program", "memory"), ("grid", *FILES[:3]), FILES):
        about = f"count takes GRID, and then PROGRAM MEMORY EXEC EXT, or TABLES alone: {len(words)} files were handed in"
        could_not(f"count {words}", run("count", *words), about)
    could_not("count, five tables", run("count", "grid", *FILES, "ext"), '"ext" is one too many')
    for option in ("--paste", "--missing", "-x"):
        could_not(f"count {option}", run("count", "grid", option, *FILES), f'count has no option "{option}"')
        could_not(f"report {option}", run("report", option), "report takes one file")
    could_not("count --fp", run("count", "grid", *FILES, "--fp", "x"), "--fp takes a decimal number")
    for words in ((), ("grid", "grid")):
        could_not(f"report {words}", run("report", *words), "report takes one file, GRID, and no option")
    could_not("count of what is missing", run("count", "grid", "none"), "none: No such file")
    check("no grid was made", left(), (None, False))


GROUPS = (counts, limits, tables, reports, no_grids, linked, permissions, together, waits, unwritten, usage)
