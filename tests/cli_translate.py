"""`uisnabar translate`, for tests/cli.py: instructions and what becomes of them by tests/cli_olds.py, sentences by
docs/VERDICTS.md."""
import os
import pathlib
import re
import resource
import shutil
import stat
import subprocess

import cli_cases
import cli_page
import oracle
import shelf
from cli_olds import ADD, BAD, DEREF, GOOD, JUMP, OPCODES
from cli_run import COMMAND, FILES, ROOT, as_nobody, check, could_not, limited, run, unwritable, write
from oracle import P, bytes_of

OLD, NEW, NEXT = pathlib.Path("old"), pathlib.Path("new"), pathlib.Path(".new.translating")
LAYOUT = 5  # the row of the page's layouts
REASONS = [words for _, words in cli_page.table("Translatable instructions")]
MOST = 2**20
HELD = b"what it held"


def memory(most):
    """For a process that may have so many bytes of memory; an emulator has its own, and is not limited."""
    return limited(most, resource.RLIMIT_DATA) if len(COMMAND) == 1 else {}


def program(*instructions):
    return bytes_of([word for instruction in instructions for word in instruction])


def put(old, held=None):
    """The files become these bytes; without any there is no new one."""
    OLD.write_bytes(old)
    NEW.unlink(missing_ok=True)
    if held is not None:
        NEW.write_bytes(held)


def left():
    """What stands there, and whether something else was left beside it."""
    return NEW.read_bytes() if NEW.exists() else None, NEXT.exists()


def said_of(answer, old, reasons):
    """The sentence on standard error, and an untranslatable instruction's words."""
    verdict, _, place, rule = answer
    parts = (b"",) * 4 + (old,)
    if verdict == 0:
        return f"ACCEPTED: the program of draft 0.5.0, {len(old)} bytes, is now one of leanVM draft 0.6.0, {len(old) // 56 * 48} bytes\n"
    if verdict == 15:
        why = "; ".join(REASONS[reason] for reason in reasons)
        first = f"EDITION: instruction {place} of the program of draft 0.5.0, at byte {56 * place}, is not translatable: {why}\n"
        return first + cli_cases.row_line(LAYOUT, place, parts) + "\n"
    return cli_cases.sentence((verdict, LAYOUT, place, rule), parts, None) + "\n"


def translated(name, old, new, answer=(0, 0, 0, 0), reasons=()):
    """The program into no file and over one; a refusal leaves either as it is."""
    wanted = int(answer[0] > 0), shelf.six_lines(answer), said_of(answer, old, reasons)
    for held in (None, HELD):
        put(old, held)
        check(f"translate, {name}, beside {held}", run("translate", "old", "new"), wanted)
        check(f"translate, {name}, beside {held}: the files", (*left(), OLD.read_bytes()), (held if answer[0] else new, False, old))


def accepted():
    """Each kind and flag byte for byte, alone and all in one; as many instructions as there may be."""
    for name, (old, new) in GOOD.items():
        translated(name, program(old), program(new))
    olds, news = zip(*GOOD.values())
    translated("all", program(*olds), program(*news))
    translated("all, backwards", program(*olds[::-1]), program(*news[::-1]))
    put(program(DEREF) * MOST)
    check("2^20 instructions", run("translate", "old", "new")[0], 0)
    check("their bytes", left(), (program(GOOD["deref to an immediate"][1]) * MOST, False))
    if memory(0):
        could_not("too little memory", run("translate", "old", "new", **memory(2**25)), "there is no memory for the 50331648 bytes")


def untranslatable():
    """Every reason, as the only instruction, behind others and before a later one."""
    for name, (bad, reasons) in BAD.items():
        translated(name, program(bad), None, (15, 0, 0, 0), reasons)
        translated(f"{name}, third", program(ADD, DEREF, bad, JUMP, (0,) * 14), None, (15, 0, 2, 0), reasons)
    check("reasons tried", {reason for _, reasons in BAD.values() for reason in reasons}, set(range(len(REASONS))))
    translated("the last of 600", program(ADD) * 599 + program((0,) * 14), None, (15, 0, 599, 0), (OPCODES,))


def words():
    """Each of the 14 words at p and at the top of 32 bits; WORD is told before EDITION, and the first of two."""
    old = program(ADD, DEREF, JUMP)
    for place in range(14, 28):
        for word in (P, 2**32 - 1):
            translated(f"word {place} {word}", oracle.poke(old, place, word), None, (2, 1, place, 0))
    translated("a late word and an early instruction", oracle.poke(program((0,) * 14, ADD), 27, P), None, (2, 1, 27, 0))
    translated("two words", oracle.poke(oracle.poke(old, 41, P), 13, P), None, (2, 1, 13, 0))


def sizes():
    """Lengths that no program has; SIZE is told before WORD and EDITION."""
    for length in (0, 1, 4, 48, 55, 57, 60, 96, 111, 113):
        for byte in (b"\0", b"\xff"):
            translated(f"{length} bytes", byte * length, None, (1, 1, 0, 0))
    good = program(ADD)
    for old in (good + b"\0", good[:-1], good + good[:52], b"\0" + good):
        translated(f"an add in {len(old)} bytes", old, None, (1, 1, 0, 0))
    for length in (56 * (MOST + 1), 56 * MOST + 1, 2**32 + 56):
        put(b"", HELD)
        os.truncate(OLD, length)
        found = run("translate", "old", "new", **memory(2**26))
        said = f"SIZE: the program of draft 0.5.0 has {length} bytes, and must be 1 to 1048576 instructions of 56 bytes\n"
        check(f"{length} bytes", (found, left()), ((1, shelf.six_lines((1, 1, 0, 0)), said), (HELD, False)))


def in_place():
    """One file as both, by its name and by another way to it; a refusal leaves it."""
    old, new = program(*(pair[0] for pair in GOOD.values())), program(*(pair[1] for pair in GOOD.values()))
    for path in ("old", "./old", "folder/../old", os.path.abspath("old")):
        put(old)
        check(f"old to {path}", (run("translate", "old", path)[0], OLD.read_bytes()), (0, new))
        bad = old + program((0,) * 14)
        put(bad)
        check(f"refused, old to {path}", (run("translate", "old", path)[0], OLD.read_bytes()), (1, bad))
    put(old)
    os.link("old", "other")
    check("a second name", (run("translate", "old", "other")[0], OLD.read_bytes(), pathlib.Path("other").read_bytes()), (0, old, new))
    os.unlink("other")
    check("nothing beside it", [name for name in os.listdir(".") if name.endswith("translating")], [])


def no_files():
    """What is no old program, and where no new one can stand: status 2, and nothing is made."""
    put(program(ADD), HELD)
    shutil.rmtree("olds", ignore_errors=True)
    os.mkdir("olds")
    os.mkdir("olds/folder")
    os.mkfifo("olds/pipe")
    os.symlink("nowhere", "olds/lost")
    os.symlink("../new", "olds/link")
    os.symlink("../old", "olds/way")
    before = sorted(os.listdir("olds"))
    for path, about in (("missing", "missing: No such file"), ("olds/lost", "No such file"), ("", "No such file"), ("old/x", "Not a directory"),
                        *[(path, f"{path}: not a regular file: write") for path in ("olds/folder", "olds/pipe", "/dev/null")]):
        could_not(f"from {path!r}", run("translate", path, "new"), about)
    for path, about in (("olds/folder", "Is a directory"), ("olds/folder/", "names no file for a program"), ("", "names no file"),
                        ("olds/none/new", "nothing can be written beside it"), ("old/new", "Not a directory"),
                        ("olds/pipe", "not a regular file, and so no program"), ("x" * 250, "File name too long"),
                        ("x/" * 3000 + "x", "File name too long"),
                        *[(path, "a symbolic link: name the program itself") for path in ("olds/lost", "olds/link")]):
        could_not(f"to {path[:40]!r}", run("translate", "old", path), about)
    check("nothing was made", (sorted(os.listdir("olds")), os.listdir("olds/folder"), left()), (before, [], (HELD, False)))
    check("an old program through a link", run("translate", "olds/way", "new")[0], 0)


def permissions():
    """A new program keeps the old one's permissions; what may not be read or written stays. Root asks as nobody."""
    put(program(ADD), HELD)
    NEW.chmod(0o640)
    check("permissions", (run("translate", "old", "new")[0], stat.S_IMODE(NEW.stat().st_mode)), (0, 0o640))
    put(program(ADD))
    check("fresh permissions", (run("translate", "old", "new", umask=0o027)[0], stat.S_IMODE(NEW.stat().st_mode)), (0, 0o640))
    how = as_nobody()
    put(program(ADD), HELD)
    OLD.chmod(0o000)
    could_not("old may not be read", run("translate", "old", "new", **how), "old: Permission denied")
    OLD.chmod(0o644)
    NEW.chmod(0o444)
    could_not("new may not be written", run("translate", "old", "new", **how), "new: Permission denied")
    NEW.chmod(0o666)
    os.chmod(".", 0o555)
    could_not("nor the folder", run("translate", "old", "new", **how), "new: nothing can be written beside it")
    os.chmod(".", 0o700)
    check("new stays", left(), (HELD, False))


def unwritten():
    """What cannot be written whole is status 2, and the new file stays; what a killed command left is taken over."""
    for held in (None, HELD):
        for old in (program(ADD, JUMP), program((0,) * 14)):
            put(old, held)
            unwritable(("translate", "old", "new"))
            shell = ["sh", "-c", 'exec "$@" >&-', "sh", *COMMAND, "translate", "old", "new"]
            done = subprocess.run(shell, capture_output=True, timeout=120, check=False)
            check("to closed output", (done.returncode, left()), (2, (held, False)))
        put(program(ADD, JUMP), held)
        for most, about in ((0, "File too large"), (95, "No space left")):
            could_not(f"in {most} bytes", run("translate", "old", "new", **limited(most)), f".new.translating: cannot be written: {about}")
            check(f"new in {most} bytes", left(), (held, False))
    for rest in (b"", b"x" * 1000):
        put(program(ADD), HELD)
        NEXT.write_bytes(rest)
        check("a killed one's file", (run("translate", "old", "new")[0], left()), (0, (program(GOOD["add, cells"][1]), False)))


def usage():
    put(program(ADD), HELD)
    for given in ((), ("old",), ("old", "new", "more"), ("-", "new"), ("old", "-"), ("--paste", "old", "new"), ("--pc", "1"), ("--", "old", "new")):
        could_not(f"translate {given}", run("translate", *given), "translate takes two files, OLD and NEW, and no option")
    check("new stays", left(), (HELD, False))


def judged():
    """The judge takes what was written, and its run: with β and γ left in their places it would be stuck."""
    old = program((5, 7, 2, 1, 1, 0, 1, 0, 0, 0, 0, 0, 0, 0), (3, 4, 1, 0, 0, 1, 0, 0, 1, 0, 0, 0, 1, 0), (1, 2, 9, 1, 1, 1, 0, 0, 0, 1, 0, 0, 0, 0))
    cells = bytes_of([0, 9, 2, 40, 6] + [0] * 36 + [6] + [0] * 214)  # 5 + 2 = 7; cell 40 + 1 holds what cell 4 does
    put(old)
    check("a program of three kinds", run("translate", "old", "new")[0], 0)
    answer, steps, groups = oracle.table(NEW.read_bytes(), cells, 0, 0, 32 * 256, 120 * 256)
    write((NEW.read_bytes(), cells, steps or b"", groups or b""))
    check("its tables", (answer[0], run("judge", *FILES)[0]), (0, 0))


def page():
    """README.md's loop over a shelf, as it stands there."""
    loop = re.search(r"(?:^    .*\n)+", (ROOT / "README.md").read_text().split("A shelf of such programs")[1], re.M)[0]
    shutil.rmtree("shelves", ignore_errors=True)
    os.makedirs("shelves/old")
    for name, old in (("a b", program(ADD)), ("bad", program((0,) * 14)), ("cut", program(ADD)[1:]), ("jump", program(JUMP))):
        pathlib.Path("shelves/old", name).write_bytes(old)
    emulator = " ".join(f"'{word}'" for word in COMMAND)
    done = subprocess.run(["sh", "-c", f'uisnabar() {{ {emulator} "$@"; }}\n{loop}'], cwd="shelves", capture_output=True, timeout=120, check=False)
    said = [line.split(":")[:2] for line in done.stdout.decode().splitlines() if line.startswith("old/")]
    check("README.md's loop", (done.stderr, said, sorted(os.listdir("shelves/new"))),
          (b"", [["old/bad", " EDITION"], ["old/cut", " SIZE"]], ["a b", "jump"]))


GROUPS = (accepted, untranslatable, words, sizes, in_place, no_files, permissions, unwritten, usage, judged, page)
