"""`uisnabar list` and `uisnabar assemble`, for tests/cli.py: lines, words and what is expected where by
tests/cli_listing_cases.py, the sentences' table and the example by docs/LISTING.md, its run by tests/oracle.py."""
import os
import pathlib
import re
import resource
import shutil
import stat
import subprocess

import cli_cases
import oracle
import shelf
from cli_listing_cases import BAD, FORMS, FOUND, GOOD, LONGEST, MOST, SHORTEST, place
from cli_run import COMMAND, ROOT, as_nobody, check, could_not, limited, run, unwritable
from oracle import P, bytes_of, six

LISTING, PROGRAM, NEXT = pathlib.Path("listing"), pathlib.Path("assembled"), pathlib.Path(".assembled.assembling")
PAGE = (ROOT / "docs/LISTING.md").read_text()
HELD = b"what it held"
TEXT = "".join(line + "\n" for line in GOOD).encode()
WORDS = bytes_of([word for words in GOOD.values() for word in words])
# what the page says of a place, and what its words in capitals stand for
NAMES = {"WORDS": "[a-z0-1]+[:=]?(?:, [a-z]+[:=]?)*(?: or [a-z0-1]+[:=]?)?", "COLUMN": "[0-9]+", "FIELD": "[a-z]+=",
         "NEXT": "(?:LF|a space before [a-z]+=)", "MOST": "(?:2130706432|1048576)"}
ROWS = [re.sub("[A-Z]{4,}", lambda name: NAMES[name[0]], re.escape(words)) for words in
        re.findall(r"^\| .+ \| (.+ is expected here.*) \|$", PAGE, re.M)]
AT = re.compile(r"LISTING: line (\d+), column (\d+): (.+ is expected here)(.*)\n")


def memory(most):
    """For a process that may have so many bytes of memory; an emulator has its own, and is not limited."""
    return limited(most, resource.RLIMIT_DATA) if len(COMMAND) == 1 else {}


def put(text, held=None):
    """The files become these bytes; without any there is no program."""
    LISTING.write_bytes(text)
    PROGRAM.unlink(missing_ok=True)
    if held is not None:
        PROGRAM.write_bytes(held)


def left():
    """What stands there, and whether something else was left beside it."""
    return PROGRAM.read_bytes() if PROGRAM.exists() else None, NEXT.exists()


def both_ways(name, text, words):
    """The listing becomes the program, the program the listing, whatever stood there."""
    said = f"ACCEPTED: the listing, {len(text)} bytes, is now a program of leanVM draft 0.6.0, {len(words)} bytes\n"
    for held in (None, HELD):
        put(text, held)
        check(f"assemble {name}", (run("assemble", "listing", "assembled"), *left()), ((0, shelf.six_lines(six(0)), said), words, False))
    said = f"ACCEPTED: the program, {len(words)} bytes, is listed in {len(text)} bytes\n"
    check(f"list {name}", (run("list", "assembled"), *left()), ((0, text, said), words, False))


def accepted():
    """Each line alone and all in a row; as many as there may be, and no line is shorter or longer than these; there are
    as many forms as document 01 allows."""
    for line, words in GOOD.items():
        check(f"{line}: the place", place(line.encode() + b"\n"), None)
        both_ways(line, line.encode() + b"\n", bytes_of(words))
    both_ways("all", TEXT, WORDS)
    check("forms of a line", len(FORMS), 12 + 12 + 3 + 8 + 3 * 15)
    lengths = f"longest line has {len(LONGEST) + 1} bytes", f"shortest line, `{SHORTEST}`, has {len(SHORTEST) + 1} with"
    check("the page's lengths", [text in PAGE for text in lengths], [True, True])
    for line, end in ((SHORTEST, min), (LONGEST, max)):
        lengths = [len("".join(part if isinstance(part, str) else str(end(part)) for part in form)) for form in FORMS]
        check(f"{line}: its length", end(lengths), len(line) + 1)
        put(f"{line}\n".encode() * MOST)
        check(f"2^20 lines, {line}", (run("assemble", "listing", "assembled")[0], left()), (0, (bytes_of(GOOD[line]) * MOST, False)))
        check(f"2^20 instructions, {line}", run("list", "assembled")[:2], (0, LISTING.read_bytes()))
    if memory(0):
        could_not("too little memory", run("list", "assembled", **memory(2**25)), "there is no memory for the 80740352 bytes that a listing")
        could_not("too little memory", run("assemble", "listing", "new", **memory(2**25)), "there is no memory for the 50331648 bytes that a program")


def unlisted(name, text, at, said):
    """Refused at the place with the sentence, and whatever stood there stands there still."""
    line = text[:at].count(b"\n") + 1
    column = at - (text[:at].rfind(b"\n") + 1) + 1
    wanted = 1, shelf.six_lines(six(16, 0, at)), f"LISTING: line {line}, column {column}: {said}\n"
    for held in (None, HELD):
        put(text, held)
        check(f"assemble {name!r}", (run("assemble", "listing", "assembled"), left()), (wanted, (held, False)))


def ending(rest, before):
    """How the sentence ends, by what stands there."""
    if not rest:
        return ", and the text ends" if before else ", and the text is empty"
    byte = rest[:1].decode("latin-1")
    return ", " + FOUND.get(byte, f"not {byte}" if "!" <= byte <= "~" else f"not 0x{rest[0]:02x}")


def sentences():
    """Everything that can be expected, in a first line and in a later one; the page has each, and no other."""
    reached = set()
    for before in (b"", TEXT[:TEXT.index(b"\n") + 1] * 2):
        for start, rest, expected in BAD:
            begun = before + start.encode()
            if start or rest or not before:  # else the text is a listing
                check(f"{begun + rest!r}: the place", place(begun + rest), len(begun))
                unlisted(begun + rest, begun + rest, len(begun), f"{expected} is expected here{ending(rest, begun)}")
    for said in (f"{expected} is expected here" for _, _, expected in BAD):
        rows = {row for row in ROWS if re.fullmatch(row, said)}
        check(f"{said!r}: the page's rows", len(rows), 1)
        reached |= rows
    most = "the text's end is expected here, as a program has at most 1048576 instructions"
    check("rows of the page", (len(ROWS), reached, [row for row in ROWS if re.fullmatch(row, most)]), (9, set(ROWS[:-1]), ROWS[-1:]))
    long = f"{LONGEST}\n".encode() * MOST
    for more in (b"o", b"\n"):
        unlisted(f"2^20 lines and {more[:9]!r}", long + more, len(long), most)
    put(b"\n" * 4 * MOST)
    check("lines of nothing", run("assemble", "listing", "assembled", **memory(2**26))[:2], (1, shelf.six_lines(six(16))))
    put(TEXT, HELD)
    os.truncate(LISTING, 2**33)
    said = f"LISTING: line {len(GOOD) + 1}, column 1: op= is expected here, not 0x00\n"
    check("a text of 2^33 bytes", (run("assemble", "listing", "assembled"), left()), ((1, shelf.six_lines(six(16, 0, len(TEXT))), said), (HELD, False)))


def everywhere():
    """Lines with a byte changed, put in or left out at each place, and cut there: place, line and column agree."""
    for line in (list(GOOD)[at].encode() + b"\n" for at in (0, 4, 7, 11)):
        texts = {line[:at] + new + line[at + gone:] for at in range(len(line)) for new, gone in ((b"", 1), (b" ", 0), (b"0", 1), (b"\r", 0), (b"9", 1))}
        for text in sorted(texts | {line[:at] for at in range(1, len(line))}):
            at = place(text)
            put(text)
            status, out, said = run("assemble", "listing", "assembled")
            if at is None:
                check(f"{text!r}", status, 0)
                continue
            found = AT.fullmatch(said)
            check(f"{text!r}", (status, out, found and (found[1], found[2], found[4])),
                  (1, shelf.six_lines(six(16, 0, at)), ("1", str(at + 1), ending(text[at:], text[:at]))))
            check(f"{text!r}: what is expected", sum(bool(found and re.fullmatch(row, found[3])) for row in ROWS), 1)


def unlistable():
    """SIZE, WORD and INSTRUCTION in this order, with nothing on standard output; a malformed instruction's words."""
    bad = oracle.poke(WORDS, 12 * 4 + 10, 3)
    cases = [(b"", (1, 1)), (WORDS[:-1], (1, 1)), (WORDS + b"\0", (1, 1)), (b"\xff" * 47, (1, 1)), (bad, (3, 1, 4)),
             (oracle.poke(bad, 100, P), (2, 1, 100)), (oracle.poke(bad, 3, 2**32 - 1), (2, 1, 3)), (oracle.poke(WORDS, 11, 2), (3, 1, 0)),
             (oracle.poke(WORDS, 12 * 7 + 5, 1), (3, 1, 7)), (bytes(48), (3, 1, 0)), (WORDS + bytes(48), (3, 1, len(GOOD)))]
    for number, (program, answer) in enumerate(cases):
        pathlib.Path("bad").write_bytes(program)
        answer, parts = six(*answer), (program, b"", b"", b"")
        lines = shelf.six_lines(answer).decode() + cli_cases.sentence(answer, parts, None) + "\n"
        lines += cli_cases.row_line(1, answer[2], parts) + "\n" if answer[0] == 3 else ""
        check(f"list, bad program {number}", run("list", "bad"), (1, b"", lines))
    os.truncate("bad", 48 * (MOST + 1))
    check("2^20 + 1 instructions", run("list", "bad")[:2], (1, b""))


def no_files():
    """What is no file to read, and where no program can stand: status 2, and nothing is made."""
    put(TEXT, HELD)
    shutil.rmtree("listings", ignore_errors=True)
    os.makedirs("listings/folder")
    os.mkfifo("listings/pipe")
    os.symlink("../assembled", "listings/link")
    before = sorted(os.listdir("listings"))
    for path, about in (("missing", "missing: No such file"), ("", "No such file"), ("listing/x", "Not a directory"),
                        *[(path, f"{path}: not a regular file: write") for path in ("listings/folder", "listings/pipe", "/dev/null")]):
        could_not(f"list {path!r}", run("list", path), about)
        could_not(f"assemble from {path!r}", run("assemble", path, "assembled"), about)
    for path, about in (("listings/folder", "Is a directory"), ("listings/folder/", "names no file for a program"), ("", "names no file"),
                        ("listings/none/new", "nothing can be written beside it"), ("listings/pipe", "not a regular file, and so no program"),
                        ("listings/link", "a symbolic link: name the program itself"), ("x" * 250, "File name too long")):
        could_not(f"assemble to {path[:40]!r}", run("assemble", "listing", path), about)
    check("nothing was made", (sorted(os.listdir("listings")), os.listdir("listings/folder"), left()), (before, [], (HELD, False)))


def one_file():
    """LISTING is not replaced, by whatever name: its own, a hard link's, a symbolic link's; and nothing is made."""
    put(TEXT)
    shutil.rmtree("names", ignore_errors=True)
    os.makedirs("names/folder")
    os.link("listing", "names/hard")
    os.symlink("../listing", "names/link")
    os.symlink("..", "names/folder/up")
    before = sorted(os.listdir("."))
    about = "LISTING and PROGRAM are one file: the program would take the listing's place"
    for names in (("listing", "listing"), ("listing", "./listing"), ("listing", "names/hard"), ("names/hard", "listing"), ("names/link", "listing"),
                  ("names/link", "names/hard"), ("listing", "names/folder/up/hard"), (os.path.abspath("listing"), "listing")):
        could_not(f"one file as both: {names}", run("assemble", *names), f"{names[1]}: {about}")
    could_not("one file as both, by a link", run("assemble", "listing", "names/link"), "a symbolic link: name the program itself")
    check("the listing stays", (LISTING.read_bytes(), LISTING.samefile("names/hard"), sorted(os.listdir(".")), sorted(os.listdir("names"))),
          (TEXT, True, before, ["folder", "hard", "link"]))
    shutil.copy("listing", "names/copy")
    check("a file with the same bytes", (run("assemble", "listing", "names/copy")[0], pathlib.Path("names/copy").read_bytes()), (0, WORDS))


def permissions():
    """A program keeps its permissions; what may not be read or written stays. Root asks as nobody."""
    put(TEXT, HELD)
    PROGRAM.chmod(0o640)
    check("permissions", (run("assemble", "listing", "assembled")[0], stat.S_IMODE(PROGRAM.stat().st_mode)), (0, 0o640))
    how = as_nobody()
    put(TEXT, HELD)
    LISTING.chmod(0o000)
    could_not("a listing may not be read", run("assemble", "listing", "assembled", **how), "listing: Permission denied")
    could_not("a program may not be read", run("list", "listing", **how), "listing: Permission denied")
    LISTING.chmod(0o644)
    PROGRAM.chmod(0o444)
    could_not("a program may not be written", run("assemble", "listing", "assembled", **how), "assembled: Permission denied")
    os.chmod(".", 0o555)
    could_not("nor the folder", run("assemble", "listing", "assembled", **how), "assembled: nothing can be written beside it")
    os.chmod(".", 0o700)
    check("the program stays", left(), (HELD, False))


def unwritten():
    """What cannot be written whole is status 2, and the program stays; what a killed command left is taken over."""
    for text in (TEXT, TEXT[:-1]):
        put(text, HELD)
        unwritable(("assemble", "listing", "assembled"))
        shell = ["sh", "-c", 'exec "$@" >&-', "sh", *COMMAND, "assemble", "listing", "assembled"]
        check("to closed output", (subprocess.run(shell, capture_output=True, timeout=120, check=False).returncode, left()), (2, (HELD, False)))
    for most, about in ((0, "File too large"), (95, "No space left")):
        put(TEXT, HELD)
        could_not(f"in {most} bytes", run("assemble", "listing", "assembled", **limited(most)), f".assembled.assembling: cannot be written: {about}")
        check(f"the program in {most} bytes", left(), (HELD, False))
    put(TEXT)
    NEXT.write_bytes(b"x" * 10000)
    check("a killed one's file", (run("assemble", "listing", "assembled")[0], left()), (0, (WORDS, False)))
    unwritable(("list", "assembled"))
    PROGRAM.write_bytes(bytes_of(GOOD[LONGEST]) * 2**12)
    unwritable(("list", "assembled"))


def usage():
    put(TEXT, HELD)
    for given in ((), ("listing",), ("listing", "assembled", "more"), ("-", "assembled"), ("listing", "-"), ("--", "listing", "assembled")):
        could_not(f"assemble {given}", run("assemble", *given), "assemble takes two files, LISTING and PROGRAM, and no option")
    for given in ((), ("listing", "assembled"), ("-",), ("--paste",)):
        could_not(f"list {given}", run("list", *given), "list takes one file, PROGRAM, and no option")
    check("the program stays", left(), (HELD, False))


def shown():
    """The page's examples in order: what is typed, and what is shown of its output, None where nothing is."""
    text = PAGE[PAGE.index("## A small program\n"):]
    for typed, fenced in re.findall(r"((?:^    .+\n)+)(?:\n```\n((?:.+\n)+?)```\n)?", text, re.M):
        yield re.sub("^    ", "", typed, flags=re.M), fenced or None


def rows_of(columns, words):
    """A table of the page by its columns, row by row, in words; `4 to 255` stands for as many rows."""
    table = PAGE[PAGE.index(f"| {columns} |"):].split("\n\n")[0].splitlines()[2:]
    for cells in (re.split(r" \| ", line.strip("| ")) for line in table):
        numbers = [int(word) for cell in cells[words:] for word in cell.split()]
        first, _, last = cells[0].partition(" to ")
        yield from [numbers] * (int(last or first) - int(first) + 1 if words else 1)


def page():
    """docs/LISTING.md's sentences; its example is assembled, run by tests/oracle.py, tabled, judged and edited."""
    jump = TEXT.splitlines(keepends=True)[0] * 11 + b"op=jump a=imm:1 b=imm:4 c=imm:0\n"
    said = ""
    for text in (TEXT.replace(b"\n", b"\r\n"), jump):
        put(text)
        said += run("assemble", "listing", "assembled")[2]
    check("the page's sentences", f"```\n{said}```\n" in PAGE, True)
    shutil.rmtree("page", ignore_errors=True)
    os.mkdir("page")
    os.symlink(ROOT / "tests", "page/tests")
    os.makedirs("page/share/uisnabar")
    os.mkdir("page/bin")
    os.symlink(ROOT / "shelf", "page/share/uisnabar/shelf")
    tables = shelf.answer_and_tables((ROOT / "shelf/seed-0.label").read_bytes())[1]
    pathlib.Path("page/label").write_bytes(tables)
    pathlib.Path("page/bench").write_text('#!/bin/sh\n[ "$*" = "table shelf/seed-0.label" ] && cat label\n')
    pathlib.Path("page/bin/uisnabar-table").write_text("#!/bin/sh\ncmp -s - share/uisnabar/shelf/seed-0.label && cat label\n")
    for path in ("page/bench", "page/bin/uisnabar-table"):
        os.chmod(path, 0o755)
    pathlib.Path("page/listing").write_text("".join(line + "\n" for line in re.findall(r"^\| \d \| `(op=.+)` \|", PAGE, re.M)))
    emulator = " ".join(f"'{word}'" for word in COMMAND)
    for number, (typed, wanted) in enumerate(shown()):
        script = f'uisnabar() {{ {emulator} "$@"; }}\n{typed}'
        done = subprocess.run(["sh", "-c", script], cwd="page", capture_output=True, timeout=120, check=False,
                              env={**os.environ, "PYTHONDONTWRITEBYTECODE": "1"})
        if wanted is not None:
            check(f"the page's example {number}", (done.stdout + done.stderr).decode(), wanted)
        if number == 1:
            tabled()
        if number in (5, 6):
            check(f"the page's tables {number}", pathlib.Path("page/tables").read_bytes(), tables)
    check("the page's examples", (number, pathlib.Path("page/program").read_bytes()), (7, tables[:-43008]))
    check("its listing", run("assemble", "page/listing", "assembled")[0] == 0 and left()[0], pathlib.Path("page/program").read_bytes())


def tabled():
    """The words, and every row of both tables, are those that the page shows."""
    for name, columns, words in (("program", "A | B | C", 0), ("exec", "Row | pc | fp", 1), ("ext", "Row | start | add", 1)):
        found = oracle.words_of(pathlib.Path("page", name).read_bytes())
        check(f"the page's {name}", found, tuple(word for row in rows_of(columns, words) for word in row))


GROUPS = (accepted, sentences, everywhere, unlistable, no_files, one_file, permissions, unwritten, usage, page)
