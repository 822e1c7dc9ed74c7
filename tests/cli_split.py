"""`uisnabar judge --public`, for tests/cli.py: tables cut and changed here, by hand from document 02's M-109; answers
on the two joined by tests/oracle.py. What must be said of them is tests/cli_split_cases.py's."""
import os
import pathlib
import re
import subprocess

import cli_cases
import oracle
import shelf
from cli_lookups import based, moved_to
from cli_run import COMMAND, FILES, PATH, ROOT, as_nobody, check, could_not, run, unwritable, write
from cli_split_cases import BAD_PUBLIC, BAD_TOTAL, GIVEN, NO_PUBLIC, NO_REST, PAGE, WHOLE_REST, asked, fits, put, sentence, size_sentence
from oracle import P, six
from trials_input import resized
from trials_parts import (
    ADDR_A, EXEC, EXT, EXT_LOOKUPS, IDX_A, IDX_B, MEMORY, PROGRAM, V_A, V_A_BASE, V_B, VALUE_A, changed, each_kind, each_mode, word_at)

ACCEPTED = six(0)


def accepted():
    """Every m' of small memories, of each kind and mode; and of what the table program writes for a label."""
    _, whole = shelf.answer_and_tables((ROOT / "shelf/seed-0.label").read_bytes())
    label = whole[:-43008], whole[-43008:-38912], whole[-38912:-30720], whole[-30720:]
    for name, (parts, start) in (("each kind", each_kind()), ("each mode", each_mode()), ("a label", (label, (0, 0)))):
        cells = len(parts[MEMORY - 1]) // 4
        for log in range(cells.bit_length() - 1):
            asked(name, parts, start, 4 * 2**log, ACCEPTED, paste=log % 3 == 0)


def refused():
    """Every verdict, part and rule, with a cut before, among and behind the cells that are used."""
    for name, answer, parts, start in cli_cases.cases():
        if answer[:2] != (1, MEMORY):
            for log in (0, 4, 7):
                asked(name, parts, start, 4 * 2**log, answer, paste=log == 4)


def cuts():
    """A memory of 256 cells, cut between any two cells and at some bytes: those at 2^m' words alone are accepted."""
    parts, start = each_kind()
    for public in sorted({*range(0, 1025, 4), 1, 2, 3, 5, 6, 7, 9, 511, 513, 1022, 1023}):
        if fits(public, 1024 - public):
            asked("cut", parts, start, public, ACCEPTED)
        else:
            wrong = NO_PUBLIC if public == 0 else NO_REST if public == 1024 else BAD_PUBLIC
            asked("cut", parts, start, public, six(1, 2), size_sentence(public, 1024 - public, wrong), paste=public in (0, 12, 1024))
    check("cuts that fit", [public for public in range(1025) if fits(public, 1024 - public)], [4, 8, 16, 32, 64, 128, 256, 512])


def lengths():
    """Pairs that join to no memory, or to one that is too small or too large; none of these bytes is read."""
    most = 4 * 2**29
    parts, start = each_kind()
    write(parts)
    for public, rest, wrong in (
            (0, 0, NO_PUBLIC), (0, 1020, NO_PUBLIC), (0, most, NO_PUBLIC), (4, 0, NO_REST), (512, 0, NO_REST), (most // 2, 0, NO_REST),
            (3, 1020, BAD_PUBLIC), (12, 1012, BAD_PUBLIC), (1020, 4, BAD_PUBLIC), (5, 0, BAD_PUBLIC), (24, 1024, BAD_PUBLIC),
            (most, 0, BAD_PUBLIC), (most, most, BAD_PUBLIC), (most, 4, BAD_PUBLIC), (most // 2 + 4, most // 2 - 4, BAD_PUBLIC),
            (2 * most, 0, BAD_PUBLIC), (4 * 2**32, 1020, BAD_PUBLIC), (2**32 + 4, 1020, BAD_PUBLIC),
            (4, 1024, WHOLE_REST), (64, 4096, WHOLE_REST), (1024, 2048, WHOLE_REST), (2048, 1024, WHOLE_REST), (4, most, WHOLE_REST),
            (4, 1016, BAD_TOTAL), (4, 1019, BAD_TOTAL), (4, 1021, BAD_TOTAL), (4, 4, BAD_TOTAL), (256, 256, BAD_TOTAL), (4, 508, BAD_TOTAL),
            (512, 508, BAD_TOTAL), (512, 516, BAD_TOTAL), (1024, 1, BAD_TOTAL), (4, 2**32 + 1020, BAD_TOTAL), (4, 2 * most - 4, BAD_TOTAL),
            (most // 2, 3 * most // 2, BAD_TOTAL)):
        for name, length in (("public", public), ("rest", rest)):
            pathlib.Path(name).write_bytes(b"")
            os.truncate(name, length)
        found = run(*GIVEN, "--fp", str(start[1]))
        check(f"{public} and {rest} bytes", (fits(public, rest), *found),
              (False, 1, shelf.six_lines(six(1, 2)), size_sentence(public, rest, wrong) + "\n"))


def largest():
    """2^29 words may come in two, and more may not: a word of the program is told before the memory is read."""
    parts, start = each_kind()
    parts = changed(parts, (PROGRAM, 3, 1, P))
    write(parts)
    for log in (0, 1, 20, 28):
        for name, words in (("public", 2**log), ("rest", 2**29 - 2**log)):
            pathlib.Path(name).write_bytes(b"")
            os.truncate(name, 4 * words)
        wanted = (1, shelf.six_lines(six(2, 1, 37)), cli_cases.sentence(six(2, 1, 37), parts, start) + "\n")
        check(f"2^29 words, 2^{log} of them public", run(*GIVEN, "--fp", str(start[1])), wanted)


def order():
    """Part 1 before part 2, and part 2 before parts 3 and 4; all lengths before any word."""
    whole, start = each_kind()
    wrong = size_sentence(12, 1012, BAD_PUBLIC)
    for bad in range(1, 16):
        parts = whole
        for part in (PROGRAM, EXEC, EXT):
            parts = resized(parts, part, len(parts[part - 1]) - 1) if bad >> part - 1 & 1 else parts
        public, first = 12 if bad >> 1 & 1 else 16, (bad & -bad).bit_length()
        parts = changed(parts, (MEMORY, 0, 0, P))
        asked(f"parts {bad:04b}", parts, start, public, six(1, first), wrong if first == MEMORY else None)
    asked("a word before an instruction", changed(whole, (PROGRAM, 0, 11, 1), (MEMORY, 9, 0, P)), start, 16, six(2, 2, 9))
    asked("a word before the start", changed(whole, (MEMORY, 99, 0, P)), (1, 1), 16, six(2, 2, 99))


def words():
    """A word at or above p on either side of the seam and at both ends, alone and before another."""
    parts, start = each_kind()
    for log in (0, 3, 7):
        for cell in sorted({0, 2**log - 1, 2**log, 2**log + 1, 255}):
            for word in (P, 2**32 - 1):
                now = changed(parts, (MEMORY, cell, 0, word))
                asked(f"word {cell} is {word}", now, start, 4 * 2**log, six(2, 2, cell), paste=True)
                asked(f"word {cell} and the last", changed(now, (MEMORY, 255, 0, P)), start, 4 * 2**log, six(2, 2, cell))
    for change in ((EXEC, 0, 0, P), (EXT, 0, 0, P)):
        asked("a word of a table too", changed(parts, (MEMORY, 200, 0, P), change), start, 64, six(2, 2, 200))
    asked("a word of the program too", changed(parts, (MEMORY, 0, 0, P), (PROGRAM, 0, 0, P)), start, 64, six(2, 1, 0))
    asked("no word", changed(parts, (MEMORY, 255, 0, P - 1)), start, 4, ACCEPTED)


def one_cell():
    """A row that looks up the cells about the seam, and the first that there is not."""
    parts, start = each_kind()
    for log in (0, 2, 7):
        for cell in sorted({0, 2**log - 1, 2**log, 2**log + 1, 255}):
            held = word_at(parts, MEMORY, cell, 0)
            there = changed(parts, (EXEC, 255, ADDR_A, cell), (EXEC, 255, VALUE_A, held))
            asked(f"cell {cell} looked up", there, start, 4 * 2**log, ACCEPTED)
            other = (held + 5) % P
            asked(f"cell {cell} is another", changed(there, (EXEC, 255, VALUE_A, other)), start, 4 * 2**log, six(5, 3, 255, 2, held, other))
    for public in (4, 512):
        far = changed(parts, (EXEC, 255, ADDR_A, 256), (EXEC, 255, VALUE_A, 0))
        asked("a cell that there is not", far, start, public, six(5, 3, 255, 2), paste=True)


def five_cells():
    """Five cells before, across and behind the seam, and beyond the memory: as they are, and with each word another."""
    parts, start = each_kind()
    memory = oracle.words_of(parts[MEMORY - 1])
    for public, first in ((2**log, first) for log in (1, 4, 7) for first in range(max(0, 2**log - 5), 2**log + 1)):
        held = memory[first:first + 5]
        there = changed(parts, *moved_to(EXT, 9, IDX_A, V_A, first, held), *moved_to(EXT, 9, IDX_B, V_B, first, held),
                        (EXT, 9, V_A_BASE, held[0]))
        asked(f"cells from {first} on", there, start, 4 * public, ACCEPTED)
        for rule, at in ((rule, at) for rule in (19, 20) for at in range(5)):
            column = EXT_LOOKUPS[rule][1] + at
            answer = six(6, 4, 9, rule, held[at], (held[at] + 7) % P)
            asked(f"cells from {first} on, rule {rule}, word {at}", changed(there, (EXT, 9, column, answer[5])), start, 4 * public, answer)
    for rule, number, column in ((19, IDX_A, V_A), (20, IDX_B, V_B)):
        for first in (252, 255):
            there = (memory[first:] + (0,) * 5)[:5]
            now = changed(parts, *moved_to(EXT, 9, number, column, first, there), *based(parts, rule, first))
            asked(f"rule {rule}, cells from {first} on", now, start, 512, six(6, 4, 9, rule))


def starts():
    """64 bits of each start number count."""
    parts, (pc, fp) = each_kind()
    for start in ((pc, fp + 2**32), (pc + 2**32, fp), (pc + 1, fp), (fp, pc), (2**64 - 1, 2**64 - 1)):
        asked(f"start {start}", parts, start, 64, six(4))


def larger():
    """A memory of 2^24 words."""
    parts, start = each_kind()
    write(parts)
    for public in (4, 256, 4 * 2**23):
        held = parts[MEMORY - 1] + bytes(max(0, public - 1024))
        pathlib.Path("public").write_bytes(held[:public])
        pathlib.Path("rest").write_bytes(held[public:])
        os.truncate("rest", 4 * 2**24 - public)
        said = cli_cases.sentence(ACCEPTED, parts, start) + "\n"
        check(f"2^24 words, {public} bytes public", run(*GIVEN, "--fp", str(start[1])), (0, shelf.six_lines(ACCEPTED), said))


def files():
    """What is no file to map, for either; odd names; one file for both; a file that becomes shorter."""
    parts, start = each_kind()
    put(parts, 512)
    given = [*GIVEN, "--fp", str(start[1])]
    for name in ("public", "rest"):
        at = given.index(name, 2)
        for path, about in (("missing", "missing: No such file"), ("program/x", "program/x: Not a directory"), ("", "No such file"),
                            *[(path, f"{path}: not a regular file") for path in ("folder", "pipe", "/dev/null")]):
            could_not(f"{path} for {name}", run(*given[:at], path, *given[at + 1:]), about)
    how = as_nobody()
    for name in ("public", "rest"):
        os.chmod(name, 0o000)
        could_not(f"{name} may not be read", run(*given, **how), f"{name}: Permission denied")
        os.chmod(name, 0o644)
    os.chmod(".", 0o700)
    for name in ("a b", "-pc", "--fp", "--", "$(touch made)", "new\nline"):
        os.rename("public", name)
        check(f"public words named {name!r}", run("judge", "--public", name, *given[3:], "--paste")[0], 0)
        os.rename(name, "public")
    check("no shell was asked", os.path.exists("made"), False)
    same = changed(parts, *[(MEMORY, cell + 128, 0, word_at(parts, MEMORY, cell, 0)) for cell in range(128)])
    put(same, 512)
    answer = oracle.judge(same[0], same[1], *start, *same[2:])
    found = run(*[word if word != "rest" else "public" for word in given])
    check("one file for both", found, (int(answer[0] > 0), shelf.six_lines(answer), sentence(answer, same, start, 512) + "\n"))
    unwritable(given)
    shortened(parts, given)


def shortened(parts, given):
    """By sha256sum, which runs before the judge: at its first sum, and at the last but one."""
    own, tool = os.path.abspath("own-split"), pathlib.Path("own-split/sha256sum")
    os.mkdir(own)
    for name, script in ((name, script) for name in ("public", "rest") for script in (
            ": >{0}; sha256sum", "cat >copy; [ $(wc -c <copy) != 30720 ] || : >{0}; sha256sum <copy")):
        put(parts, 512)
        tool.write_text(f"#!/bin/sh\nPATH='{PATH}'\n{script.format(name)}\n")
        tool.chmod(0o755)
        could_not(f"{name} becomes shorter: {script!r}", run(*given, "--paste", path=f"{own}:{PATH}"), "a file became shorter")


def usage():
    put(each_kind()[0], 512)
    pathlib.Path("tables").write_bytes(bytes(49008))
    could_not("--public with TABLES", run("judge", "--public", "public", "tables"), "the memory in TABLES is whole")
    could_not("TABLES, then --public", run("judge", "tables", "--public", "public"), "--public goes with PROGRAM REST EXEC EXT")
    could_not("--public without a file", run("judge", *FILES, "--public"), "--public takes a file")
    could_not("--public alone", run("judge", "--public"), "--public takes a file")
    could_not("--public twice", run(*GIVEN, "--public", "rest"), '--public stands twice, with "public" and with "rest"')
    for given in ((), FILES[:2], FILES[:3]):
        about = f"judge takes PROGRAM REST EXEC EXT with --public: {len(given)} files were handed in"
        could_not(f"--public, {given}", run("judge", *given, "--public", "public"), about)
    could_not("--public, five files", run(*GIVEN, "ext"), 'with --public: "ext" is one too many')
    for words in (["count", "grid"], ["ranges"]):
        about = f'{words[0]} has no option "--public"'
        could_not(f"{words[0]} --public", run(*words, "--public", "public", *FILES), about)
    check("no grid", os.path.exists("grid"), False)
    for option in ("--public=public", "--publi", "-public"):
        could_not(option, run("judge", option, *FILES), f'judge has no option "{option}"')
    could_not("--public behind --", run("judge", "--", "--public", "public", *FILES[:2]), "--public: No such file")


def page():
    """docs/VERDICTS.md's example, as it stands there; README.md's lines of usage, which --help has."""
    _, whole = shelf.answer_and_tables((ROOT / "shelf/seed-0.label").read_bytes())
    os.mkdir("cut")
    pathlib.Path("cut/tables").write_bytes(whole)
    command = " ".join(f"'{word}'" for word in COMMAND)
    script = f'uisnabar() {{ {command} "$@"; }}\n' + "".join(re.findall(r"^    (.*\n)", PAGE, re.M))
    done = subprocess.run(["sh", "-c", script], cwd="cut", capture_output=True, timeout=120, check=False)
    said = (shelf.six_lines(ACCEPTED), cli_cases.sentence(ACCEPTED, (), (0, 0)).encode() + b"\n")
    check("the page's first judgement", (done.stdout.startswith(said[0]), done.stderr.startswith(said[1])), (True, True))
    shown = done.stdout[len(said[0]):] + done.stderr[len(said[1]):]
    check("the page's second judgement", (done.returncode, f"```\n{shown.decode()}```\n" in PAGE), (1, True))
    read = {line.strip() for line in re.findall(r"^    uisnabar [a-z]+ .*[A-Z].*$", (ROOT / "README.md").read_text(), re.M)}
    helped = set(re.findall(r"^(?:usage:|      ) (uisnabar [a-z].*)$", run("--help")[1].decode(), re.M))
    check("README.md's usage", sorted(read ^ helped), [])


GROUPS = (accepted, refused, cuts, lengths, largest, order, words, one_cell, five_cells, starts, larger, files, usage, page)
