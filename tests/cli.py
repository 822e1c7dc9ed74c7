"""The command `uisnabar`, run: `python3 tests/cli.py target/cli/uisnabar`, or an emulator's words before it.

Answers are computed by tests/oracle.py, sentences taken from docs/VERDICTS.md, sums from Python's own SHA-256. It works
in a folder of its own. Lookups are in tests/cli_lookups.py, memories in two files in tests/cli_split.py, counts and
reports in tests/cli_forms.py, range checks in tests/cli_ranges.py, translations in tests/cli_translate.py, listings in
tests/cli_listings.py, streams in tests/cli_streams.py, labels in tests/cli_labels.py."""
import os
import pathlib
import re
import subprocess
import sys
import tempfile

sys.dont_write_bytecode = True
import cli_cases
import cli_forms
import cli_labels
import cli_listings
import cli_lookups
import cli_ranges
import cli_run
import cli_split
import cli_streams
import cli_translate
import oracle
import shelf
from cli_lookups import spoiled
from cli_run import COMMAND, FILES, PATH, ROOT, check, could_not, run, unwritable, write
from oracle import six
from trials_parts import each_kind


def judged():
    """Every verdict, part and rule."""
    status, version, _ = run("--version")
    check("--version", (status, version.endswith(b", leanVM draft 0.6.0\n"), version.startswith(b"uisnabar ")), (0, True, True))
    version = version.decode().rstrip("\n")
    for name, answer, parts, start in cli_cases.cases():
        write(parts)
        words = ["judge", "--pc", str(start[0]), "--fp", str(start[1]), *FILES]
        lines, said = shelf.six_lines(answer), cli_cases.sentence(answer, parts, start) + "\n"
        check(name, run(*words), (int(answer[0] > 0), lines, said))
        wanted = lines + cli_cases.paste(version, answer, parts, start).encode()
        check(name + ", --paste", run(*words, "--paste"), (int(answer[0] > 0), wanted, said))


def tables():
    """What the table program writes, in one file."""
    _, whole = shelf.answer_and_tables((ROOT / "shelf/seed-0.label").read_bytes())
    sizes = (len(whole) - 43008, 4096, 8192, 30720)
    for name, data, status, answer in (
            ("as written", whole, 0, six(0)), ("value B of row 17", spoiled(whole), 1, six(5, 3, 17, 3, 335903614, 335903489)),
            ("a byte short", whole[1:], 1, six(1, 1)), ("no program", whole[sizes[0]:], 1, six(1, 1)),
            ("an instruction twice", whole[:48] + whole, 1, None)):
        pathlib.Path("tables").write_bytes(data)
        parts = [data[:len(data) - 43008], data[-43008:-38912], data[-38912:-30720], data[-30720:]]
        answer = answer or oracle.judge(parts[0], parts[1], 0, 0, *parts[2:])
        said = cli_cases.sentence(answer, parts, (0, 0)) + "\n"
        check("tables, " + name, run("judge", "tables"), (status, shelf.six_lines(answer), said))
    pathlib.Path("tables").write_bytes(whole[-43007:])
    could_not("tables, too short", run("judge", "tables"), "43007 bytes")
    pathlib.Path("tables").write_bytes(b"")
    could_not("tables, empty", run("judge", "tables"), "empty")
    check("tables, another start", run("judge", "--fp", "9", "tables")[0], 2)


def numbers():
    """64 bits of each start number count, and nothing but a number is taken."""
    parts, start = each_kind()
    write(parts)
    for text in ("", "-1", "+1", " 1", "1 ", "1\n", "0x10", "1e3", "1.0", "1,000", "1a", "\u0661", str(2**64), str(2**64 + 4), "9" * 40):
        for option in ("--pc", "--fp"):
            could_not(f"{option} {text!r}", run("judge", option, text, *FILES), f"{option} takes a decimal number")
    could_not("--pc without a number", run("judge", *FILES, "--pc"), "--pc takes a decimal number")
    fp = start[1]
    for number in (2**32 + fp, 2**63 + fp, 2**64 - 1):
        answer = six(4)
        said = cli_cases.sentence(answer, parts, (0, number)) + "\n"
        check(f"--fp {number}", run("judge", "--fp", str(number), *FILES), (1, shelf.six_lines(answer), said))
    check("zeros before a number", run("judge", *FILES, "--fp", f"000{fp}")[0], 0)
    check("no start", run("judge", *FILES)[0], 1)


def usage():
    status, out, said = run()
    check("no word", (status, out, said.startswith("usage: uisnabar judge")), (2, b"", True))
    names = "judge", "count", "report", "ranges", "translate", "list", "assemble", "host", "jump", "label"
    for words in (("--help",), *((name, "--help") for name in names)):
        check(f"{words}", run(*words), (0, said.encode(), ""))
    for words in (("judged",), ("--help", "more"), ("--version", "more"), ("",), ("-v",)):
        check(f"{words}", run(*words), (2, b"", said))
    could_not("no file", run("judge"), "0 files")
    could_not("two files", run("judge", "program", "memory"), "2 files")
    could_not("five files", run("judge", *FILES, "ext"), "one too many")
    could_not("an option", run("judge", "--pcs", "1", *FILES), 'no option "--pcs"')


def files():
    """What is no file to map; odd names; empty files."""
    parts, start = each_kind()
    write(parts)
    given = ["judge", "--fp", str(start[1])]
    os.mkfifo("pipe")
    for place in range(4):
        for path, about in (("missing", "missing: No such file"), ("program/x", "program/x: Not a directory"), ("", "No such file"),
                            *[(path, f"{path}: not a regular file") for path in ("folder", "pipe", "/dev/null")]):
            could_not(f"{path} for {FILES[place]}", run(*given, *FILES[:place], path, *FILES[place + 1:]), about)
        pathlib.Path("empty").write_bytes(b"")
        named = run(*given, "--paste", *FILES[:place], "empty", *FILES[place + 1:])
        check(f"empty {FILES[place]}", (named[0], named[1].startswith(shelf.six_lines((1, place + 1)))), (1, True))
    for name in ("a b", "-pc", "$(touch made)", "'; touch made #", '"', "new\nline", "*"):
        os.rename("program", name)
        check(f"a file named {name!r}", run(*given, "--paste", "--", name, *FILES[1:])[0], 0)
        os.rename(name, "program")
    check("no shell was asked", os.path.exists("made"), False)
    with open("memory", "ab") as memory:
        memory.truncate(4 * 2**24)
    accepted = six(0)
    said = cli_cases.sentence(accepted, parts, start) + "\n"
    check("a memory of 2^24 words", run(*given, *FILES), (0, shelf.six_lines(accepted), said))


def streams():
    """Output that cannot be written is status 2, whatever the answer."""
    parts, start = each_kind()
    write(parts)
    given = ["judge", "--fp", str(start[1]), *FILES]
    label = ["label", str(ROOT / "shelf/seed-0.label")]
    for words in (given, given + ["--paste"], ["judge", *FILES], label, ["--version"], ["--help"]):
        unwritable(words)
        with open("folder/read", "rb") as read_alone:
            could_not(f"{words} to what is read", run(*words, stdout=read_alone), "standard output cannot be written: Bad file")


def closed():
    """Standard streams that are closed: no file takes their place."""
    shell = 'exec "$@" '
    words = [*COMMAND, "judge", "--fp", str(each_kind()[1][1]), "--paste", *FILES]
    for which, status in (("<&-", 0), ("2>&-", 0), ("<&- 2>&-", 0), (">&-", 2), ("<&- >&- 2>&-", 2)):
        done = subprocess.run(["sh", "-c", shell + which, "sh", *words], capture_output=True, timeout=120, check=False)
        check(f"closed {which}", (done.returncode, bool(done.stdout)), (status, status == 0))
    done = subprocess.run(["sh", "-c", shell + "<&-", "sh", *COMMAND, "label"], capture_output=True, timeout=120, check=False)
    check("a label from closed input", (done.returncode, done.stdout), (2, b""))


def sums():
    """sha256sum missing, failing, silent; and a file that becomes shorter after it was mapped."""
    parts, start = each_kind()
    write(parts)
    given = ["judge", "--fp", str(start[1]), "--paste", *FILES]
    could_not("no sha256sum", run(*given, path=os.path.abspath("folder")), "sha256sum is missing")
    check("no sha256sum, not asked for", run(*[word for word in given if word != "--paste"], path=os.path.abspath("folder"))[0], 0)
    own, tool = os.path.abspath("own"), pathlib.Path("own/sha256sum")
    os.mkdir(own)
    for script, about in (("cat >/dev/null; exit 1", "gave no sum"), ("cat >/dev/null", "gave no sum"), ("exit 0", "gave no sum"),
                          ("cat >/dev/null; echo none", "gave no sum"), ("sha256sum; exit 1", "gave no sum"), ("sha512sum", "gave no sum"),
                          (": >exec; sha256sum", "a file became shorter"),  # before its own sum
                          # before the judge, after the last sum
                          ("cat >copy; [ $(wc -c <copy) != 30720 ] || : >exec; sha256sum <copy", "a file became shorter")):
        write(parts)
        tool.write_text(f"#!/bin/sh\nPATH='{PATH}'\n{script}\n")
        tool.chmod(0o755)
        could_not(f"sha256sum as {script!r}", run(*given, path=f"{own}:{PATH}"), about)
    write(parts)
    tool.write_text("#!/bin/sh\ncat >/dev/null\nprintf %064d 0\nsleep 0.1\necho '  -'\n")
    status, out, _ = run(*given, path=f"{own}:{PATH}")
    check("a sum in two pieces", (status, out.count(b"sha256 " + b"0" * 64 + b"\n")), (0, 4))


def pages():
    """The output that README.md and docs/DISPUTE.md show is what is printed."""
    _, whole = shelf.answer_and_tables((ROOT / "shelf/seed-0.label").read_bytes())
    pathlib.Path("tables").write_bytes(spoiled(whole))
    for page, words in (("README.md", ["judge", "tables"]), ("docs/DISPUTE.md", ["judge", "--paste", "tables"])):
        _, out, said = run(*words)
        shown = "```\n" + out.decode() + (said if "--paste" not in words else "") + "```\n"
        text = re.sub(r"^uisnabar \S+,", "uisnabar,", (ROOT / page).read_text(), flags=re.M)  # whatever the version
        check(page, re.sub(r"^uisnabar \S+,", "uisnabar,", shown, flags=re.M) in text, True)


def main():
    with tempfile.TemporaryDirectory() as folder:
        os.chdir(folder)
        os.mkdir("folder")
        pathlib.Path("folder/read").write_bytes(b"")
        for group in (judged, tables, numbers, usage, files, streams, closed, sums, pages, *cli_lookups.GROUPS, *cli_split.GROUPS,
                      *cli_labels.GROUPS, *cli_forms.GROUPS, *cli_ranges.GROUPS, *cli_translate.GROUPS, *cli_listings.GROUPS,
                      *cli_streams.GROUPS):
            group()
        os.chdir(ROOT)
    print("\n".join(cli_run.faults + [f"{cli_run.tried} tried, {len(cli_run.faults)} faults"]))
    return 1 if cli_run.faults else 0


if __name__ == "__main__":
    sys.exit(main())
