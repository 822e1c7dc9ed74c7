"""`uisnabar label`, for tests/cli.py: answers by tests/oracle.py, words by docs/VERDICTS.md."""
import os

import cli_page
import oracle
import shelf
from cli_run import ROOT, check, could_not, run
from oracle import six

LINES = [words for _, words in cli_page.table("Versions of a label")]
VERSIONS = (1, 2)
# what is put in a label's place, and where the text then leaves every valid label
BAD = ((b"\n", b"\r\n", 3), (b"v=", b"V=", 0), (b"v=", b" v=", 0), (b"v=", b"v= ", 2), (b"v=", b"v=0", 2), (b"v=", b"v=3", 2),
       (b"v=", b"v=2", 3), (b"v=", b"v=1", 3), (b"seed", b"Seed", 4), (b"f\n", b"F\n", 24), (b"f\n", b"g\n", 24), (b"f\n", b"\n", 24),
       (b"f\n", b"f0\n", 25), (b"m=29", b"m=30", 28), (b"m=29", b"m=9", 28), (b"m=29", b"m=010", 28), (b"m=29", b"m=290", 30),
       (b"n=124", b"n=0", 33), (b"n=124", b"n=01", 33), (b"n=124", b"n=125", 35), (b"n=124", b"n=130", 35), (b"n=124", b"n=1240", 36),
       (b"124\n", b"124\n\n", 37), (b"124\n", b"124\nv=2\n", 37), (b"124\n", b"124\n\0", 37))


def sentence(text, answer, recipe):
    """What standard error must have."""
    verdict, _, place = answer[:3]
    if verdict == 0:
        return "ACCEPTED: a label of version {}, seed {:016x}, m {} and n {}\n".format(*recipe)
    line = text[:place].count(b"\n")
    must = f"line {line + 1} must be {LINES[line]}, and end with LF" if line < len(LINES) else f"nothing may follow line {line}"
    if place < len(text):
        return f"LABEL: the first {place} bytes begin a valid label, and the next, 0x{text[place]:02x}, fits none: {must}\n"
    return f"LABEL: the text ends after {place} bytes, where every valid label that begins so goes on: {must}\n"


def told(text):
    """Status, lines and sentence of a text."""
    numbers = oracle.read_label(text)
    answer, recipe = numbers[:6], numbers[6:]
    return int(answer[0] > 0), shelf.six_lines(answer), sentence(text, answer, recipe)


def longest(version):
    return b"v=%d\nseed=0123456789abcdef\nm=29\nn=124\n" % version


def shelved():
    """Every label of the shelf, from a file and from standard input."""
    for path in sorted((ROOT / "shelf").glob("*.label")):
        text = path.read_bytes()
        check(path.name, run("label", str(path)), told(text))
        check(path.name + " on standard input", run("label", stdin=text), told(text))


def both():
    """The same lines with either version; each version is said."""
    for version in VERSIONS:
        for seed, m, n in ((0, 10, 1), (2**64 - 1, 29, 124), (0x0123456789ABCDEF, 19, 9), (1 << 32, 20, 99)):
            text = b"v=%d\nseed=%016x\nm=%d\nn=%d\n" % (version, seed, m, n)
            said = f"ACCEPTED: a label of version {version}, seed {seed:016x}, m {m} and n {n}\n"
            check(f"{text}", run("label", stdin=text), (0, shelf.six_lines((0,)), said))


def cut():
    """A label of either version that ends at each byte."""
    for version in VERSIONS:
        for place in range(len(longest(version))):
            text = longest(version)[:place]
            answer = six(8, 0, place)
            check(f"version {version}, {place} bytes", run("label", stdin=text), (1, shelf.six_lines(answer), sentence(text, answer, ())))


def spoiled():
    """A byte that fits no label, in each line and behind the last."""
    for version in VERSIONS:
        for old, new, place in BAD:
            text, answer = longest(version).replace(old, new), six(8, 0, place)
            check(f"{text}", run("label", stdin=text), (1, shelf.six_lines(answer), sentence(text, answer, ())))
            check(f"{text}, by the second implementation", oracle.read_label(text)[:6], answer)


def versions():
    """What line 1 may be is said wherever it is something else."""
    for text in (b"", b"v", b"v=", b"v=\n", b"v=0\n", b"v=3\n", b"v=22\n", b"v=2", b"v=2\r\n", b"v=02\n", b"\xef\xbb\xbfv=2\n"):
        status, _, said = run("label", stdin=text)
        check(f"{text}", (status, said.endswith(": line 1 must be v=1 or v=2 (versions 1 and 2 are known), and end with LF\n")), (1, True))


def no_labels():
    """Endless input, and what cannot be read."""
    check("endless", run("label", "/dev/zero")[:2], (1, shelf.six_lines((8,))))
    could_not("no label", run("label", "missing"), "missing: No such file")
    could_not("a folder for a label", run("label", "."), ".: Is a directory")
    could_not("two labels", run("label", "a", "b"), "one file at most")
    could_not("a label's option", run("label", "--paste"), "no option")
    could_not("no standard input", run("label", stdin=os.open("folder", os.O_RDONLY)), "standard input")


GROUPS = (shelved, both, cut, spoiled, versions, no_labels)
