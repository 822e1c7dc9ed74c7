"""Texts and recipes for the program `test_labels`, and what it must print, from documents 01 and 02's M-103 and M-104.

  python3 tests/labels.py stdin     the program's standard input
  python3 tests/labels.py stdout    what it must write

The place of a refused text is the longest prefix that it shares with any valid label of either version. A label is a
list of fields, each a word chosen freely out of a finite set in which no word starts another; so the longest shared
prefix is found by trying every word of each field."""
import random
import sys

HEX = b"0123456789abcdef"
VERSIONS = (1, 2)
FIELDS = (
    [[b"v=%d\nseed=" % version for version in VERSIONS]]
    + [[bytes([c]) for c in HEX]] * 16
    + [[b"\nm="], [b"%d" % m for m in range(10, 30)], [b"\nn="], [b"%d\n" % n for n in range(1, 125)]]
)
DOTS = b"." * 48
# seed, m, n and the bytes lent, of each version; then version, seed, m, n and bytes: what the program writes of its own
WRITTEN = [
    (0, 10, 1, 48), (0, 10, 1, 35), (0, 10, 1, 34), (0x12fffffff, 10, 9, 48), (0x00ffdb37cb0c5f43, 10, 9, 48),
    (0x2fffffff, 10, 10, 36), (0xffffffff2fffffff, 19, 10, 35), (2**64 - 1, 20, 99, 48),
    (0x0123456789abcdef, 29, 100, 37), (0xfedcba9876543210, 29, 124, 37), (0xfedcba9876543210, 29, 124, 36),
    (0xfedcba9876543210, 29, 124, 0), (1, 9, 1, 48), (1, 30, 1, 48), (1, 10, 0, 48), (1, 10, 125, 48), (1, 0, 0, 0),
    (1, 2**32 - 1, 2**32 - 1, 48),
]
RECIPES = [(version, *recipe) for version in VERSIONS for recipe in WRITTEN] + [
    (0, 1, 10, 1, 48), (3, 1, 10, 1, 48), (2**32 - 1, 1, 10, 1, 48), (2**31, 1, 10, 1, 48), (257, 1, 10, 1, 48),
    (0, 1, 10, 1, 0), (3, 1, 10, 1, 0), (0, 0, 0, 0, 0), (3, 1, 30, 125, 48),
    (2**32 - 1, 2**64 - 1, 2**32 - 1, 2**32 - 1, 0),
]


def label(version, seed, m, n):
    return b"v=%d\nseed=%016x\nm=%d\nn=%d\n" % (version, seed, m, n)


def in_range(version, m, n):
    return version in VERSIONS and 10 <= m <= 29 and 1 <= n <= 124


def common(a, b):
    k = 0
    while k < len(a) and k < len(b) and a[k] == b[k]:
        k += 1
    return k


def place(text):
    """The longest prefix of the text that some choice of a word for each field starts with."""
    at = 0
    for words in FIELDS:
        whole = [w for w in words if text[at:].startswith(w)]
        if not whole:
            return at + max(common(w, text[at:]) for w in words)
        at += len(whole[0])
    return at


def reading(text):
    """The answer's six numbers and the four of the recipe: a text is accepted where it is the label of what is in it."""
    lines = text.split(b"\n")
    if len(lines) == 5:
        try:
            version, seed, m, n = int(lines[0][2:]), int(lines[1][5:], 16), int(lines[2][2:]), int(lines[3][2:])
            if 0 <= seed < 2**64 and in_range(version, m, n) and label(version, seed, m, n) == text:
                return (0, 0, 0, 0, 0, 0, version, seed, m, n)
        except ValueError:
            pass
    return (8, 0, place(text), 0, 0, 0, 0, 0, 0, 0)


def near(base):
    """A label cut at every byte, and with other bytes at each place."""
    for end in range(len(base) + 1):
        yield base[:end]
    for at in range(len(base)):
        for byte in (0, 10, 32, 48, 49, 50, 51, 53, 57, 65, 97, 102, 103, 255):
            if base[at] != byte:
                yield base[:at] + bytes([byte]) + base[at + 1:]


def numbered(version, draw):
    """Seeds, and m and n in range and outside."""
    seeds = [0, 1, 0x2fffffff, 0x12fffffff, 0xffffffff2fffffff, 2**32 - 1, 2**32, 2**63, 2**64 - 1, 0x0123456789abcdef]
    for seed in seeds + [draw.getrandbits(64) for _ in range(20)]:
        yield label(version, seed, draw.randrange(10, 30), draw.randrange(1, 125))
    for m in list(range(0, 32)) + [99, 100, 101, 110, 200, 290, 1000]:
        yield label(version, 7, m, 1)
    for n in list(range(0, 130)) + [130, 199, 200, 240, 999, 1000, 1240, 2**32 + 1, 2**64 + 1]:
        yield label(version, 7, 10, n)


def misspelt(version):
    """Numbers that are written in another way."""
    for m, n in ((b"010", b"1"), (b"10", b"01"), (b"10", b"001"), (b"+10", b"1"), (b" 10", b"1"), (b"10", b"-1"),
                 (b"10", b""), (b"", b"1"), (b"10 ", b"1"), (b"10", b"1 "), (b"1e1", b"1"), (b"10", b"0x1"),
                 (b"1_0", b"1")):
        yield b"v=%d\nseed=0000000000000007\nm=%s\nn=%s\n" % (version, m, n)
    for digits in (b"", b"0" * 14, b"0" * 15, b"0" * 17, b"00000000000000AB", b"ABCDEF0123456789", b"0x00000000000000",
                   b"000000000000000g", b"-000000000000001", b"0000000 00000000", b"0000_000000000000"):
        yield b"v=%d\nseed=%s\nm=10\nn=1\n" % (version, digits)


def framed(base):
    """More than a label, and a label in another style."""
    for tail in (b"\n", b"\0", b"v=1\n", b"v=2\n", b" ", b"0", base):
        yield base + tail
    for head in (b"\n", b"\0", b" ", b"\xef\xbb\xbf"):
        yield head + base
    yield base.replace(b"\n", b"\r\n")
    yield base.replace(b"\n", b"\r")
    yield base.upper()
    yield base.replace(b"seed", b"Seed")


def versions():
    """Other versions, some of them cut at every byte."""
    rest = b"\nseed=000000012fffffff\nm=10\nn=124\n"
    for version in (b"", b"4", b"9", b"01", b"02", b"12", b"21", b"22", b"-1", b"+2", b" 1", b"2 ", b"1.0", b"257",
                    b"65538", b"4294967297", b"4294967298"):
        yield b"v=" + version + rest
    for version in (b"0", b"3", b"11"):
        text = b"v=" + version + rest
        for end in range(3, len(text) + 1):
            yield text[:end]


def texts():
    draw = random.Random(1)
    yield label(1, 0x12fffffff, 10, 125)
    for version in VERSIONS:
        base = label(version, 0x00000001_2fffffff, 10, 124)
        yield from near(base)
        yield from numbered(version, draw)
        yield from misspelt(version)
        yield from framed(base)
        yield b"v=%d\nm=10\nseed=0000000000000007\nn=1\n" % version
    yield from versions()
    yield b"v=1\nv=2\nseed=000000012fffffff\nm=10\nn=124\n"
    yield b"\0" * 40
    yield b"1" * 255


def writing(version, seed, m, n, room):
    """The answer's six numbers and the length written, and the buffer."""
    if not in_range(version, m, n):
        return (1, 0, 0, 0, 0, 0, 0), DOTS
    text = label(version, seed, m, n)
    if room < len(text):
        return (1, 5, len(text), 0, 0, 0, 0), DOTS
    return (0, 0, 0, 0, 0, 0, len(text)), text + DOTS[len(text):]


def main(what):
    out = sys.stdout.buffer
    if what == "stdin":
        for text in texts():
            out.write(bytes([len(text)]) + text)
    else:
        for text in texts():
            out.write(b"".join(b"%d " % x for x in reading(text)) + b"\n")
        for recipe in RECIPES:
            numbers, buffer = writing(*recipe)
            out.write(b"".join(b"%d " % x for x in numbers) + buffer.hex().encode() + b"\n")


main(sys.argv[1])
