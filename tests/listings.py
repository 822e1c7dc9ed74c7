"""Listings through the library: as tests/listings_table.py has them by hand, and as tests/oracle_listings.py has them.

`listings.py cases | target/c/listings | listings.py compare`: tests/listings calls the proved code. By hand are lines,
texts and programs, which the oracle must have too. By the oracle are the programs of the shelf and programs of every
form, listed and read back, and every cut and every change of a byte of a listing of all forms.
"""
import pathlib
import random
import struct
import sys

sys.dont_write_bytecode = True
import oracle
import oracle_forms
import oracle_listings
from listings_table import GOOD, LINES, MALFORMED, TEXTS
from oracle import P, six

LIST, READ, CUTS, CHANGES = range(4)
FILL, HEAD = b"\xa5", struct.Struct("<5Q")
ANSWER, WRITTEN, VERDICT = struct.Struct("<6I"), struct.Struct("<Q"), struct.Struct("<I")
SHELF = pathlib.Path(__file__).resolve().parent.parent / "shelf"
EDGES, LENGTHS = (0, 1, 9, 10, 99, 213070643, 213070644, P - 2, P - 1), (1, 9, 10, 99, 104858, 2**20 - 1, 2**20)


def program(lines):
    """Bytes of instructions, where -k stands for p - k."""
    return oracle.bytes_of([int(word) % P for line in lines for word in line.split()])


class Case:
    """One call, and what it must give; what it must write is None on a refusal."""

    def __init__(self, name, asked, given, room, answer, out=None, written=8, told=24):
        self.name, self.asked, self.data, self.room, self.answer, self.out = name, asked, given, room, answer, out
        self.written, self.told = written, told

    def given(self):
        return HEAD.pack(self.asked, len(self.data), self.room, self.written, self.told) + self.data

    def wanted(self):
        """What the driver writes of it, in parts: nothing is written where a fixed length is another (point 28)."""
        out = self.out or b""
        told, written = ANSWER.pack(*self.answer), WRITTEN.pack(len(out))
        if self.answer[0] == 13:
            told, written = FILL * self.told, FILL * self.written
        return VERDICT.pack(self.answer[0]), told, written, out + FILL * (self.room - len(out))

    def by_oracle(self):
        found = (oracle_listings.list_program, oracle_listings.read_listing)[self.asked](self.data, self.room)
        if self.answer[0] != 13 and found != (self.answer, self.out):
            yield f"oracle: {self.name}: {found!r:.200}, not {self.answer}, {self.out!r:.100}"

    def by_library(self, stream):
        for part, wanted in zip(("verdict", "answer", "written", "room"), self.wanted()):
            found = stream.read(len(wanted))
            if found != wanted:
                yield f"library: {self.name}: {part} {found!r:.200}, not {wanted!r:.200}"


class Sweep:
    """Every cut, or every change of a byte, of one listing, by the oracle."""

    def __init__(self, asked, text, room):
        self.asked, self.text, self.room = asked, text, room

    def given(self):
        return HEAD.pack(self.asked, len(self.text), self.room, 0, 0) + self.text

    def texts(self):
        if self.asked == CUTS:
            yield from (self.text[:cut] for cut in range(len(self.text) + 1))
            return
        for at in range(len(self.text)):
            before, after = self.text[:at], self.text[at + 1:]
            yield from (before + bytes((byte,)) + after for byte in range(256))

    def by_oracle(self):
        return ()

    def by_library(self, stream):
        self.count = self.accepted = 0
        for text in self.texts():
            answer, out = oracle_listings.read_listing(text, self.room)
            wanted = ANSWER.pack(*answer) + WRITTEN.pack(len(out or b""))
            if out is not None:
                wanted += out + FILL * (self.room - len(out))
            found = stream.read(len(wanted))
            if found != wanted:
                # what the driver writes depends on the verdict, so nothing behind it can be compared
                yield f"library: text {self.count} of a sweep: {found!r:.200}, not {answer}; text {text!r}"
                return
            self.count += 1
            self.accepted += out is not None


def there_and_back(name, whole):
    """A program listed and its listing read, in rooms that suffice, are longer or are too short."""
    text = oracle_listings.list_program(whole)[1]
    for room in (len(text), len(text) + 7, len(text) - 1):
        answer, out = oracle_listings.list_program(whole, room)
        yield Case(f"{name}, listed in {room} bytes", LIST, whole, room, answer, out)
    for room in (len(whole), len(whole) + 7, len(whole) - 1):
        short = room < len(whole)
        answer = six(17, 0, len(whole)) if short else six(0)
        yield Case(f"{name}, read in {room} bytes", READ, text, room, answer, None if short else whole)


def by_hand():
    """The lines alone and all together, the texts, and what is refused before the first byte is written."""
    for line, words in (*LINES, ("\n".join(line for line, _ in LINES), " ".join(words for _, words in LINES))):
        text, whole = line.encode() + b"\n", program([words])
        yield Case(f"{line:.99}, listed", LIST, whole, len(text), six(0), text)
        yield Case(f"{line:.99}, read", READ, text, len(whole), six(0), whole)
        for room in (0, len(text) - 1):
            yield Case(f"{line:.99}, listed in {room} bytes", LIST, whole, room, six(17, 0, len(text)))
        for room in (0, len(whole) - 1):
            yield Case(f"{line:.99}, read in {room} bytes", READ, text, room, six(17, 0, len(whole)))
    first = LINES[0][0].encode() + b"\n"
    for marked in TEXTS:
        place, text = len(marked[:marked.index("|")].encode()), marked.replace("|", "").encode()
        yield Case(f"{marked!r}", READ, text, 96, six(16, 0, place))
        yield Case(f"{marked!r} in no room, behind a line", READ, first + text, 0, six(16, 0, len(first) + place)
                   if text else six(17, 0, 48))
    yield from refused_programs()
    yield from other_lengths()


def refused_programs():
    """SIZE, WORD and INSTRUCTION, each before what comes behind it and before SHORT."""
    for words in MALFORMED:
        for place in (0, 2):
            whole = program([GOOD] * place + [words, GOOD, MALFORMED[0]])
            yield Case(f"{words}, at {place}", LIST, whole, 77 * place, six(3, 1, place))
    bad = program([MALFORMED[0], GOOD])
    for place in (0, 3, 11, 12, 23):
        yield Case(f"word {place}", LIST, oracle.poke(bad, place, P + place), 9, six(2, 1, place))
    for size in (0, 1, 47, 49, 95, 97):
        yield Case(f"program of {size} bytes", LIST, (FILL * 96 + bad)[:size], 0, six(1, 1))


def other_lengths():
    """ANSWER, before all that may be wrong besides."""
    line, words = LINES[0]
    good, bad = (program([words]), line.encode() + b"\n"), (b"", b"")
    for asked in (LIST, READ):
        for data in (good[asked], bad[asked]):
            for written, told in ((8, 0), (8, 16), (8, 23), (8, 25), (0, 24), (7, 24), (9, 24), (24, 8)):
                name = f"{('list', 'read')[asked]} {len(data)} bytes, written of {written}, answer of {told}"
                yield Case(name, asked, data, 99, six(13), None, written, told)


def shelf():
    """Every program of the shelf; no instruction depends on m, so memories of the smallest size do."""
    for path in sorted(SHELF.glob("*.label")):
        verdict, *_, version, seed, _, n = oracle.read_label(path.read_bytes())
        if verdict == 0:
            yield path.stem, oracle.make(version, seed, 10, n)[0]


def some_program(choose, forms):
    """An instruction of each form, with words and lengths at the edges more often than not."""
    code = []
    for words in forms:
        code += [choose.choice(EDGES) if choose.random() < 0.7 else choose.randrange(P) for _ in range(3)]
        length = choose.choice(LENGTHS) if choose.random() < 0.7 else choose.randint(1, 2**20)
        code += [*words[3:11], words[11] % 32 + 32 * length if words[11] else 0]
    return oracle.bytes_of(code)


def all_forms():
    """Of each of M-100's forms one instruction: extensions take each operation, with be and without, in turn."""
    by_form = {}
    for words in oracle_listings.every_form():
        by_form.setdefault(oracle_forms.form(words), []).append(words)
    return [words[turn % len(words)] for turn, words in enumerate(by_form.values())]


def cases():
    choose, every = random.Random(105), oracle_listings.every_form()
    yield from by_hand()
    for name, whole in shelf():
        yield from there_and_back(f"shelf's {name}", whole)
    yield from there_and_back("every form", some_program(choose, every))
    for turn in range(200):
        forms = choose.choices(every, k=choose.randint(1, 40))
        yield from there_and_back(f"program {turn}", some_program(choose, forms))
    swept = some_program(choose, all_forms())
    text = oracle_listings.list_program(swept)[1]
    yield Sweep(CUTS, text, len(swept))
    yield Sweep(CHANGES, text, len(swept))


def reached(every):
    """Whether the table has each op, the sweep each form, operation and be, and enough is read back."""
    ops = {line.split()[0] for line, _ in LINES}
    forms = all_forms()
    if len(ops) != 7 or len(forms) != 50 or len({words[11] for words in forms}) != 7:
        yield f"the table has {len(ops)} ops of 7, the sweep {len(forms)} forms of 50"
    if len([case for case in every if case.asked == READ and case.answer[0] == 0]) < 200:
        yield "too few programs are read back"


def main(words_given):
    every = list(cases())
    if words_given == ["cases"]:
        sys.stdout.buffer.write(b"".join(case.given() for case in every))
        return 0
    stream, faults = sys.stdin.buffer, [*reached(every)]
    for case in every:
        faults += case.by_oracle()
        faults += case.by_library(stream)
    faults += ["the driver wrote more than was asked for"] * (not faults and bool(stream.read(1)))
    while stream.read(1 << 20):
        pass  # so that the driver ends by itself
    cuts, changes = every[-2:]
    said = f"listings: {len(every) - 2} calls, {cuts.count} cuts and {changes.count} changes of a byte, of which "
    print("\n".join(faults[:20]) or said + f"{cuts.accepted} and {changes.accepted} are listings")
    return bool(faults)


if __name__ == "__main__":
    sys.exit(main(sys.argv[1:]))
