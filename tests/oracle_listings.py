"""Listings of programs, written and read, from the documents alone as tests/oracle.py is.

Sources: document 02's M-105 ("02, M-105"), document 01 ("01, <heading>") and the founders' decided points 18 and 28.
The writer is plain. The reader knows no grammar of its own: the shapes of all lines are what the writer makes of every
well-formed instruction, numbers left out, and a text is as long valid as it goes along one of them; one regular
expression, made of all shapes, finds how long that is. tests/oracle.py, run as a program, runs the checks below too.
"""

import re
from functools import lru_cache
from itertools import product

import oracle
from oracle import P, six

LISTING, SHORT, MOST = 16, 17, 2**20
OPS = {(0, 0, 1, 0): "add", (1, 0, 0, 0): "mul", (0, 0, 2, 0): "deref", (0, 1, 0, 0): "jump",
       (0, 0, 0, 4): "xadd", (0, 0, 0, 8): "xmul", (0, 0, 0, 16): "xpeq"}  # by MUL, JUMP, AUX and DATA's operation

# ---- writer ----
def line(words, number="{}".format):
    """A well-formed instruction's line; numbers are written by `number` (02, M-105)."""
    a, b, c, fa, fb, fc, fpc, fpab, mul, jump, aux, data = words
    modes = ("imm" if immediate else "fp" if relative else "cell" for immediate, relative in
             ((fa, fpab), (fb, fpab), (fc, fpc)))
    fields = ["op=" + OPS[mul, jump, aux, data % 32 & ~2]]
    fields += ["%s=%s:%s" % (key, mode, number(word)) for key, mode, word in zip("abc", modes, (a, b, c))]
    if data:
        fields += ["be=%d" % (data // 2 % 2), "n=%s" % number(data // 32)]
    return " ".join(fields).encode() + b"\n"

def list_program(program, room=None):
    """(answer, text) for a buffer of so many bytes, or a long one; None is unchanged (02, M-105; point 18)."""
    refused = oracle.refusal((len(program), 4 << 8, 32 << 8, 120 << 8), (program,))
    if refused:
        return refused, None
    text = b"".join(map(line, oracle.rows_of(oracle.words_of(program), 12)))
    if room is not None and len(text) > room:
        return six(SHORT, 0, len(text)), None
    return six(0), text

# ---- reader ----
def every_form():
    """Every well-formed instruction but for its operands and N (01, Well-formed instructions)."""
    data = (0, *(op + 2 * be + 32 for op in (4, 8, 16) for be in (0, 1)))
    every = product(*[(0, 1)] * 5, (0, 1), (0, 1), (0, 1, 2), data)
    return [words for words in ((0, 0, 0) + flags for flags in every) if oracle.well_formed(words)]

SHAPES = {line(words, lambda _: "#"): words for words in every_form()}

def up_to(most):
    """A pattern of the numbers 1 to most without leading zeros, the longer ones first (02, M-105; point 18)."""
    digits = str(most)
    same = [digits] + [digits[:k] + "[%d-%d]" % (k == 0, int(digit) - 1) + "[0-9]" * (len(digits) - 1 - k)
                       for k, digit in enumerate(digits) if int(digit) > (k == 0)]
    return "|".join(same + ["[1-9][0-9]{0,%d}" % (len(digits) - 2)])

NUMBERS = {"word": "(?:%s|0)" % up_to(P - 1), "length": "(?:%s)" % up_to(MOST)}

def branches(shapes):
    """The shapes as a tree, of a byte's pattern or a number's at each step (02, M-105)."""
    tree = {}
    for shape in shapes:
        at = tree
        for k, byte in enumerate(shape.decode()):
            number = NUMBERS["length" if shape[k - 2:k] == b"n=" else "word"]
            at = at.setdefault(number if byte == "#" else re.escape(byte), {})
    return tree

def longest(tree):
    """A pattern that goes into the tree as far as a text does: at each node one branch at most fits (02, M-105)."""
    return "(?:%s)?" % "|".join(step + longest(below) for step, below in tree.items()) if tree else ""

BEGUN = re.compile(longest(branches(SHAPES)).encode())
NUMBER = re.compile(rb"(?<=:)[0-9]+|(?<=n=)[0-9]+")

@lru_cache(1 << 16)
def read_line(text):
    """(length of the prefix that a line may have, the instruction or None) (02, M-105; point 18)."""
    end = BEGUN.match(text).end()
    if end < len(text) or not text.endswith(b"\n"):
        return end, None
    shape, numbers = SHAPES[NUMBER.sub(b"#", text)], [int(found) for found in NUMBER.findall(text)]
    data = shape[11] % 32 + 32 * numbers[3] if shape[11] else 0
    return end, (*numbers[:3], *shape[3:11], data)

def read_listing(text, room=None):
    """(answer, program) for a buffer of so many bytes, or a long one; None is unchanged (02, M-105; point 18)."""
    program, place = [], 0
    for one in re.findall(rb"[^\n]*\n|[^\n]+", text):
        if len(program) == MOST:
            return six(LISTING, 0, place), None
        length, words = read_line(one)
        if words is None:
            return six(LISTING, 0, place + length), None
        program += (words,)
        place += length
    if not program:
        return six(LISTING), None
    if room is not None and 48 * len(program) > room:
        return six(SHORT, 0, 48 * len(program)), None
    return six(0), oracle.bytes_of([word for words in program for word in words])

# ---- self-check ----
def shared(text, shape):
    """The same prefix by hand, a byte at a time along one shape (02, M-105; point 18)."""
    at = 0
    for k in range(len(shape)):
        if shape[k:k + 1] != b"#":
            if text[at:at + 1] != shape[k:k + 1]:
                return at
            at += 1
            continue
        least, most = (1, MOST) if shape[k - 2:k] == b"n=" else (0, P - 1)
        digits = 0
        while (text[at + digits:at + digits + 1].isdigit() and least <= int(text[at:at + digits + 1]) <= most
               and (digits == 0 or text[at:at + 1] != b"0")):
            digits += 1
        if digits == 0:
            return at
        at += digits
    return at

def check_examples(check):
    """Lines written by hand, and their words (02, M-105)."""
    for text, words in (
            (b"op=add a=cell:1 b=imm:2 c=fp:3\n", (1, 2, 3, 0, 1, 0, 1, 0, 0, 0, 1, 0)),
            (b"op=mul a=imm:0 b=cell:10 c=imm:2130706432\n", (0, 10, P - 1, 1, 0, 1, 0, 0, 1, 0, 0, 0)),
            (b"op=deref a=cell:1 b=imm:2 c=cell:3\n", (1, 2, 3, 0, 1, 0, 0, 0, 0, 0, 2, 0)),
            (b"op=jump a=imm:1 b=imm:5 c=fp:0\n", (1, 5, 0, 1, 1, 0, 1, 0, 0, 1, 0, 0)),
            (b"op=xadd a=imm:7 b=cell:8 c=imm:9 be=0 n=3\n", (7, 8, 9, 1, 0, 1, 0, 0, 0, 0, 0, 100)),
            (b"op=xmul a=fp:1 b=fp:2 c=cell:3 be=1 n=4\n", (1, 2, 3, 0, 0, 0, 0, 1, 0, 0, 0, 138)),
            (b"op=xpeq a=fp:1 b=fp:2 c=fp:3 be=0 n=1048576\n", (1, 2, 3, 0, 0, 0, 1, 1, 0, 0, 0, 16 + 2**25))):
        program = oracle.bytes_of(words)
        check("%s listed" % text, list_program(program, len(text)), (six(0), text))
        check("%s one short" % text, list_program(program, len(text) - 1), (six(SHORT, 0, len(text)), None))
        check("%s read" % text, read_listing(text, 48), (six(0), program))
        check("%s in 47 bytes" % text, read_listing(text, 47), (six(SHORT, 0, 48), None))

def check_refusals(check):
    """Texts that are no listing, and programs that have none, by hand (02, M-105; point 18)."""
    one = b"op=add a=cell:1 b=imm:2 c=fp:3\n"
    for text, place in (
            (b"", 0), (b"\n", 0), (one[:-1], 30), (one + b"\n", 31), (one[:-1] + b"\r\n", 30), (one + b"o", 32),
            (b"op=add a=fp:", 9), (b"op=mul a=imm:1 b=fp:", 17), (b"op=jump a=imm:1 b=imm:1 c=imm:", 26),
            (b"op=deref a=imm:", 11), (b"op=deref a=cell:1 b=cell:", 20), (b"op=xadd a=fp:1 b=imm:", 17),
            (b"op=xadd a=cell:1 b=fp:", 19), (b"op=add a=imm:00", 14), (b"op=add a=imm:2130706433", 22),
            (b"op=add a=imm:21307064320", 23), (b"op=add a=imm:2130706432x", 23), (b"op=add a=imm:9999999999", 22),
            (one[:-1] + b" be=0 n=1\n", 30), (b"op=xadd a=imm:1 b=imm:1 c=imm:1\n", 31),
            (b"op=xadd a=imm:1 b=imm:1 c=imm:1 be=2", 35), (b"op=xadd a=imm:1 b=imm:1 c=imm:1 be=1 n=0", 39),
            (b"op=xadd a=imm:1 b=imm:1 c=imm:1 be=1 n=1048577", 45),
            (b"op=xadd a=imm:1 b=imm:1 c=imm:1 be=1 n=10485760", 46)):
        check("%s refused" % text, read_listing(text), (six(LISTING, 0, place), None))
    good, bad = oracle.inst(aux=1), oracle.inst(aux=3)
    for name, words, wanted in (
            ("nothing", (), six(1, 1)), ("eleven words", good[1:], six(1, 1)),
            ("malformed", good + bad + bad, six(3, 1, 1)), ("a word before it", bad + good[1:] + (P,), six(2, 1, 23))):
        check("%s not listed" % name, list_program(oracle.bytes_of(words), 0), (wanted, None))
    last = one * (MOST - 1)
    check("2^20 lines", read_listing(last + one, 0), (six(SHORT, 0, 48 * MOST), None))
    check("one more", read_listing(last + one + one), (six(LISTING, 0, len(one) * MOST), None))

def check_every_form(check):
    """Of each form the line, every cut of it and many changes of a byte, against the shapes one by one (02, M-105)."""
    check("125 forms, each with a line of its own", (len(every_form()), len(SHAPES)), (125, 125))
    edges, near = (0, 9, 10, 213070643, P - 1), b"\0\n\r 0129:=_abcdefijlmnopqrux"
    for turn, shape in enumerate(SHAPES):
        numbers = iter([edges[(turn + k) % 5] for k in range(3)] + [(1, 99, MOST)[turn % 3]])
        text = re.sub(rb"#", lambda _: b"%d" % next(numbers), shape)
        check("%s reads back" % text, list_program(read_listing(text)[1]), (six(0), text))
        other = [text[:k] for k in range(len(text))]
        other += [text[:k] + bytes([byte]) + text[k + 1:] for k in range(len(text)) for byte in near[turn % 14::14]]
        for spoilt in other:
            place = max(shared(spoilt, each) for each in SHAPES)
            answer, program = read_listing(spoilt)
            if program:
                check("%s reads back" % spoilt, (place, list_program(program)[1]), (len(spoilt), spoilt))
            else:
                check("%s refused" % spoilt, answer, six(LISTING, 0, place))

def self_check():
    """M-105's own checks; (passed, failed)."""
    passed, failed = [], []

    def check(name, got, wanted):
        (passed if got == wanted else failed).append("%.80s: got %.200r, wanted %.200r" % (name, got, wanted))

    check_examples(check)
    check_refusals(check)
    check_every_form(check)
    return passed, failed
