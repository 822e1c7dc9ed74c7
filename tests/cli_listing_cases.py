"""Lines of listings for tests/cli_listings.py, by hand from documents 01 and 02: the words that each stands for, and
what a line must be told that no listing has; and where a text leaves every valid listing, by all forms of a line."""
import re
from itertools import product

from oracle import P

TOP, MOST, LF, CR = P - 1, 2**20, b"\n", b"\r"

# a line, and its instruction (operands; fA, fB, fC, fpC, fpAB; MUL, JUMP, AUX; DATA)
GOOD = {
    "op=add a=cell:1 b=imm:2 c=fp:3": (1, 2, 3, 0, 1, 0, 1, 0, 0, 0, 1, 0),
    "op=add a=imm:0 b=cell:10 c=imm:2130706432": (0, 10, TOP, 1, 0, 1, 0, 0, 0, 0, 1, 0),
    "op=mul a=imm:7 b=imm:8 c=cell:9": (7, 8, 9, 1, 1, 0, 0, 0, 1, 0, 0, 0),
    "op=mul a=cell:2130706432 b=cell:1000000000 c=fp:0": (TOP, 10**9, 0, 0, 0, 0, 1, 0, 1, 0, 0, 0),
    "op=deref a=cell:4 b=imm:5 c=imm:6": (4, 5, 6, 0, 1, 1, 0, 0, 0, 0, 2, 0),
    "op=deref a=cell:4 b=imm:0 c=cell:6": (4, 0, 6, 0, 1, 0, 0, 0, 0, 0, 2, 0),
    "op=deref a=cell:4 b=imm:2130706432 c=fp:6": (4, TOP, 6, 0, 1, 0, 1, 0, 0, 0, 2, 0),
    "op=jump a=imm:1 b=imm:0 c=fp:0": (1, 0, 0, 1, 1, 0, 1, 0, 0, 1, 0, 0),
    "op=jump a=cell:1 b=cell:2 c=cell:3": (1, 2, 3, 0, 0, 0, 0, 0, 0, 1, 0, 0),
    "op=xadd a=imm:1 b=cell:2 c=imm:3 be=0 n=3": (1, 2, 3, 1, 0, 1, 0, 0, 0, 0, 0, 100),
    "op=xadd a=cell:1 b=imm:2 c=fp:3 be=1 n=1": (1, 2, 3, 0, 1, 0, 1, 0, 0, 0, 0, 38),
    "op=xmul a=fp:1 b=fp:2 c=cell:3 be=1 n=4": (1, 2, 3, 0, 0, 0, 0, 1, 0, 0, 0, 138),
    "op=xpeq a=cell:1 b=cell:2 c=cell:3 be=0 n=3": (1, 2, 3, 0, 0, 0, 0, 0, 0, 0, 0, 112),
    "op=xpeq a=fp:0 b=fp:0 c=fp:0 be=0 n=999999": (0, 0, 0, 0, 0, 0, 1, 1, 0, 0, 0, 31999984),
    "op=add a=imm:0 b=imm:0 c=fp:0": (0, 0, 0, 1, 1, 0, 1, 0, 0, 0, 1, 0),
    "op=xmul a=cell:2130706432 b=cell:2130706432 c=cell:2130706432 be=1 n=1048576": (TOP, TOP, TOP, 0, 0, 0, 0, 0, 0, 0, 0, 33554442),
}
SHORTEST, LONGEST = list(GOOD)[-2:]

# how some valid line begins; what follows, and what is said to be expected in its stead
OPERATIONS = "add, mul, deref, jump, xadd, xmul or xpeq"
WORD, N = "a decimal word below 2130706433", "a decimal number from 1 to 1048576"
MORE, NO_MORE = ", or a digit with which the number does not pass {},", ", as with one digit more the number would pass {},"
ZERO = ", as nothing follows a leading 0,"
WORD_MORE, WORD_NO_MORE, N_MORE, N_NO_MORE = (text.format(most) for most in (TOP, MOST) for text in (MORE, NO_MORE))
A, B, C, BE, END = "a space before a=", "a space before b=", "a space before c=", "a space before be=", "LF"
X = "op=xadd a=imm:1 b=imm:2 c=imm:3"
BAD = [
    ("", b"", "op="), ("", LF, "op="), ("", b"\xef\xbb\xbfop=", "op="), ("", b" op=add", "op="), ("", b"# add", "op="), ("", b"OP=", "op="),
    ("o", b"q=", "op=, begun at column 1,"), ("op", b":add", "op=, begun at column 1,"), ("op", b" =", "op=, begun at column 1,"),
    ("op=", b"sub", OPERATIONS), ("op=", b" add", OPERATIONS), ("op=", LF, OPERATIONS), ("op=", b"ADD", OPERATIONS), ("op=", b"ext", OPERATIONS),
    ("op=x", b"deref", "xadd, xmul or xpeq, begun at column 4,"), ("op=ad", b" ", "add, begun at column 4,"),
    ("op=xm", b"ax", "xmul, begun at column 4,"), ("op=j", b"", "jump, begun at column 4,"),
    ("op=add", b"i a=", A), ("op=add", LF, A), ("op=add", b"\ta=", A), ("op=xadd", b"", A), ("op=jump", b"=", A), ("op=deref", CR, A),
    ("op=add ", b" a=", "a="), ("op=mul ", b"b=", "a="), ("op=mul a", b":", "a=, begun at column 8,"),
    *[(f"op={op} a=", b"fp:1", "imm: or cell:") for op in ("add", "mul", "jump")], ("op=add a=", b"1", "imm: or cell:"),
    ("op=deref a=", b"imm:1", "cell:"), ("op=deref a=", b"fp:1", "cell:"), ("op=xadd a=", b"mem:1", "imm:, cell: or fp:"),
    ("op=add a=c", b":1", "cell:, begun at column 10,"), ("op=add a=imm", b"=1", "imm:, begun at column 10,"),
    ("op=xadd a=f", b"P", "fp:, begun at column 11,"),
    ("op=add a=imm:", b" b=", WORD), ("op=add a=imm:", b"-1", WORD), ("op=add a=imm:", b"+1", WORD), ("op=add a=imm:", b"x1", WORD),
    ("op=add a=imm:0", b"1 b=", B + ZERO), ("op=add a=imm:0", b"0", B + ZERO), ("op=add a=imm:0", b"x10", B + ZERO), ("op=add a=imm:0", b"", B + ZERO),
    ("op=add a=imm:12", b",345", B + WORD_MORE), ("op=add a=imm:213070643", b"3 b=", B + WORD_MORE), ("op=add a=imm:1", LF, B + WORD_MORE),
    ("op=add a=imm:213070644", b"0", B + WORD_NO_MORE), ("op=add a=imm:999999999", b"9", B + WORD_NO_MORE),
    ("op=add a=imm:2130706432", b"0", B + WORD_NO_MORE), ("op=add a=imm:1 ", b"c=", "b="), ("op=add a=imm:1 b", b" =", "b=, begun at column 16,"),
    ("op=add a=imm:1 b=", b"fp:2", "imm: or cell:"), ("op=deref a=cell:1 b=", b"cell:2", "imm:"), ("op=deref a=cell:1 b=", b"fp:2", "imm:"),
    ("op=xmul a=fp:1 b=", b"cell:2", "fp:"), ("op=xmul a=fp:1 b=", b"imm:2", "fp:"), ("op=xmul a=cell:1 b=", b"fp:2", "imm: or cell:"),
    ("op=xpeq a=imm:1 b=", b"fp:2", "imm: or cell:"), ("op=add a=imm:1 b=imm:2", b"", C + WORD_MORE), ("op=add a=imm:1 b=imm:0", b"c", C + ZERO),
    ("op=add a=imm:1 b=imm:2130706432", b"c", C + WORD_NO_MORE),
    ("op=jump a=imm:1 b=imm:2 c=", b"imm:0", "cell: or fp:"), ("op=add a=imm:1 b=imm:2 c=", b"", "imm:, cell: or fp:"),
    ("op=add a=imm:1 b=imm:2 c=fp:3", b"", END + WORD_MORE), ("op=add a=imm:1 b=imm:2 c=fp:3", b"\r\n", END + WORD_MORE),
    ("op=add a=imm:1 b=imm:2 c=fp:3", b" \n", END + WORD_MORE), ("op=jump a=imm:1 b=imm:2 c=fp:0", b"\r\n", END + ZERO),
    ("op=mul a=imm:1 b=imm:2 c=fp:3", b" be=0 n=1\n", END + WORD_MORE), ("op=mul a=imm:1 b=imm:2 c=fp:2130706432", b"", END + WORD_NO_MORE),
    (X, LF, BE + WORD_MORE), (X[:-1] + "0", LF, BE + ZERO), (X[:-1] + "2130706432", LF, BE + WORD_NO_MORE), (X + " ", b"n=", "be="),
    (X + " b", b"=", "be=, begun at column 33,"), (X + " be=", b"2", "0 or 1"), (X + " be=", b"true", "0 or 1"), (X + " be=", b"", "0 or 1"),
    (X + " be=0", b"0 n=", "a space before n="), (X + " be=1", LF, "a space before n="), (X + " be=1 ", b"N=", "n="), (X + " be=1 n", b"", "n=, begun at column 38,"),
    (X + " be=1 n=", b"0\n", N), (X + " be=1 n=", LF, N), (X + " be=1 n=1", b"", END + N_MORE), (X + " be=1 n=104857", b"7\n", END + N_MORE),
    (X + " be=1 n=1048576", b" ", END + N_NO_MORE), (X + " be=1 n=104858", b"0\n", END + N_NO_MORE), (X + " be=1 n=5", b"\r\n", END + N_MORE),
]
FOUND = {"": "and the text ends", "\r": "not CR: a line ends with LF alone", "\n": "not LF", "\t": "not a tab", " ": "not a space"}

# every form of a line, as texts and the numbers between them: the least and the most of each
TWO, THREE = ("imm:", "cell:"), ("imm:", "cell:", "fp:")
MODES = {"add": [(TWO, TWO, THREE)], "mul": [(TWO, TWO, THREE)], "deref": [(("cell:",), ("imm:",), THREE)], "jump": [(TWO, TWO, ("cell:", "fp:"))],
         **dict.fromkeys(("xadd", "xmul", "xpeq"), [(TWO, TWO, THREE), (("fp:",), ("fp:",), THREE)])}
FORMS = []
for op, several in MODES.items():
    for a, b, c in (modes for some in several for modes in product(*some)):
        rest = [" be=", (0, 1), " n=", (1, MOST)] if op[0] == "x" else []
        FORMS.append([f"op={op} a={a}", (0, TOP), f" b={b}", (0, TOP), f" c={c}", (0, TOP), *rest, "\n"])


def begins(text, form):
    """Whether some line of the form begins with the text."""
    for part in form:
        if isinstance(part, str):
            if not text.startswith(part):
                return part.startswith(text)
            text = text[len(part):]
        else:
            digits = re.match("[0-9]*", text)[0]
            fits = part[0] <= int(digits) <= part[1] and digits == str(int(digits)) if digits else text == ""
            if not fits or digits == text:
                return fits
            text = text[len(digits):]
    return text == ""


def place(text):
    """How many bytes the text shares with any valid listing; None where it is one."""
    at = 0
    for number, line in enumerate(re.findall(r"[^\n]*\n|[^\n]+", text.decode("latin-1"))):
        shared = next(n for n in range(len(line), -1, -1) if any(begins(line[:n], form) for form in FORMS))
        if number == MOST or shared < len(line) or line[-1] != "\n":
            return at + (shared if number < MOST else 0)
        at += len(line)
    return None if text else 0
