"""Programs of draft 0.5.0: their translation and their machine, written from the documents alone as tests/oracle.py is.

Sources: document 02's M-102 ("02, M-102"), draft 0.5.0 ("0.5.0, <section>"), document 01 ("01, <heading>") and the
founders' decided points 15 and 28. An old instruction is a tuple of 14 words: operands A, B, C; flags A, B, C; ADD,
MUL, DEREF, JUMP, IS_PRECOMPILE, PRECOMPILE_INDEX; AUX_1, AUX_2. The machine and the translation do not know each other.
tests/oracle.py, run as a program, runs the checks below too.
"""

from itertools import product

import oracle
from oracle import P, Stuck, six

EDITION, WIDTH = 15, 14
KINDS = {(1, 0, 0, 0): "add", (0, 1, 0, 0): "mul", (0, 0, 1, 0): "deref", (0, 0, 0, 1): "jump"}
# flags A, B, C and AUX of a DEREF, to what its right side is
RIGHT_SIDES = {(0, 1, 1, 1): "gamma", (0, 0, 1, 1): "cell", (0, 1, 1, 0): "fp"}

# ---- translation ----
def operand_c(mode, operand):
    """C's (operand, fC, fpC) in draft 0.6.0 (01, Layouts); fp itself is fp + 0 (02, M-102)."""
    return {"gamma": (operand, 1, 0), "cell": (operand, 0, 0), "fp": (0, 0, 1)}[mode]

def translated(words):
    """The 12 words of an instruction, or None where it is not translatable (02, M-102; 0.5.0, 3.1.4; point 15)."""
    a, b, c, *flags = words[:6]
    kind, precompile, (aux_1, aux_2) = KINDS.get(tuple(words[6:10])), words[10:12], words[12:]
    if kind is None or any(precompile) or aux_2 or not set(flags) <= {0, 1}:
        return None
    if kind == "deref":
        side = RIGHT_SIDES.get((*flags, aux_1))
        if side is None:
            return None
        gamma, fc, fpc = operand_c(side, b)
        return (a, c, gamma, 0, 1, fc, fpc, 0, 0, 0, 2, 0)
    if aux_1:
        return None
    gamma, fc, fpc = operand_c("fp" if flags[2] else "cell", c)
    return (a, b, gamma, flags[0], flags[1], fc, fpc, 0, int(kind == "mul"), int(kind == "jump"), int(kind == "add"), 0)

def bytes_of(insts):
    """A program's bytes (01, Words and elements)."""
    return oracle.bytes_of([word for instruction in insts for word in instruction])

def translate(old, program_len):
    """(answer, program) for an output of so many bytes; None is unchanged (02, M-102; point 15)."""
    count = len(old) // 56
    if len(old) % 56 or not 1 <= count <= 2**20 or program_len != 48 * count:
        return six(1, 1), None
    words = oracle.words_of(old)
    if max(words) >= P:
        return six(2, 1, next(place for place, word in enumerate(words) if word >= P)), None
    program = [translated(instruction) for instruction in oracle.rows_of(words, WIDTH)]
    if None in program:
        return six(EDITION, 0, program.index(None)), None
    return six(0), bytes_of(program)

# ---- the machine ----
def old_step(code, cells, pc, fp):
    """The next (pc, fp) of a translatable program, or Stuck (0.5.0, 2.4; 02, M-102; 01, Verdicts)."""
    def m(index, rule):
        if index % P >= len(cells):
            raise Stuck(rule)
        return cells[index % P]

    if pc >= len(code):
        raise Stuck(1)
    first, second, third, flag_a, flag_b, flag_c, add, mul, deref, jump, _, _, aux, _ = code[pc]
    if deref:  # 2.4.2
        alpha, beta, gamma = first, third, second
        left = m(m(fp + alpha, 2) + beta, 3)
        right = fp if not aux else gamma if flag_b else m(fp + gamma, 4)
        if left != right:
            raise Stuck(5)
        return pc + 1, fp
    a = first if flag_a else m(fp + first, 2)
    b = second if flag_b else m(fp + second, 3)
    c = fp if flag_c else m(fp + third, 4)
    if jump:  # 2.4.3, with fp as 3.1.4 has it where the jump is not taken
        if a not in (0, 1):
            raise Stuck(6)
        return (b, c) if a == 1 else (pc + 1, fp)
    if (add and (a + c - b) % P) or (mul and (a * c - b) % P):  # 2.4.1
        raise Stuck(5)
    return pc + 1, fp

def old_run(code, cells, pc, fp, height):
    """(tabler's answer for so many rows, states before each row that has a step) (01, The tabler; point 15)."""
    states = []
    for place in range(height):
        states.append((pc, fp))
        try:
            pc, fp = old_step(code, cells, pc, fp)
        except Stuck as stuck:
            return six(9, 0, place, stuck.args[0]), states[:-1]
    return (six(0) if (pc, fp) == states[-1] else six(11, 0, height - 1)), states

# ---- self-check ----
def old(kind, a=0, b=0, c=0, flags=(1, 1, 1), aux=0):
    """An instruction; its operands immediate or fp unless said (0.5.0, 3.1.3)."""
    opcodes = next(opcodes for opcodes, name in KINDS.items() if name == kind)
    return (a, b, c, *flags, *opcodes, 0, 0, aux, 0)

def changed(instruction, **words):
    """An instruction with other words at w0 to w13 (0.5.0, 3.1.3)."""
    out = list(instruction)
    for name, word in words.items():
        out[int(name[1:])] = word
    return tuple(out)

def check_words(check):
    """Instructions translated by hand, dropped operands among them (02, M-102)."""
    for name, given, wanted in (
            ("add of cells", old("add", 1, 2, 3, (0, 0, 0)), (1, 2, 3, 0, 0, 0, 0, 0, 0, 0, 1, 0)),
            ("mul with fp", old("mul", 1, 2, P - 1, (1, 0, 1)), (1, 2, 0, 1, 0, 0, 1, 0, 1, 0, 0, 0)),
            ("jump, dest B, frame C", old("jump", 1, 2, 3, (0, 1, 0)), (1, 2, 3, 0, 1, 0, 0, 0, 0, 1, 0, 0)),
            ("deref of gamma", old("deref", 1, 2, 3, (0, 1, 1), 1), (1, 3, 2, 0, 1, 1, 0, 0, 0, 0, 2, 0)),
            ("deref of a cell", old("deref", 1, 2, 3, (0, 0, 1), 1), (1, 3, 2, 0, 1, 0, 0, 0, 0, 0, 2, 0)),
            ("deref of fp", old("deref", 1, 2, 3, (0, 1, 1), 0), (1, 3, 0, 0, 1, 0, 1, 0, 0, 0, 2, 0))):
        check(name, translated(given), wanted)

def check_sweep(check):
    """Of all flags, opcodes and AUX, 27 instructions are translatable, and they are well-formed then (02, M-102)."""
    kept = [found for found in map(translated, ((5, 6, 7) + words for words in product(
        *[(0, 1, 2)] * 3, *[(0, 1, P - 1)] * 4, (0, 1), (0, P - 1), (0, 1, 2), (0, 1)))) if found]
    check("27 translatable", (len(kept), len(set(kept)), all(map(oracle.well_formed, kept))), (27, 27, True))

def check_refusals(check):
    """SIZE, WORD, EDITION in this order, with their places (02, M-102; point 15)."""
    good, bad = old("add"), changed(old("add"), w13=1)
    for name, insts, size, wanted in (
            ("no instruction", [], 0, six(1, 1)), ("output short", [good], 47, six(1, 1)),
            ("output of another", [good], 96, six(1, 1)), ("output empty", [good], 0, six(1, 1)),
            ("last word", [good, changed(bad, w13=P)], 96, six(2, 1, 27)),
            ("word after edition", [bad, changed(good, w0=2**32 - 1)], 96, six(2, 1, 14)),
            ("second instruction", [good, bad, bad], 144, six(EDITION, 0, 1))):
        check(name, translate(bytes_of(insts), size), (wanted, None))
    for cut in (1, 48, 55):
        check("old cut by %d" % cut, translate(bytes_of([good, good])[:-cut], 96), (six(1, 1), None))
    for many, wanted in ((2**20, six(2, 1)), (2**20 + 1, six(1, 1))):
        check("%d instructions" % many, translate(b"\xff" * 56 * many, 48 * many), (wanted, None))

def every_step():
    """(kind, instruction, fp) over all flags and AUX, with operands in and outside a small memory (0.5.0, 2.4)."""
    flags, operands = product((0, 1), repeat=3), product((0, 1, 3, P - 2, 250), repeat=3)
    for kind, flag, aux, operand, fp in product(KINDS.values(), flags, (0, 1), operands, (0, 1, 7, P - 1)):
        yield kind, old(kind, *operand, flag, aux), fp

def check_steps(check):
    """Each translatable instruction steps as its translation does, from every state tried (02, M-102)."""
    cells, reached = (0, 1, 2, 5, P - 1, 3, 255, 256) * 32, set()
    for kind, given, fp in every_step():
        new = translated(given)
        if new:
            found = outcome(old_step, given, cells, fp)
            check("%s at fp %d" % (given, fp), found, outcome(new_step, new, cells, fp))
            reached.add((kind, found if isinstance(found, int) else 0))
    wanted = {*product(("add", "mul", "deref"), (0, 2, 3, 4, 5)), *product(("jump",), (0, 2, 3, 4, 6))}
    check("steps, and each rule by which each kind is stuck", reached, wanted)

def new_step(code, cells, pc, fp):
    """The next (pc, fp) of draft 0.6.0 (01, The machine, without flags)."""
    return oracle.step(code, cells, pc, fp)[2:]

def outcome(step, instruction, cells, fp):
    """The next state or the STUCK rule (point 15)."""
    try:
        return step([instruction], cells, 0, fp)
    except Stuck as stuck:
        return stuck.args[0]

def self_check():
    """M-102's own checks; (passed, failed)."""
    passed, failed = [], []

    def check(name, got, wanted):
        (passed if got == wanted else failed).append("%s: got %r, wanted %r" % (name, got, wanted))

    check_words(check)
    check_sweep(check)
    check_refusals(check)
    check_steps(check)
    check("leaves the program", outcome(old_step, old("jump", 1, 9), (0,) * 256, 3), (9, 3))
    check("open", old_run([old("jump", 1, 1), old("jump", 1, 0)], (0,) * 256, 0, 0, 4)[0], six(11, 0, 3))
    check("outside", old_run([old("add", 3, 3)], (0,) * 256, 0, 0, 4), (six(9, 0, 1, 1), [(0, 0)]))
    return passed, failed
