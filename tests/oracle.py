"""A second implementation of the bench, written from the documents alone.

Sources: document 01 ("01, <heading>"), document 02's M-103, M-104 and M-107 ("02, M-103") and draft 0.6.0 ("0.6.0,
<section>"), with the founders' decided points where they leave a choice. It shares nothing with the bench it is
compared with, and is plain rather than fast. Here are labels, maker and tabler; words, elements and answers are in
oracle_words.py, the judge in oracle_judge.py, form counts in oracle_forms.py, programs of draft 0.5.0 in
oracle_editions.py, listings in oracle_listings.py, jumps and hosts in oracle_streams.py, range checks in
oracle_ranges.py, the judge of a memory in two buffers in oracle_split.py. Run as a program it checks itself, and them,
by oracle_check.py, oracle_lookups.py, oracle_versions.py, oracle_runs.py and what those six have of their own.
"""

import struct
import sys

# what is not used here is for those who import this file
from oracle_judge import exec_rules, ext_rules, judge, refusal, well_formed
from oracle_words import (
    ADD, MUL, ONE, P, PEQ, bytes_of, data_word, element_difference, element_peq, element_product, element_sum, embed,
    rows_of, six, words_of)

NAMES = ("ACCEPTED", "SIZE", "WORD", "INSTRUCTION", "START", "EXEC", "EXTENSION", "BUS",
         "LABEL", "STUCK", "ROOM", "OPEN", None,  # 12 is not used (02, M-107)
         "ANSWER", "GRID", "EDITION", "LISTING", "SHORT", "HOST", "LIST")
VERSIONS, BOUND = (1, 2), 4261412866  # of a recipe; version 2 throws away what it draws for a cell from here on

# ---- draws, labels, maker ----
def draw(state):
    """(number, advanced state) (01, Draws, recipe, label)."""
    state = (6364136223846793005 * state + 1442695040888963407) % 2**64
    return state >> 32, state

def draw_cell(version, state):
    """(cell, advanced state): version 2 throws away up to eight draws that are too large (02, M-103; point 16)."""
    number, state = draw(state)
    for _ in range(8 if version == 2 else 0):
        if number >= BOUND:
            number, state = draw(state)
    return number % P, state

def require(version, seed, m, n):
    """ValueError, which stands for SIZE part 0, unless the recipe is one (01, Draws, recipe; 02, M-103; point 2)."""
    if not (version in VERSIONS and 0 <= seed < 2**64 and 10 <= m <= 29 and 1 <= n <= 124):
        raise ValueError("recipe out of range")

def label(version, seed, m, n):
    """The label of a recipe (01, Draws, recipe, label; 02, M-103)."""
    require(version, seed, m, n)
    return b"v=%d\nseed=%016x\nm=%d\nn=%d\n" % (version, seed, m, n)

HEADS = {b"v=%d\nseed=" % version: version for version in VERSIONS}
TAILS = {b"\nm=%d\nn=%d\n" % (m, n): (m, n) for m in range(10, 30) for n in range(1, 125)}
TAIL_PREFIXES = {tail[:k] for tail in TAILS for k in range(len(tail) + 1)}

def begins_label(text):
    """Whether some valid label begins with the text (01, Verdicts, LABEL)."""
    head, digits, tail = text[:9], text[9:25], text[25:]
    begins = any(whole.startswith(head) for whole in HEADS)
    return begins and all(d in b"0123456789abcdef" for d in digits) and tail in TAIL_PREFIXES

def read_label(text):
    """The six numbers, then version, seed, m, n (01, Verdicts and Draws, recipe, label; 02, M-103 and M-104)."""
    text, place = bytes(text), 0
    while place < len(text) and begins_label(text[:place + 1]):
        place += 1
    if place == len(text) and text[25:] in TAILS:
        return six(0) + (HEADS[text[:9]], int(text[9:25], 16)) + TAILS[text[25:]]
    return (8, 0, place, 0, 0, 0, 0, 0, 0, 0)

def make(version, seed, m, n):
    """(program, memory) of a recipe (01, Draws, recipe, label; 02, M-103; point 12)."""
    require(version, seed, m, n)
    cells, code, state = [0] * 2**m, [], seed
    for i in range(32):
        cells[i], state = draw_cell(version, state)
    for i in range(n):
        kind, state = draw(state)
        a, state = draw(state)
        c, state = draw(state)
        kind, a, c, t = kind % 5, a % 32, c % 32, 32 + 8 * i
        if kind == 0:
            cells[t] = (cells[a] + cells[c]) % P
            code += (a, t, c, 0, 0, 0, 0, 0, 0, 0, 1, 0)
        elif kind == 1:
            cells[t] = cells[a] * cells[c] % P
            code += (a, t, c, 0, 0, 0, 0, 0, 1, 0, 0, 0)
        elif kind == 2:
            cells[t], cells[t + 1] = a, cells[a]
            code += (t, 0, t + 1, 0, 1, 0, 0, 0, 0, 0, 2, 0)
        elif kind == 3:
            code += (c % 2, i + 1, 0, 1, 1, 0, 1, 0, 0, 1, 0, 0)
        else:
            op, be = (ADD, MUL, PEQ)[c // 2 % 3], c // 6 % 2
            data, from_a, from_b = data_word(op, be, 1 + c % 2), a % 16, 16 + a % 4
            cells[t:t + 5] = result(cells, data, from_a, from_b)
            code += (from_a, from_b, t, 1, 1, 1, 0, 0, 0, 0, 0, data)
    code += (1, n, 0, 1, 1, 0, 1, 0, 0, 1, 0, 0)
    return bytes_of(code), bytes_of(cells)

# ---- tabler ----
class Stuck(Exception):
    """A step the machine cannot take; the argument is the STUCK rule (01, Verdicts)."""

def backward(cells, data, from_a, from_b):
    """(i, idxA, idxB, running result) of a group from its last row to its first (0.6.0, 2.5.2 and 3.5.1)."""
    be, op, n = data // 2 % 2, data % 32 // 4 * 4, data // 32
    comp = ONE if op == PEQ else (0, 0, 0, 0, 0)
    for i in reversed(range(n)):
        ia, ib = from_a + (i if be else 5 * i), from_b + 5 * i
        a, b = embed(cells[ia]) if be else cells[ia:ia + 5], cells[ib:ib + 5]
        if op == PEQ:
            comp = element_product(element_peq(a, b), comp)
        else:
            comp = element_sum((element_sum if op == ADD else element_product)(a, b), comp)
        yield i, ia, ib, comp

def result(cells, data, from_a, from_b):
    """The whole sum or product of a group, that of its first row (0.6.0, 2.5.2)."""
    for *_, comp in backward(cells, data, from_a, from_b):
        pass
    return comp

def step(code, cells, pc, fp):
    """(row, extension call or None, next pc, next fp), or Stuck (01, The machine, without flags; points 7 and 8)."""
    def cell(address, rule):
        if address >= len(cells):
            raise Stuck(rule)
        return address, cells[address], cells[address]

    def fetch(operand, immediate, relative, rule):
        if immediate or relative:
            return 0, cells[0], operand if immediate else (fp + operand) % P
        return cell((fp + operand) % P, rule)

    if pc >= len(code):
        raise Stuck(1)
    oa, ob, oc, fa, fb, fc, fpc, fpab, mul, jump, aux, data = code[pc]
    aa, va, a = fetch(oa, fa, fpab, 2)
    ab, vb, b = cell((va + ob) % P, 3) if aux == 2 else fetch(ob, fb, fpab, 3)
    ac, vc, c = fetch(oc, fc, fpc, 4)
    row = (pc, fp, aa, ab, ac, va, vb, vc)
    if (aux == 1 and (a + c) % P != b) or (mul and a * c % P != b) or (aux == 2 and b != c):
        raise Stuck(5)
    if jump:
        if a > 1:
            raise Stuck(6)
        return (row, None, b, c) if a else (row, None, pc + 1, fp)
    if not data:
        return row, None, pc + 1, fp
    n = data // 32
    end_a = a + n + 4 if data // 2 % 2 else a + 5 * n
    if max(end_a, b + 5 * n, c + 5) > len(cells):
        raise Stuck(7)
    if result(cells, data, a, b) != cells[c:c + 5]:
        raise Stuck(8)
    return row, (data, a, b, c), pc + 1, fp

def group_rows(cells, data, a, b, c):
    """The rows of one group, idxR constant (01, The tabler; 0.6.0, 3.5.1)."""
    rows, op = [], data % 32 // 4
    for i, ia, ib, comp in backward(cells, data, a, b):
        rows.append((int(i == 0), op % 2, op // 2 % 2, op // 4, data // 32 - i, ia, ib, c, data // 2 % 2, cells[ia])
                    + cells[ia:ia + 5] + cells[ib:ib + 5] + comp + cells[c:c + 5])
    return rows[::-1]

def table(program, memory, pc, fp, exec_len, ext_len):
    """(answer, execution table, extension table); lengths in bytes, None is unchanged (01, The tabler, Verdicts)."""
    refused = refusal((len(program), len(memory), exec_len, ext_len), (program, memory))
    if not refused and max(pc, fp) >= P:
        refused = six(4)
    if refused:
        return refused, None, None
    code, cells = rows_of(words_of(program), 12), words_of(memory)
    height, room = exec_len // 32, ext_len // 120
    steps, groups, zero = [], [], (bytes(exec_len), bytes(ext_len))
    for place in range(height):
        try:
            row, call, next_pc, next_fp = step(code, cells, pc, fp)
        except Stuck as stuck:
            return (six(9, 0, place, stuck.args[0]),) + zero
        if call and len(groups) + call[0] // 32 + 1 > room:
            return (six(10, 0, place),) + zero
        steps += row
        groups += group_rows(cells, *call) if call else []
        stays, pc, fp = (next_pc, next_fp) == (pc, fp), next_pc, next_fp
    if not stays:
        return (six(11, 0, height - 1),) + zero
    padding = (1, 0, 0, 0, 1, 0, 0, 0, 0, cells[0]) + cells[:5] * 4
    groups += [padding] * (room - len(groups))
    return six(0), bytes_of(steps), bytes_of([w for row in groups for w in row])

# ---- what tests build tables of ----
def inst(a=0, b=0, c=0, fa=1, fb=1, fc=1, fpc=0, fpab=0, mul=0, jump=0, aux=0, data=0):
    """An instruction, immediate unless said (01, Layouts)."""
    return (a, b, c, fa, fb, fc, fpc, fpab, mul, jump, aux, data)

def ext(op, be, n, a=0, b=0, c=0):
    """An extension instruction with immediate addresses (01, Well-formed instructions)."""
    return inst(a, b, c, data=data_word(op, be, n))

def run(insts, cells, pc=0, fp=0, height=256, room=256):
    """(answer of tabler or judge, program and memory, tables) of a program and a jump to itself (01, Draws)."""
    code = list(insts) + [inst(1, len(insts), fc=0, fpc=1, jump=1)]
    parts = bytes_of([w for i in code for w in i]), bytes_of(cells)
    answer, steps, groups = table(*parts, pc, fp, 32 * height, 120 * room)
    return judge(*parts, pc, fp, steps, groups) if answer[0] == 0 else answer, parts, steps, groups

def poke(data, place, word):
    """The bytes with one word changed (01, Words and elements)."""
    return data[:4 * place] + struct.pack("<I", word) + data[4 * place + 4:]

if __name__ == "__main__":
    import oracle_check  # here, as they import this file
    import oracle_editions
    import oracle_forms
    import oracle_listings
    import oracle_lookups
    import oracle_ranges
    import oracle_runs
    import oracle_split
    import oracle_streams
    import oracle_versions

    CHECKED = [part.self_check() for part in (oracle_check, oracle_lookups, oracle_forms, oracle_editions,
                                              oracle_versions, oracle_runs, oracle_listings, oracle_streams,
                                              oracle_ranges, oracle_split)]
    PASSED, FAILED = ([line for part in parts for line in part] for parts in zip(*CHECKED))
    print("\n".join(FAILED) or "oracle: %d checks passed" % len(PASSED))
    sys.exit(bool(FAILED))
