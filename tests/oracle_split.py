"""The judge of a memory in two buffers, written from the documents alone as tests/oracle.py is.

Sources: document 02's M-109 ("02, M-109"), document 01 ("01, <heading>") and the founders' decided point 21. Public is
the first 2^m' words, and rest has the other ones of 2^m. tests/oracle.py, run as a program, runs the checks below too.
"""

from itertools import product

import oracle
from oracle import ADD, P, ext, poke, rows_of, six, words_of

ROW = 9  # a halting row and a padding row, whose indexes are free

def cut(public_len, rest_len):
    """(m, m') of two lengths in bytes, or None (02, M-109; point 21): m' comes from the first length."""
    public, cells = public_len // 4, (public_len + rest_len) // 4
    powers = all(count > 0 and count & (count - 1) == 0 for count in (public, cells))
    below, m = public.bit_length() - 1, cells.bit_length() - 1
    fits = public_len % 4 == rest_len % 4 == 0 and powers and 8 <= m <= 29 and below < m
    return (m, below) if fits else None

def judge_split(program, public, rest, pc, fp, exec_table, ext_table):
    """The answer to two tables: the judge's on the two joined, where their lengths are good (02, M-109; point 21)."""
    if cut(len(public), len(rest)):
        return oracle.judge(program, public + rest, pc, fp, exec_table, ext_table)
    return six(1, 2 if len(program) in range(48, 48 * 2**20 + 1, 48) else 1)

def cell(public, rest, number):
    """Four bytes of whichever buffer holds that cell; none for a cell at or above M (02, M-109)."""
    buffer, at = (public, 4 * number) if 4 * number < len(public) else (rest, 4 * number - len(public))
    return buffer[at:at + 4]

# ---- what tests build tables of ----
def halted(m):
    """The four parts of a run that halts at once, so that every lookup's index is free; cell k is 1000 + k."""
    answer, parts, steps, groups = oracle.run([], range(1000, 1000 + 2**m))
    assert answer == six(0)
    return (*parts, steps, groups)

# rule: part, columns of its index and of its first value, cells (01, Layouts and the rules)
LOOKUPS = {2: (3, 2, 5, 1), 3: (3, 3, 6, 1), 4: (3, 4, 7, 1), 18: (4, 5, 9, 1), 19: (4, 5, 10, 5), 20: (4, 6, 15, 5),
           21: (4, 7, 25, 5)}
WIDTHS = {3: 8, 4: 30}

def looks_up(parts, rule, index, values, row=ROW):
    """The parts with an index and values in a row; vA base is vA's first and comp is res, as rules 18 and 9 ask."""
    part, address, first, _ = LOOKUPS[rule]
    changed, to = list(parts), WIDTHS[part] * row
    words = {address: index, **{first + k: value for k, value in enumerate(values)}}
    if rule == 18:
        words.update({10 + k: value for k, value in enumerate(five(parts, index))})
    if rule == 19:
        words[9] = five(parts, index)[0]
    if rule == 21:
        words.update({20 + k: value for k, value in enumerate(values)})
    for column, word in words.items():
        changed[part - 1] = poke(changed[part - 1], to + column, word)
    return tuple(changed)

def five(parts, index):
    """The five words from a cell on; a word that is not there is 0, which is only what a bad reader might take."""
    words = words_of(parts[1][4 * index:4 * index + 20])
    return words + (0,) * (5 - len(words))

def at_cut(parts, below):
    """program, public, rest and the start 0, 0, and both tables."""
    program, memory, steps, groups = parts
    return program, memory[:4 << below], memory[4 << below:], 0, 0, steps, groups

# ---- self-check ----
def check_lengths(check):
    """Every pair of lengths of up to 513 words, and those by hand (02, M-109; point 21)."""
    good = {(4 << below, (4 << m) - (4 << below)): (m, below) for m in range(8, 30) for below in range(m)}
    check("good cuts", {pair: cut(*pair) for pair in good}, good)
    small = {(4 * a, 4 * b) for a, b in product(range(514), repeat=2) if cut(4 * a, 4 * b)}
    check("all small pairs", small, {pair for pair in good if max(pair) <= 4 * 513})
    for name, pair in (("no rest", (1024, 0)), ("no public", (0, 1024)), ("neither", (0, 0)), ("3 + 253", (12, 1012)),
                       ("a byte moved", (5, 1019)), ("a byte more", (512, 513)), ("128 words", (256, 256)),
                       ("turned round", (1020, 4)), ("m 30", (4, 2**32 - 4)), ("m' 29", (2**31, 0))):
        check(name, cut(*pair), None)

def check_order(check):
    """SIZE in the order of the parts, before every other verdict (01, Verdicts; point 21)."""
    given = at_cut(halted(8), 3)
    bad_word = poke(given[0], 0, P)
    for name, changed, wanted in (  # by number: 0 program, 1 public, 3 pc, 5 and 6 tables
            ("all bad", {0: b"", 1: b"", 5: b"", 6: b""}, six(1, 1)), ("program", {0: given[0][:-1]}, six(1, 1)),
            ("then the cut", {1: given[1][:-4], 5: b"", 6: b""}, six(1, 2)), ("then exec", {5: b"", 6: b""}, six(1, 3)),
            ("then ext", {6: b""}, six(1, 4)), ("the cut before a word", {0: bad_word, 1: b""}, six(1, 2)),
            ("too long a program", {0: bytes(48 * 2**20 + 48), 1: b""}, six(1, 1)),
            ("the longest", {0: bytes(48 * 2**20), 1: b""}, six(1, 2)), ("a word", {0: bad_word}, six(2, 1)),
            ("start", {3: 1}, six(4)), ("nothing", {}, six(0))):
        check("order: " + name, judge_split(*(changed.get(k, part) for k, part in enumerate(given))), wanted)

def check_words(check):
    """WORD counts as if joined, wherever the cut is (02, M-109)."""
    parts = halted(8)
    for below, place in product(range(8), (0, 1, 2, 3, 4, 7, 8, 127, 128, 255)):
        bad = (parts[0], poke(parts[1], place, P), *parts[2:])
        check("word %d, cut 2^%d" % (place, below), judge_split(*at_cut(bad, below)), six(2, 2, place))
    both = (parts[0], poke(poke(parts[1], 250, P), 3, P), *parts[2:])
    check("a word in each", judge_split(*at_cut(both, 3)), six(2, 2, 3))

def check_cells(check):
    """Every lookup about the seam and the end says what the cell read says, cell by cell (02, M-104 and M-109)."""
    parts = halted(8)
    for below, rule in product((0, 1, 2, 4, 7), LOOKUPS):
        seam, count = 2**below, LOOKUPS[rule][3]
        for index in {max(seam + k, 0) for k in range(-6, 3)} | set(range(250, 257)):
            given = at_cut(parts, below)
            read = [cell(*given[1:3], index + k) for k in range(count)]
            words = [words_of(one)[0] if one else 0 for one in read]
            there = index + 5 <= 256 if rule > 18 else index < 256
            check("cells from %d, cut 2^%d" % (index, below), all(read), there)
            for off in range(count):
                values = [word + (k == off) for k, word in enumerate(words)]
                verdict, part = (5, 3) if rule < 5 else (6, 4)
                told = (words[off], values[off]) if there else (0, 0)
                wanted = six(verdict, part, ROW, 18 if rule == 19 and index >= 256 else rule, *told)
                answer = judge_split(*at_cut(looks_up(parts, rule, index, values), below))
                check("rule %d from %d, cut 2^%d, off %d" % (rule, index, below, off), answer, wanted)

def check_across(check):
    """A group's runs of five across the seam, at each of its four places, are accepted (02, M-109)."""
    for below, before in product(range(3, 7), range(1, 5)):
        seam = 2**below
        cells = [1000 + number for number in range(256)]
        sums = [a + b for a, b in zip(cells[seam - before:seam - before + 5], cells[140:145])]
        cells[150:155] = sums
        answer, parts, steps, groups = oracle.run([ext(ADD, 0, 1, seam - before, 140, 150)], cells)
        check("a group", answer, six(0))
        given = at_cut((*parts, steps, groups), below)
        check("%d cells before 2^%d" % (before, below), judge_split(*given), six(0))
        first = rows_of(words_of(groups), 30)[0]
        for k in range(5):
            bad = poke(groups, 10 + k, first[10 + k] + 1)
            wanted = six(6, 4, 0, 19, first[10 + k], first[10 + k] + 1)
            check("cell %d of %d before" % (k, before), judge_split(*given[:6], bad), wanted)

def self_check():
    """M-109's own checks; (passed, failed)."""
    passed, failed = [], []

    def check(name, got, wanted):
        (passed if got == wanted else failed).append("%s: got %r, wanted %r" % (name, got, wanted))

    for part in (check_lengths, check_order, check_words, check_cells, check_across):
        part(check)
    return passed, failed
