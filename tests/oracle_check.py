"""The base's own checks, which tests/oracle.py runs: marked numbers, the Run list, small cases and whole recipes.

What M-104 adds to an answer is checked in oracle_lookups.py; here all but the lookups' cases have 0 and 0.
"""

from oracle import (
    ADD, MUL, ONE, P, PEQ, bytes_of, data_word, draw, element_peq, element_product, embed, ext, inst, judge, label, make,
    poke, read_label, rows_of, run, six, table, words_of)

ZEROS, OK = [0] * 256, six(0)

def check_numbers(check):
    """Words, elements, DATA and draws (01, Marked numbers)."""
    check("p prime", all(P % d for d in range(2, 46160)), True)
    check("words", ((P - 1 + 1) % P, (P - 1) * (P - 1) % P), (0, 1))
    x = [tuple(int(i == k) for i in range(5)) for k in range(5)]
    for i, wanted in ((1, (1, 0, P - 1, 0, 0)), (2, (0, 1, 0, P - 1, 0)), (4, (P - 1, 0, 1, 1, 0))):
        check("X^%d X^4" % i, element_product(x[i], x[4]), wanted)
    check("peq", (element_peq(embed(2), embed(3)), element_peq(ONE, embed(0))), (embed(8), embed(0)))
    check("data", (data_word(MUL, 1, 4), data_word(ADD, 0, 3), data_word(PEQ, 0, 3)), (138, 100, 112))
    check("draws", [draw(s)[0] for s in (0, 1, 2**32)], [335903614, 1817669548, 1620769451])

def check_labels(check):
    """Refused labels and their places (01, Verdicts)."""
    good = label(1, 0x12fffffff, 10, 124)
    for old, new, place in ((b"124", b"125", 35), (b"\n", b"\r\n", 3), (b"4\n", b"4", 36), (b"4\n", b"4\nx", 37),
                            (b"f", b"F", 18), (b"m=10", b"m=30", 28), (b"n=1", b"n=0", 33), (b"v=1", b"v=3", 2)):
        check("label %r" % new, read_label(good.replace(old, new)), six(8, 0, place) + (0,) * 4)

def check_steps(check):
    """Steps that are legal or stuck (01, The machine, without flags, and Verdicts)."""
    for name, insts, wanted in (
            ("A read", [inst(a=256, fa=0, aux=1)], six(9, 0, 0, 2)), ("B read", [inst(b=256, fb=0, aux=1)], six(9, 0, 0, 3)),
            ("deref target", [inst(b=256, fa=0, aux=2)], six(9, 0, 0, 3)), ("poseidon", [inst(data=1)], six(3, 1)),
            ("untaken jump's C", [inst(c=256, fc=0, jump=1)], six(9, 0, 0, 4)),
            ("condition after C", [inst(2, 0, 256, fc=0, jump=1)], six(9, 0, 0, 4)),
            ("condition", [inst(2, fc=0, jump=1)], six(9, 0, 0, 6)), ("equation", [inst(1, 3, 1, aux=1)], six(9, 0, 0, 5)),
            ("result", [ext(PEQ, 0, 1)], six(9, 0, 0, 8)), ("result cells", [ext(ADD, 0, 1, c=252)], six(9, 0, 0, 7)),
            ("be to the last cell", [ext(ADD, 1, 4, 248)], OK), ("be beyond", [ext(ADD, 1, 4, 249)], six(9, 0, 0, 7)),
            ("jump out", [inst(1, 9, fc=0, jump=1)], six(9, 0, 1, 1))):
        check(name, run(insts, ZEROS)[0], wanted)

def check_ends(check):
    """Runs' ends, starts, room and heights (01, Marked numbers, Run; Verdicts)."""
    back = [inst(0, 0, 0, aux=1), inst(1, 0, fc=0, fpc=1, jump=1)]  # rows 0, 1, 0, 1 and so on
    answer, parts, steps, groups = run(back, ZEROS)
    check("open", (answer, any(steps + groups)), (six(11, 0, 255), False))
    steps, groups = bytes_of(((0,) * 8 + (1,) + (0,) * 7) * 128), bytes_of((1, 0, 0, 0, 1) + (0,) * 25) * 256
    check("no wrap to row 0", judge(*parts, 0, 0, steps, groups), six(5, 3, 255, 13))
    check("start above p", run([], ZEROS, pc=P)[::2], (six(4), None))
    check("frame wraps", run([inst(1, fa=0, aux=1)], ZEROS, fp=P - 1)[0], OK)
    for n, k, wanted in ((255, 1, OK), (256, 1, six(10)), (128, 2, six(10, 0, 1))):
        check("room %d" % n, run([ext(ADD, 0, n)] * k, [0] * 2048)[0], wanted)
    for h, k, wanted in ((128, 256, six(1, 3)), (256, 128, six(1, 4)), (256, 512, OK), (512, 256, OK)):
        check("H %d, K %d" % (h, k), run([], ZEROS, height=h, room=k)[0], wanted)

def check_damage(check):
    """One group's tables with a word or whole rows changed (01, Extension rules and The bus)."""
    _, parts, steps, groups = run([ext(ADD, 0, 2, 16, 32, 64)], [0] * 5 + [1] * 59 + [4] * 5 + [0] * 187)
    rows, tail = rows_of(groups, 120), words_of(groups)[30:60]
    twice = bytes_of((2,) + tail[1:20] + (P - 2,) * 5 + tail[25:])  # start 2 and comp negated: rule 6 holds before it
    for name, e, g, wanted in (  # one or no changed word of each table, as (place, word), or whole rows
            ("word", (5, P), (0, P), six(2, 3, 5)), ("start", (1, 1), (), six(4)), ("fp", (9, 1), (), six(5, 3, 0, 16)),
            ("pc", (72, 2), (), six(5, 3, 8, 13)), ("unused A", (10, 5), (), six(5, 3, 1, 2, 1, 0)),
            ("unused A, equal", (10, 1), (), OK), ("start 2 on padding", (), (270, 2), six(6, 4, 8, 10)),
            ("start 2 in a group", (), (30, 2), six(6, 4, 0, 6)),
            ("start 2, rule 6 kept", (), rows[:1] + [twice] + rows[2:], six(6, 4, 0, 17)),
            ("padding's comp", (), (290, 1), six(6, 4, 9, 9)), ("padding's be", (), (278, 1), OK),
            ("idxR in a tail", (), (37, 65), six(6, 4, 1, 21, 0, 4)), ("no pull", (), rows[2:3] * 256, six(7, 3)),
            ("two pulls", (), rows[:2] * 2 + rows[4:], six(7, 3)), ("headless", (), rows[1:2] + rows[:-1], OK),
            ("later", (), rows[2:9] + rows[:2] + rows[9:], OK), ("last", (), rows[2:] + rows[:2], six(6, 4, 255, 6))):
        groups2 = poke(groups, *g) if len(g) == 2 else b"".join(g or rows)
        check(name, judge(*parts, 0, 0, poke(steps, *e) if e else steps, groups2), wanted)
    for n, wanted in ((1, OK), (2, six(6, 4, 255, 10))):
        _, parts, steps, groups = run([ext(ADD, 0, n)], ZEROS)
        check("zeros, %d rows last" % n, judge(*parts, 0, 0, steps, groups[120 * n:] + groups[:120 * n]), wanted)
        check("two flags", judge(*parts, 0, 0, steps, poke(poke(groups, 271, 1), 272, 1)), six(7, 4, 9))

def check_recipe(check, seed, n):
    """A recipe is tabled and accepted, and refused with a word changed (01, Draws, recipe, label)."""
    check("read back", read_label(label(1, seed, 10, n)), OK + (1, seed, 10, n))
    parts, state = make(1, seed, 10, n), seed
    answer, steps, groups = table(*parts, 0, 0, 32 * 256, 120 * 256)
    check("recipe %x %d" % (seed, n), (answer, judge(*parts, 0, 0, steps, groups)), (OK, OK))
    for k in range(8):  # be is free on padding, so column 8 is left alone
        number, state = draw(state)
        part = (steps, groups)[k % 2]
        place = number % (len(part) // 4)
        place += k % 2 == 1 and place % 30 == 8
        bad = poke(part, place, (words_of(part)[place] + 1) % P)
        answer = judge(*parts, 0, 0, *((steps, bad) if k % 2 else (bad, groups)))
        check("damage %x %d %d" % (seed, n, place), answer[0] in (4, 5, 6, 7), True)

def self_check():
    """The base's own checks; (passed, failed)."""
    passed, failed = [], []

    def check(name, got, wanted):
        (passed if got == wanted else failed).append("%s: got %r, wanted %r" % (name, got, wanted))

    for part in (check_numbers, check_labels, check_steps, check_ends, check_damage):
        part(check)
    for seed in (0, 1, 42, 2**32, 0x12fffffff, 2**63, 2**64 - 1):
        for n in (1, 2, 5, 20, 60, 124):
            check_recipe(check, seed, n)
    return passed, failed
