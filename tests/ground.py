#!/usr/bin/env python3
"""What crates/test_ground prints, computed from document 01 alone by plain integers and polynomials: python3 tests/ground.py > crates/test_ground/stdout"""

P = 2**31 - 2**24 + 1
EDGES = [0, 1, P - 1, P, P + 1, 2 * P, 2 * P + 1, 2**32 - 1]


def line(name, *numbers):
    print(name, *numbers)


# Draws: the state advances modulo 2^64, and its upper 32 bits are drawn.
def draws(seed):
    state = seed
    while True:
        state = (6364136223846793005 * state + 1442695040888963407) % 2**64
        yield state >> 32


# Polynomials over the integers, lowest power first; X^5 is replaced by 1 - X^2 until none is left.
def times(a, b):
    c = [0] * (len(a) + len(b) - 1)
    for i, x in enumerate(a):
        for j, y in enumerate(b):
            c[i + j] += x * y
    return c


def house(c):
    c = list(c)
    while len(c) > 5:
        top = c.pop()
        c[len(c) - 5] += top
        c[len(c) - 3] -= top
    return [x % P for x in c]


def elements(a, b):
    one = [1, 0, 0, 0, 0]
    rest = times([x - y for x, y in zip(one, a)], [x - y for x, y in zip(one, b)])
    line("a", *a)
    line("b", *b)
    line("sum", *house([x + y for x, y in zip(a, b)]))
    line("difference", *house([x - y for x, y in zip(a, b)]))
    line("product", *house(times(a, b)))
    line("peq", *house([x + y for x, y in zip(times(a, b), rest)]))


def words(x, y):
    line("word", x, y, (x + y) % P, (x - y) % P, x * y % P)


def edge_element(i):
    return [EDGES[(i + 3 * k) % 8] for k in range(5)]


# A word is four bytes, lowest first; past the end a byte reads as 0, and a word that does not fit is not written.
def in_bytes(at):
    s = bytes([1, 255, 2, 254, 128, 127, 0, 77, 200, 31, 250])
    read = int.from_bytes(s[at : at + 4], "little")
    if at + 4 <= len(s):
        s = s[:at] + (3735928559).to_bytes(4, "little") + s[at + 4 :]
    line("bytes", at, read, *s)


def main():
    for seed in (0, 1, 2**32, 0x000000012FFFFFFF, 0xFFFFFFFF2FFFFFFF, 2**64 - 1):
        g = draws(seed)
        line("draw", seed, *(next(g) for _ in range(8)))
    for x in EDGES:
        for y in EDGES:
            words(x, y)
    g = draws(0x000000012FFFFFFF)
    for _ in range(40):
        words(next(g), next(g))
    for k in range(8):
        elements(edge_element(k), edge_element(3 * k + 1))
    g = draws(0xFFFFFFFF2FFFFFFF)
    for k in range(10):
        a = [next(g) for _ in range(5)]
        b = [next(g) for _ in range(5)]
        elements(a, b)
        elements(b, edge_element(k))
    for at in list(range(16)) + [2**64 - 1]:
        in_bytes(at)


main()
