"""Words, elements, rows and answers of the second implementation; tests/oracle.py says what it is written from.

An answer is (verdict, part, place, rule, expected, found). Words are Python integers below P, elements are 5-tuples of
words.
"""

import struct

P = 2**31 - 2**24 + 1
ONE = (1, 0, 0, 0, 0)
ADD, MUL, PEQ = 4, 8, 16

def six(verdict, part=0, place=0, rule=0, expected=0, found=0):
    """An answer; numbers that are not named are 0 (01, Verdicts; 02, M-104)."""
    return verdict, part, place, rule, expected, found

def element_sum(x, y):
    """Sum of two elements, coordinate by coordinate (01, Words and elements)."""
    return tuple((u + v) % P for u, v in zip(x, y))

def element_difference(x, y):
    """Difference of two elements (01, Words and elements)."""
    return tuple((u - v) % P for u, v in zip(x, y))

def element_product(x, y):
    """Product as polynomials, reduced by X^5 = 1 - X^2 from the top power down (01, Words and elements)."""
    long = [0] * 9
    for i, u in enumerate(x):
        for j, v in enumerate(y):
            long[i + j] += u * v
    for power in (8, 7, 6, 5):
        long[power - 5] += long[power]
        long[power - 3] -= long[power]
    return tuple(c % P for c in long[:5])

def element_peq(x, y):
    """x·y + (1 - x)(1 - y) (0.6.0, 2.5.2)."""
    rest = element_product(element_difference(ONE, x), element_difference(ONE, y))
    return element_sum(element_product(x, y), rest)

def embed(word):
    """A word as an element (0.6.0, 2.5.2, BE mode)."""
    return (word % P, 0, 0, 0, 0)

def scale(word, x):
    """A word times an element (0.6.0, 3.5.5)."""
    return tuple(word * c % P for c in x)

def words_of(data):
    """Little-endian 4-byte words (01, Words and elements)."""
    return struct.unpack("<%dI" % (len(data) // 4), data)

def bytes_of(words):
    """The inverse of words_of (01, Words and elements)."""
    return struct.pack("<%dI" % len(words), *words)

def rows_of(words, width):
    """Words cut into rows (01, Layouts)."""
    return [words[i:i + width] for i in range(0, len(words), width)]

def data_word(op, be, n):
    """DATA of an extension instruction (01, Well-formed instructions)."""
    return 2 * be + op + 32 * n
