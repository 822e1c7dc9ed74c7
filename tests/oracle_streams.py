"""Streams from one seed: a jump of any number of draws, and a host's start, by the closed form.

Sources: document 02's M-106 ("02, M-106"), document 01 ("01, <heading>") and the founders' decided points 19 and 28.
After j draws the state is A^j·s + C·(A^j - 1)/(A - 1), a division that leaves no remainder, so it is one power modulo
2^64·(A - 1) and no table. tests/oracle.py, run as a program, runs the checks below too.
"""

import random

import oracle
from oracle import draw, six

A, C, STATES = 6364136223846793005, 1442695040888963407, 2**64
HOST, HOSTS, APART = 18, 2**24, 2**40  # hosts are below HOSTS, and so many draws lie between two of them

def jump(state, draws):
    """The state after so many draws (01, Draws, recipe, label; 02, M-106)."""
    modulus = STATES * (A - 1)
    power = pow(A, draws, modulus)
    return (power * state + C * ((power - 1) % modulus // (A - 1))) % STATES

def host(seed, number):
    """The six numbers, and the state that a host starts from; the seed as it came on refusal (02, M-106)."""
    if number >= HOSTS:
        return six(HOST), seed
    return six(0), jump(seed, number * APART)

# ---- self-check ----
def some_states(choose):
    """Ends of the range and any (01, Draws, recipe, label)."""
    return [0, 1, 2**32, 2**63, STATES - 1] + [choose.randrange(STATES) for _ in range(5)]

def check_advances(check, seed):
    """Jumps beside single draws, forwards and, by the whole period, backwards (02, M-106)."""
    state = seed
    for draws in range(1200):
        check("%d draws from %016x" % (draws, seed), jump(seed, draws), state)
        check("%d draws back to %016x" % (draws, seed), jump(state, -draws % STATES), seed)
        state = draw(state)[1]

def check_doubling(check, seed):
    """Two jumps of 2^k are one of 2^(k + 1), up to the 65th, which goes nowhere (02, M-106; point 19)."""
    for k in range(64):
        check("2^%d twice from %016x" % (k, seed), jump(jump(seed, 2**k), 2**k), jump(seed, 2**(k + 1)))
        other = jump(seed, 2**k) ^ seed
        check("2^%d changes bit %d and none below" % (k, k), other & -other, 2**k)
    check("2^64 from %016x" % seed, jump(seed, STATES), seed)
    check("2^63 from %016x" % seed, jump(seed, 2**63), seed ^ 2**63)

def check_sums(check, choose, seed):
    """A jump of j and then of k is one of their sum modulo 2^64 (02, M-106)."""
    for _ in range(200):
        j, k = (choose.getrandbits(choose.randint(1, 64)) for _ in range(2))
        check("%d, then %d from %016x" % (j, k, seed), jump(jump(seed, j), k), jump(seed, (j + k) % STATES))

def check_hosts(check, seed):
    """Hosts by steps of 2^40, the last of them, and those that are refused (02, M-106; Refusals)."""
    at = seed
    for number in range(64):
        check("host %d of %016x" % (number, seed), host(seed, number), (six(0), at))
        at = jump(at, APART)
    last = host(seed, HOSTS - 1)
    check("the last host of %016x" % seed, (last[0], jump(last[1], APART)), (six(0), seed))
    for number in (HOSTS, HOSTS + 1, 2**32, 2**32 + 1, 2**40, 2**63, STATES - 1):
        check("host %d of %016x" % (number, seed), host(seed, number), ((18, 0, 0, 0, 0, 0), seed))

def check_numbers(check):
    """Document 01's first draws, and the increment itself (01, Marked numbers)."""
    for seed, number in ((0, 335903614), (1, 1817669548), (2**32, 1620769451)):
        check("first draw from %d" % seed, jump(seed, 1) >> 32, number)
    check("0 and one draw", (jump(0, 1), jump(C, STATES - 1)), (C, 0))
    pair = (A, C)  # of 2^40 draws once it is doubled forty times, which is how host 1 starts
    for _ in range(40):
        pair = pair[0]**2 % STATES, (pair[0] + 1) * pair[1] % STATES
    for seed in (0, 1, STATES - 1):
        check("host 1 of %016x" % seed, host(seed, 1), (six(0), (pair[0] * seed + pair[1]) % STATES))
    check("verdict 18", oracle.NAMES[HOST], "HOST")

def self_check():
    """M-106's own checks; (passed, failed)."""
    passed, failed = [], []

    def check(name, got, wanted):
        (passed if got == wanted else failed).append("%s: got %r, wanted %r" % (name, got, wanted))

    choose = random.Random(106)
    check_numbers(check)
    for seed in some_states(choose):
        check_advances(check, seed)
        check_doubling(check, seed)
        check_sums(check, choose, seed)
        check_hosts(check, seed)
    return passed, failed
