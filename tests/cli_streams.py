"""`uisnabar host` and `uisnabar jump`, for tests/cli.py: seeds by composing a draw's map with itself, here; sentences
by docs/VERDICTS.md, whose script is run, and labels by tests/oracle.py."""
import os
import pathlib
import re
import shutil

import oracle
import shelf
from cli_run import COMMAND, ROOT, check, could_not, run, unwritable
from oracle import six

TIMES, PLUS, ALL = 6364136223846793005, 1442695040888963407, 2**64
HOSTS, APART, MOST = 2**24, 2**40, 2**64 - 1
PAGE = re.search(r"^## Streams from one seed\n(.+?)^## ", (ROOT / "docs/VERDICTS.md").read_text(), re.M | re.S)[1]
WHERE = dict(re.findall(r"^\| ((?:host|jump)[^|]*) \| (.+) \|$", PAGE, re.M))
SEEDS = (0, 1, 0x12FFFFFFF, 0x0123456789ABCDEF, 0xFEDCBA9876543210, 2**63, MOST)
JUMPS = (0, 1, 2, 3, 660, 1024, 2**32 - 1, 2**32, 2**32 + 1, APART - 1, APART, 2**63 - 1, 2**63, MOST - 1, MOST)
KNOWN = (0, 1, 2, 3, 255, 256, 65535, 65536, 2**23, HOSTS - 2, HOSTS - 1)
UNKNOWN = (HOSTS, HOSTS + 1, 2**31, 2**32 - 1, 2**32, 2**32 + 5, APART, 2**63, MOST)
NO_NUMBER = ("", "-1", "+1", " 1", "1 ", "1\n", "0x1", "1e3", "1.0", "1,000", "1a", "\u0661", str(ALL), "9" * 40, "--", "-")
NO_SEED = ("", "0", "0" * 15, "0" * 17, "0" * 32, "000000012FFFFFFF", "000000012ffffffg", "0x0000012fffffff", "seed=000000012fffffff",
           " 00000012fffffff", "000000012ffffff ", "000000012fffffff\n", "-00000012fffffff", "+00000012fffffff", "\u0661" * 16,
           "\u0661" * 8, "00000001\t2ffffff", "--", "-")
FINE = "000000012fffffff"


def after(seed, draws):
    """The state so many draws on: the map of a draw, squared for each bit of their number."""
    times, plus, power = 1, 0, (TIMES, PLUS)
    while draws:
        if draws % 2:
            times, plus = power[0] * times % ALL, (power[0] * plus + power[1]) % ALL
        power, draws = (power[0]**2 % ALL, (power[0] * power[1] + power[1]) % ALL), draws // 2
    return (times * seed + plus) % ALL


def told(where, **words):
    """What standard error must have, by the page's table."""
    return re.sub("[A-Z]+", lambda word: words.get(word[0], word[0]), WHERE[where]) + "\n"


def hosted(seed, number):
    """Status, standard output and standard error for a host."""
    if number >= HOSTS:
        return 1, b"", shelf.six_lines(six(18)).decode() + told("host, refused", K=str(number))
    digits = f"{after(seed, number * APART):016x}"
    return 0, f"{digits}\n".encode(), told("host, accepted", K=str(number), NEXT=digits, DRAWS=str(number * APART), SEED=f"{seed:016x}")


def jumped(seed, draws):
    """The same for a jump."""
    digits = f"{after(seed, draws):016x}"
    return 0, f"{digits}\n".encode(), told("jump", NEXT=digits, DRAWS=str(draws), SEED=f"{seed:016x}")


def single():
    """The map against single draws of the second implementation, more than a label takes; and the command."""
    for seed in SEEDS:
        states = [seed]
        while len(states) < 700:
            states.append(oracle.draw(states[-1])[1])
        check(f"draws from {seed:016x}", [after(seed, draws) for draws in range(700)], states)
        for draws in (1, 2, 3, 404, 660):
            check(f"{draws} draws from {seed:016x}", run("jump", f"{seed:016x}", str(draws))[:2], (0, f"{states[draws]:016x}\n".encode()))


def streams():
    """Jumps and hosts at every edge; zeros before a number are none of its digits."""
    check("the page's sentences", sorted(WHERE), ["host, accepted", "host, refused", "jump"])
    for seed in SEEDS:
        for draws in (*JUMPS, *(2**bit for bit in range(4, 64, 5))):
            check(f"jump {seed:016x} {draws}", run("jump", f"{seed:016x}", str(draws)), jumped(seed, draws))
        for number in (*KNOWN, *UNKNOWN):
            check(f"host {seed:016x} {number}", run("host", f"{seed:016x}", str(number)), hosted(seed, number))
        check(f"host 0 of {seed:016x}", run("host", f"{seed:016x}", "0")[1], f"{seed:016x}\n".encode())
    for text, number in (("01", 1), ("0" * 40 + "5", 5), (f"00{HOSTS}", HOSTS), ("00", 0)):
        check(f"host {text}", run("host", FINE, text), hosted(int(FINE, 16), number))
        check(f"jump {text}", run("jump", FINE, text), jumped(int(FINE, 16), number))


def sums():
    """Two jumps are a jump of their sum modulo 2^64; a host and 2^40 draws are the next host, or the first."""
    for j, k in ((1, MOST), (2**63, 2**63), (660, 364), (MOST, MOST), (APART, 12345)):
        once = run("jump", FINE, str(j))[1].decode().strip()
        check(f"jumps of {j} and {k}", run("jump", once, str(k))[1], run("jump", FINE, str((j + k) % ALL))[1])
    for number in (0, 1, 77, HOSTS - 2, HOSTS - 1):
        begin = run("host", FINE, str(number))[1].decode().strip()
        check(f"behind host {number}", run("jump", begin, str(APART))[1], run("host", FINE, str((number + 1) % HOSTS))[1])


def no_words():
    """What is no seed and no number; too few words and too many; options: status 2, and nothing on standard output."""
    for name, second in (("host", "K"), ("jump", "DRAWS")):
        for text in NO_NUMBER:
            could_not(f"{name} {text!r}", run(name, FINE, text), f"{second} takes a decimal number from 0 to 18446744073709551615, not ")
        for text in NO_SEED:
            for number in ("1", "none"):
                could_not(f"{name} of {text!r}", run(name, text, number), "SEED takes 16 lower-case hex digits, as stand behind a label's seed=")
        for given in ((), (FINE,), ("1",), (FINE, "1", "2"), ("--", FINE, "1"), ("--paste", FINE, "1"), (FINE, "1", "--help"), ("-v",)):
            about = f"{name} takes two words, SEED and {second}, and no option: {len(given)} were handed in"
            could_not(f"{name} {given}", run(name, *given), about)


def without(stream, *words):
    """The same of the command with a stream closed."""
    return run('exec "$@" ' + stream, "sh", *COMMAND, *words, command=["sh", "-c"])


def unwritten():
    """A seed that cannot be written is status 2; a refusal writes none, and is one wherever it goes."""
    for words in (("host", FINE, "5"), ("jump", FINE, "1024"), ("jump", FINE, "0")):
        unwritable(words)
        could_not(f"{words} to closed output", without(">&-", *words), "standard output cannot be written: Bad file")
        check(f"{words} without standard error", without("2>&-", *words)[1:], (run(*words)[1], ""))
    refused = hosted(int(FINE, 16), HOSTS)
    check("a refusal to closed output", without(">&-", "host", FINE, str(HOSTS)), refused)
    with open("/dev/full", "wb") as full:
        check("a refusal to a full disk", run("host", FINE, str(HOSTS), stdout=full)[::2], refused[::2])


def scripted(script):
    """What a script prints in a folder of its own, and the labels that it wrote there, by host and number."""
    shutil.rmtree("streams", ignore_errors=True)
    os.mkdir("streams")
    command = " ".join(f"'{word}'" for word in COMMAND)
    told_so = run(f'uisnabar() {{ {command} "$@"; }}\n{script}', command=["sh", "-c"], cwd="streams")
    found = {tuple(int(number) for number in re.findall(r"\d+", str(path))): path.read_bytes()
             for path in pathlib.Path("streams").glob("host-*/*.label")}
    return *told_so, found


def seed_of(host, number):
    """The seed of a host's label."""
    return after(int(FINE, 16), host * APART + 1024 * number)


def label_of(host, number):
    return b"v=2\nseed=%016x\nm=10\nn=124\n" % seed_of(host, number)


def operands(version, state):
    """a and c of a label's 124 instructions: of each the second and the third draw, modulo 32, behind the cells'."""
    for _ in range(32):
        _, state = oracle.draw_cell(version, state)
    return tuple(oracle.draw(after(state, at))[0] % 32 for at in range(3 * 124) if at % 3)


def alike():
    """Label i of three hosts has the same a and c in version 1, and as the page's other line has it in neither."""
    for version, later, kinds in ((1, 0, 4), (1, 1, 12), (2, 1, 12)):
        found = {operands(version, seed_of(host, 4 * host * later + i)) for host in (0, 3, 2**23) for i in range(4)}
        check(f"a and c of v={version} on three hosts, {later}", len(found), kinds)


def page():
    """docs/VERDICTS.md's script, with its other line too, and for a host that is none; README.md's two lines."""
    script, other = (re.sub("^    ", "", text, flags=re.M) for text in re.findall(r"(?:^    .+\n)+", PAGE, re.M))
    said = hosted(int(FINE, 16), 3)[2]
    check("the page's script", scripted(script), (0, b"", said, {(3, i): label_of(3, i) for i in range(4)}))
    script = script.replace("host=3", "host=${host:-3}")
    replaced = re.sub(r"^ *next=.+\n", lambda _: other, script, flags=re.M)
    check("its other line", scripted(replaced), (0, b"", said, {(3, i): label_of(3, 12 + i) for i in range(4)}))
    status, out, _, found = scripted(script.replace("{host:-3}", "{host:-16777216}"))
    check("its script for no host", (status, out, found, os.listdir("streams")), (1, b"", {}, []))
    lines = re.findall(r"^    uisnabar (host|jump) (\S+) (\d+)$", (ROOT / "README.md").read_text(), re.M)
    check("README.md's lines", lines, [("host", FINE, "3"), ("jump", run("host", FINE, "3")[1].decode().strip(), "1024")])


def same_digits():
    """The page's sentence on the lower bits: ten digits of a host's seed, and of hosts 2^j apart 40 + j bits."""
    for j in range(24):
        begins = [int(run("host", FINE, str(number << j))[1], 16) for number in (0, 1)]
        check(f"hosts 2^{j} apart", (begins[0] ^ begins[1]) % 2**(40 + j), 0)
        check(f"hosts 2^{j} apart, a bit more", (begins[0] ^ begins[1]) % 2**(41 + j), 2**(40 + j))


GROUPS = (single, streams, sums, no_words, unwritten, page, same_digits, alike)
