"""The command's time on the longest listing there is: `uisnabar list` of 2^20 instructions takes under a second, document 02's users ask.

  cli_speed.py UISNABAR    the least of five runs, each from a file to a file; ends in 1 where that is a second or more

`./bench speed` calls it, on x86-64 alone."""
import pathlib
import subprocess
import sys
import tempfile
import time

import oracle_listings
from oracle_words import P

MOST, RUNS, LIMIT = 1 << 20, 5, 1.0
LONGEST = f"op=xpeq a=cell:{P - 1} b=cell:{P - 1} c=cell:{P - 1} be=1 n={MOST}\n".encode()


def timed(words, out):
    """The seconds that a command takes, its output going to a file."""
    with open(out, "wb") as to:
        began = time.monotonic()
        done = subprocess.run(words, stdout=to, stderr=subprocess.DEVNULL)
        took = time.monotonic() - began
    if done.returncode != 0:
        sys.exit(f"{words[1]} ended in {done.returncode}")
    return took


def main(argv):
    _, instruction = oracle_listings.read_listing(LONGEST)
    with tempfile.TemporaryDirectory() as scratch:
        program, listing, again = (pathlib.Path(scratch) / name for name in ("program", "listing", "again"))
        program.write_bytes(instruction * MOST)
        listed = min(timed([argv[1], "list", program], listing) for _ in range(RUNS))
        read = min(timed([argv[1], "assemble", listing, again], listing.with_suffix(".out")) for _ in range(RUNS))
        if listing.read_bytes() != LONGEST * MOST or again.read_bytes() != program.read_bytes():
            sys.exit("the listing of the program, or the program of the listing, is another")
    print(f"uisnabar list of 2^20 instructions, {len(LONGEST)} bytes a line: {listed:.2f} s; uisnabar assemble: {read:.2f} s")
    return 0 if listed < LIMIT else 1


sys.exit(main(sys.argv))
