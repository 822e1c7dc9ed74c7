"""What `uisnabar judge --public` must say, for tests/cli_split.py: which lengths fit and in which file a cell stands
are computed here, from document 02's M-109; what is said of the two joined is tests/cli_cases.py's, the words are
docs/VERDICTS.md's."""
import hashlib
import pathlib
import re

import cli_cases
import shelf
from cli_run import FILES, ROOT, check, run, write
from trials_parts import MEMORY

PAGE = re.search(r"^## Public words in their own buffer\n(.+?)^## ", (ROOT / "docs/VERDICTS.md").read_text(), re.M | re.S)[1]
SHAPE = " ".join(re.findall(r"^> (.+)$", PAGE, re.M))
ROWS = [rows.splitlines()[2:] for rows in re.findall(r"(?:^\|.*\n)+", PAGE, re.M)]
_, WRONG, ENDINGS = ([row.strip("| ").split(" | ")[1] for row in rows] for rows in ROWS)
NO_PUBLIC, BAD_PUBLIC, NO_REST, WHOLE_REST, BAD_TOTAL = range(5)
PLACE = FILES.index("memory")
GIVEN = ("judge", "--public", "public", *FILES[:PLACE], "rest", *FILES[PLACE + 1:])


def fits(public, rest):
    return any(public == 4 * 2**log and public + rest == 4 * 2**m for m in range(8, 30) for log in range(m))


def filled(words, **numbers):
    """Words of the page, of which those in capitals that are named stand for numbers."""
    return re.sub("[A-Z]{4,}", lambda name: str(numbers.get(name[0], name[0])), words)


def size_sentence(public, rest, wrong):
    told = filled(WRONG[wrong], PUBLIC=public, JOINED=public + rest)
    return filled(SHAPE, PUBLIC=public, REST=rest, WRONG=told)


def sentence(answer, parts, start, public):
    """That of the joined memory, and where the cell stands that it is of."""
    said = cli_cases.sentence(answer, parts, start)
    of = re.search(r"word (\d+) of the memory|; cell (\d+) holds", said)
    if not of:
        return said
    cell, count = int(of[1] or of[2]), public // 4
    public_words, rest = ENDINGS
    return f"{said}; " + (filled(public_words, CELL=cell, WORD=cell) if cell < count else filled(rest, CELL=cell, WORD=cell - count))


def put(parts, public):
    """The files, so many bytes of the memory's in the first."""
    write(parts)
    pathlib.Path("public").write_bytes(parts[MEMORY - 1][:public])
    pathlib.Path("rest").write_bytes(parts[MEMORY - 1][public:])


def pasted(answer, parts, start, public, said):
    """The text of the joined memory, with a line for each of the two, and with the sentence."""
    version = run("--version")[1].decode().rstrip("\n")
    lines = cli_cases.paste(version, answer, parts, start).splitlines()
    lines[lines.index(cli_cases.sentence(answer, parts, start))] = said
    for at, name, held in ((3, "public words", parts[MEMORY - 1][:public]), (4, "rest of the memory", parts[MEMORY - 1][public:])):
        lines.insert(at, f"{name}: {len(held)} bytes, sha256 {hashlib.sha256(held).hexdigest()}")
    return "".join(line + "\n" for line in lines).encode()


def asked(name, parts, start, public, answer, said=None, paste=False):
    """Status, lines and sentence, and those of --paste."""
    put(parts, public)
    said, lines = said or sentence(answer, parts, start, public), shelf.six_lines(answer)
    words = [*GIVEN, "--pc", str(start[0]), "--fp", str(start[1])]
    check(f"{name}, {public} bytes public", run(*words), (int(answer[0] > 0), lines, said + "\n"))
    if paste:
        wanted = lines + pasted(answer, parts, start, public, said)
        check(f"{name}, {public} bytes public, --paste", run(*words, "--paste"), (int(answer[0] > 0), wanted, said + "\n"))
