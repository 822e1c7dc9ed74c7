"""Refused lookups, for tests/cli.py: the numbers of each are written out here, by hand from document 02's M-104, and how
the sentence ends, which is what docs/VERDICTS.md has. A cell, or some words, of accepted tables are changed."""
import itertools
import pathlib

import cli_cases
import shelf
from cli_run import FILES, ROOT, check, run, write
from oracle import P, words_of
from trials_input import resized
from trials_parts import (
    ADDR_A, ADDR_B, ADDR_C, EXEC, EXT, IDX_A, IDX_B, IDX_R, MEMORY, RES, V_A, V_A_BASE, V_B, VALUE_A, VALUE_B, VALUE_C, changed,
    each_kind, word_at)

# part, rule, and the columns of the cell's number, or of the first of five, and of the word
ONE = ((EXEC, 2, ADDR_A, VALUE_A, "value A"), (EXEC, 3, ADDR_B, VALUE_B, "value B"), (EXEC, 4, ADDR_C, VALUE_C, "value C"),
       (EXT, 18, IDX_A, V_A_BASE, "vA base"))
FIVE = ((EXT, 19, IDX_A, V_A, "vA"), (EXT, 20, IDX_B, V_B, "vB"), (EXT, 21, IDX_R, RES, "res"))
VERDICT, ROWS = {EXEC: 5, EXT: 6}, (0, 3, 255)
FAR = ((256, 256), (256, 257), (256, 2**30), (256, P - 1), (1024, 1024), (1024, P - 1))  # how many cells there are, and one not below


def spoiled(tables):
    """What the table program writes for shelf/seed-0.label, with value B of execution row 17 changed: README.md's example."""
    return tables[:10664] + b"\1" + tables[10665:]


def refused(name, parts, start, answer, ending):
    """Lines, sentence and status of judge, of --paste and of count, which makes no grid."""
    verdict, part, place, rule, expected, found = answer
    plain = cli_cases.RULES[part][rule][1]
    said = f"{cli_cases.NAMES[verdict]}: {cli_cases.ROW[part]} {place} breaks rule {rule}, {plain}; {ending}\n"
    lines = f"verdict={verdict}\npart={part}\nplace={place}\nrule={rule}\nexpected={expected}\nfound={found}\n"
    given = ["--pc", str(start[0]), "--fp", str(start[1]), *FILES]
    write(parts)
    pathlib.Path("none").unlink(missing_ok=True)
    check(f"{name}, by the page", cli_cases.ending(answer, parts), f"; {ending}")
    check(name, run("judge", *given), (1, lines.encode(), said))
    check(f"{name}, count", (*run("count", "none", *given), pathlib.Path("none").exists()), (1, lines.encode(), said, False))
    status, out, told = run("judge", "--paste", *given)
    pasted = f"answer: {cli_cases.NAMES[verdict]}, part={part}, place={place}, rule={rule}, expected={expected}, found={found}\n{said}"
    check(f"{name}, --paste", (status, out.decode().startswith(lines), out.decode().count(pasted), told), (1, True, 1, said))


def one_cell():
    """Each rule of one cell, on the first, an inner and the last row: the column is another word, 0 and p - 1 too."""
    parts, start = each_kind()
    for part, rule, number, column, name in ONE:
        for row in ROWS:
            cell, held = word_at(parts, part, row, number), word_at(parts, part, row, column)
            for other in {0, P - 1, (held + 1) % P} - {held}:
                refused(f"rule {rule}, row {row}, {other} for {held}", changed(parts, (part, row, column, other)), start,
                        (VERDICT[part], part, row, rule, held, other), f"cell {cell} holds {held}, {name} is {other}")


def other_cells():
    """The cell itself is another word, and the column keeps its own; the first row that looks it up is named."""
    parts, start = each_kind()
    for part, rule, number, column, name in ONE[:3]:
        cell, held = word_at(parts, part, 0, number), word_at(parts, part, 0, column)
        for other in {0, P - 1} - {held}:
            refused(f"rule {rule}, cell {cell} holds {other}", changed(parts, (MEMORY, cell, 0, other)), start,
                    (5, 3, 0, rule, other, held), f"cell {cell} holds {other}, {name} is {held}")


def five_cells():
    """The first of five words that is another, whichever come after it; and the last five cells that there are."""
    parts, start = each_kind()
    for part, rule, number, column, name in FIVE:
        for places in ((0,), (1,), (2,), (3,), (4,), (0, 4), (1, 2), (2, 3, 4), (3, 4), (0, 1, 2, 3, 4)):
            cell, at = word_at(parts, part, 9, number) + places[0], places[0]
            held = word_at(parts, part, 9, column + at)
            other = (held + 7) % P
            now = changed(parts, *[(part, 9, column + place, (word_at(parts, part, 9, column + place) + 7) % P) for place in places])
            refused(f"rule {rule}, words {places}", now, start, (6, 4, 9, rule, held, other),
                    f"cell {cell} holds {held}, {name}[{at}] is {other}")
        for at in (0, 2, 4):
            words = list(words_of(parts[MEMORY - 1])[251:])
            held, words[at] = words[at], (words[at] + 9) % P
            now = changed(parts, *moved_to(part, 9, number, column, 251, words), *based(parts, rule, 251))
            refused(f"rule {rule}, word {at} of the last five cells", now, start, (6, 4, 9, rule, held, words[at]),
                    f"cell {251 + at} holds {held}, {name}[{at}] is {words[at]}")


def moved_to(part, row, number, column, first, words):
    """The changes that have a row look five words up from another cell on."""
    return [(part, row, number, first), *[(part, row, column + at, word) for at, word in enumerate(words)]]


def based(parts, rule, first):
    """Rule 19 is of the same cells as rule 18, which comes before it and must hold."""
    return [(EXT, 9, V_A_BASE, words_of(parts[MEMORY - 1])[first])] if rule == 19 else []


def far():
    """A cell that is not below M, with small and larger memories: nothing is said of words, and the cell is named."""
    whole, start = each_kind()
    for (part, rule, number, column, _), (cells, cell) in itertools.product(ONE, FAR):
        parts = resized(whole, MEMORY, 4 * cells)
        for word in (0, word_at(parts, part, 9, column)):
            now = changed(parts, (part, 9, number, cell), (part, 9, column, word))
            refused(f"rule {rule}, cell {cell} of {cells}, {word}", now, start, (VERDICT[part], part, 9, rule, 0, 0),
                    f"cell {cell} is not below M = {cells}, the number of cells")


def far_of_five():
    """Five cells that end, or stand, beyond M: nothing is said of words where an earlier one differs, or none does."""
    parts, start = each_kind()
    for part, rule, number, column, _ in FIVE:
        for first in (252, 253, 255, 256, 300, P - 1):
            if rule == 19 and first > 255:
                continue  # rule 18 is named there
            there = (words_of(parts[MEMORY - 1])[first:] + (0,) * 5)[:5]
            for by in (0, 1):
                words = ((there[0] + by) % P, *there[1:])
                now = changed(parts, *moved_to(part, 9, number, column, first, words), *based(parts, rule, first))
                refused(f"rule {rule}, cells from {first} on, the first by {by}", now, start, (6, 4, 9, rule, 0, 0),
                        f"of cells {first} to {first + 4}, cell {max(first, 256)} is the first not below M = 256, the number of cells")


def no_lookups():
    """Of other rules and verdicts both numbers are 0, and the sentence ends as it did."""
    parts, start = each_kind()
    for name, now, at, answer, said in (
            ("another start", parts, (1, start[1]), (4,), "(--pc, --fp)"),
            ("rule 5", changed(parts, (EXEC, 0, ADDR_A, 250)), start, (5, 3, 0, 5), "address A must be fp + operand A"),
            ("extension rule 17", changed(parts, (EXT, 100, 4, 2)), start, (6, 4, 100, 17), "where the next start is not 0, len must be 1"),
            ("a word", changed(parts, (EXEC, 0, VALUE_A, P)), start, (2, 3, 5), f"a word must be below p = {P}")):
        write(now)
        status, out, told = run("judge", "--pc", str(at[0]), "--fp", str(at[1]), *FILES)
        check(f"{name}: no lookup", (status, out, told.endswith(said + "\n")), (1, shelf.six_lines(answer), True))


def in_one_file():
    """README.md's example, judged and counted: the row is found in the one file that the table program writes."""
    _, whole = shelf.answer_and_tables((ROOT / "shelf/seed-0.label").read_bytes())
    pathlib.Path("tables").write_bytes(spoiled(whole))
    pathlib.Path("none").unlink(missing_ok=True)
    for words in (("judge", "tables"), ("count", "none", "tables")):
        status, out, said = run(*words)
        check(f"{words}: an example", (status, out.endswith(b"\nexpected=335903614\nfound=335903489\n"), said.endswith("; cell 0 holds 335903614, value B is 335903489\n")),
              (1, True, True))


GROUPS = (one_cell, other_cells, five_cells, far, far_of_five, no_lookups, in_one_file)
