"""Tables for tests/cli.py, one for each verdict, part and rule, and what `uisnabar judge` must say of them: the numbers
by tests/oracle.py, the words by docs/VERDICTS.md."""
import hashlib
import re

import cli_page
import oracle
import trials_input
import trials_judge
import trials_parts
import trials_rules
from trials_parts import EXEC, EXT, MEMORY, PROGRAM, each_kind

NAMES = "ACCEPTED SIZE WORD INSTRUCTION START EXEC EXTENSION BUS LABEL".split()
ROW = (None, "instruction", "memory cell", "execution row", "extension row", "instruction")
WORDS = (*trials_parts.WORDS, 14)  # the fifth layout is draft 0.5.0's, of tests/cli_translate.py
LAYOUTS = cli_page.table("Layouts")
ENDINGS = [words for _, _, words in cli_page.table("Expected and found")]  # in range, one cell that isn't, five
RULES = {EXEC: cli_page.rules("Execution rules"), EXT: cli_page.rules("Extension rules")}
ELEMENTS = {EXT: 10}  # the column from which a row has elements of five words


class Chosen:
    """The first case of each verdict, part and rule, and on a table's last two rows; each word. trials_* call it."""

    def __init__(self):
        self.cases = {}

    def judge(self, name, wanted, parts, start):
        verdict, part, place, rule = wanted[:4]
        kind = verdict, part, rule, place if verdict == 2 or place > 253 else 0
        if kind not in self.cases:
            assert oracle.judge(parts[0], parts[1], *start, *parts[2:]) == wanted, name
            self.cases[kind] = name, wanted, parts, start
        return wanted


def cases():
    """(name, answer, parts, start): every part of SIZE, WORD and BUS, every rule."""
    chosen = Chosen()
    parts, start = each_kind()
    bad = [*trials_input.sizes(parts), *trials_input.wrong_words(parts, range(1, 5)), *trials_input.instructions(parts)]
    for name, wanted, given in bad:
        chosen.judge(name, wanted, given, start)
    for wrong in trials_input.starts(*start):
        chosen.cases[wrong] = f"start {wrong}", oracle.six(4), parts, wrong
    trials_rules.cases(chosen, parts, start)
    trials_judge.buses(chosen, parts, start)
    trials_judge.late_push(chosen)
    found = {answer[0] for _, answer, _, _ in chosen.cases.values()}
    ruled = {(answer[0], answer[3]) for _, answer, _, _ in chosen.cases.values() if answer[3]}
    assert found == set(range(8)) and ruled == {(5, r) for r in range(1, 17)} | {(6, r) for r in range(1, 22)}
    return list(chosen.cases.values())


def columns(part):
    """The names of a row's columns, and how many words each has."""
    if part == MEMORY:
        return [("word", 1)]
    names = re.split(r"[,;] ", re.sub(r"operands |flags |then five words each: ", "", LAYOUTS[part - 1][3]))
    return [(name, 5 if place >= ELEMENTS.get(part, 30) else 1) for place, name in enumerate(names)]


def words(part):
    """The same for each word."""
    return [name if count == 1 else f"{name}[{k}]" for name, count in columns(part) for k in range(count)]


def word_sentence(part, place, parts):
    row, column = divmod(place, WORDS[part - 1])
    word, where = oracle.words_of(parts[part - 1])[place], f"{words(part)[column]} of {ROW[part]} {row}"
    return f"word {place} of the {LAYOUTS[part - 1][1]}, {where}, is {word}: a word must be below p = {oracle.P}"


def ending(answer, parts):
    """How the sentence of a lookup ends, by the page's words: those in capitals stand for numbers and names."""
    _, part, place, rule, expected, found = answer
    columns_read = RULES[part][rule][2].split("; " + cli_page.MEMORY)[0].split(", ")
    values = dict(zip(words(part), oracle.words_of(parts[part - 1])[WORDS[part - 1] * place:]))
    first, cells = values[columns_read[0]], oracle.words_of(parts[MEMORY - 1])
    names = [name for name in values if name.partition("[")[0] == columns_read[1]]
    if expected == found:
        told = {"FIRST": first, "LAST": first + 4, "CELL": max(first, len(cells)), "CELLS": len(cells)}
    else:
        at = next(at for at, name in enumerate(names) if values[name] != cells[first + at])
        told = {"CELL": first + at, "EXPECTED": expected, "COLUMN": names[at], "FOUND": found}
    words_said = ENDINGS[(1 if len(names) == 1 else 2) if expected == found else 0]
    return "; " + re.sub("[A-Z]{4,}", lambda name: str(told[name[0]]), words_said)


def rule_sentence(answer, parts):
    _, part, place, rule, _, _ = answer
    _, plain, read, _ = RULES[part][rule]
    last = place + 1 == len(parts[part - 1]) // (4 * WORDS[part - 1]) and cli_page.NEXT in read
    said = f"{ROW[part]} {place} breaks rule {rule}, {plain}" + "; the last row is its own next row" * last
    return said + (ending(answer, parts) if cli_page.MEMORY in read else "")


def sentence(answer, parts, start):
    """What standard error must have, without its LF."""
    verdict, part, place = answer[:3]
    if verdict == 0:
        said = "the tables satisfy the constraints of leanVM draft 0.6.0"
    elif verdict == 1:
        said = f"the {LAYOUTS[part - 1][1]} has {len(parts[part - 1])} bytes, and must be {LAYOUTS[part - 1][2]}"
    elif verdict == 2:
        said = word_sentence(part, place, parts)
    elif verdict == 3:
        said = f'instruction {place} of the program is malformed: docs/VERDICTS.md, "Well-formed instructions", says what it may be'
    elif verdict == 4:
        pc, fp = oracle.words_of(parts[2])[:2]
        said = f"execution row 0 has pc {pc} and fp {fp}, and the start handed in is pc {start[0]} and fp {start[1]} (--pc, --fp)"
    elif verdict == 7:
        plain = cli_page.table("The bus")[2][2]
        said = re.search(rf"part {part}: an (.+?)(?:;|$)", plain)[1].replace(" row ", f" row {place} ")
    else:
        said = rule_sentence(answer, parts)
    return f"{NAMES[verdict]}: {said}"


def row_line(part, row, parts):
    values = oracle.words_of(parts[part - 1])[WORDS[part - 1] * row:WORDS[part - 1] * (row + 1)]
    return f"{ROW[part]} {row}: " + ", ".join(f"{name}={value}" for name, value in zip(words(part), values, strict=True))


def rows(answer, parts):
    """The lines of the row that an answer names, of its successor and of its instruction."""
    verdict, part, place = answer[:3]
    if verdict < 2:
        return []
    part = part or EXEC
    row = place // WORDS[part - 1] if verdict == 2 else place
    lines = [row_line(part, row, parts)]
    if part in (EXEC, EXT):
        last = row + 1 == len(parts[part - 1]) // (4 * WORDS[part - 1])
        lines += [f"{ROW[part]} {row} is the last, and its own successor" if last else row_line(part, row + 1, parts)]
    if part == EXEC:
        pc, count = oracle.words_of(parts[2])[8 * row], len(parts[0]) // 48
        lines += [row_line(PROGRAM, pc, parts) if pc < count else f"instruction {pc}: none, the program has {count}"]
    return lines


def paste(version, answer, parts, start):
    """What --paste adds to the answer's lines."""
    lines = [version]
    for (_, name, _, _), part in zip(LAYOUTS, parts):
        lines.append(f"{name}: {len(part)} bytes, sha256 {hashlib.sha256(part).hexdigest()}")
    numbers = "part={}, place={}, rule={}, expected={}, found={}".format(*answer[1:])
    lines += [f"start: pc={start[0]}, fp={start[1]}", f"answer: {NAMES[answer[0]]}, {numbers}", sentence(answer, parts, start)]
    return "".join(line + "\n" for line in lines + rows(answer, parts))
