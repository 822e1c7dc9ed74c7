"""Bad input, for judge and tabler: lengths, words, instructions and start numbers.

The upper limits of the lengths are beyond the program's buffers."""
from oracle import P, inst, six
from trials_parts import (
    A, ACCEPTED, B, C, DATA, EXEC, EXT, FP, FPC, MEMORY, PC, PROGRAM, WORDS, changed, each_kind)

SKIPPED = 5  # the instruction that each_kind's run passes over
ROWS = (48, 4, 32, 120)  # bytes in a row of each part
MANY = 2**20  # the largest N


def resized(parts, part, length):
    """The parts, one of them with another length: cut, or with its last row again and again."""
    data = parts[part - 1]
    data += data[-ROWS[part - 1]:] * (length // ROWS[part - 1] + 1)
    return parts[:part - 1] + (data[:length],) + parts[part:]


def sizes(parts):
    for part, row in enumerate(ROWS, 1):
        good = len(parts[part - 1])
        for length in (0, 1, good - 1, good + 1):
            yield f"part {part} of {length} bytes", six(1, part), resized(parts, part, length)
        if part != PROGRAM:
            for count in (1, 127, 128, 129, 255, 257, 384, 511, 513):
                yield f"part {part} of {count} rows", six(1, part), resized(parts, part, count * row)
            yield f"part {part} of 512 rows", ACCEPTED, resized(parts, part, 512 * row)
    yield "part 1 of an instruction more, which nothing reaches", ACCEPTED, resized(parts, PROGRAM, len(parts[0]) + 48)
    yield "1024 cells", ACCEPTED, resized(parts, MEMORY, 4 * 1024)
    for part in (1, 2, 3):
        yield f"all parts from {part} on empty", six(1, part), parts[:part - 1] + (b"",) * (5 - part)
    yield "parts 2 and 4 a byte short", six(1, 2), (parts[0], parts[1][:-1], parts[2], parts[3][:-1])
    yield "part 4 a byte short, a word of part 1", six(1, 4), resized(changed(parts, (PROGRAM, 0, 0, P)), EXT, len(parts[3]) - 1)


def wrong_words(parts, which):
    """p and more at the first, a middle and the last place of some parts."""
    for part in which:
        count = len(parts[part - 1]) // 4
        for place in (0, count // 2, count - 1):
            for word in (P, P + 1, 2**32 - 1):
                row, column = divmod(place, WORDS[part - 1])
                yield f"word {word} at {place} of part {part}", six(2, part, place), changed(parts, (part, row, column, word))


def words(parts):
    yield from wrong_words(parts, (PROGRAM, MEMORY))
    yield "p - 1 is a word", ACCEPTED, changed(parts, *[(PROGRAM, SKIPPED, k, P - 1) for k in (A, B, C)], (MEMORY, 255, 0, P - 1))
    yield "a word, a malformed instruction before it", six(2, 1, 30), changed(parts, (PROGRAM, 0, DATA, 1), (PROGRAM, 2, FPC, P))
    yield "a word of part 1, one of part 2", six(2, 1, 155), changed(parts, (MEMORY, 0, 0, P), (PROGRAM, 12, DATA, P))


def malformed():
    """(name, words): each breaks one clause of document 01, "Well-formed instructions"."""
    none = {"fa": 0, "fb": 0, "fc": 0}
    for name in ("fa", "fb", "fc", "fpc"):
        yield f"{name} 2", inst(**{**none, name: 2}, aux=1)
    yield "fpab 2", inst(**none, fpab=2, data=36)
    yield "fA and fpAB", inst(fb=0, fpab=1, data=36)
    yield "fB and fpAB", inst(fa=0, fpab=1, data=36)
    yield "fC and fpC", inst(fpc=1, aux=1)
    kinds = {"ADD": {"aux": 1}, "MUL": {"mul": 1}, "DEREF": {"aux": 2, "fa": 0}, "JUMP": {"jump": 1, "fc": 0}}
    for kind, own in kinds.items():
        for word, value in (("mul", 1), ("jump", 1), ("aux", 1), ("aux", 2), ("data", 1), ("data", 36)):
            if word not in own:
                yield f"{kind} with {word} {value}", inst(**own, **{word: value})
        yield f"{kind} with fpAB", inst(**{**own, "fa": 0, "fb": 0}, fpab=1)
    for word, value in (("aux", 3), ("aux", P - 1), ("mul", 2), ("mul", P - 1), ("jump", 2), ("jump", P - 1)):
        yield f"{word} {value}", inst(fa=0, fc=0, **{word: value})
    yield "DEREF with immediate A", inst(aux=2)
    yield "DEREF with B in a cell", inst(fa=0, fb=0, aux=2)
    yield "JUMP with an immediate frame", inst(jump=1)
    yield "no kind at all", inst()
    yield "POSEIDON2", inst(data=1)
    for data in (2, 4, 6, 8, 16, 32, 34, 12 + 32, 20 + 32, 24 + 32, 28 + 32, 37, 39, 33, 4 + 32 * (MANY + 1), 4 + 64 * MANY, P - 1):
        yield f"DATA {data}", inst(data=data)


def instructions(parts):
    def at(place, words):
        return changed(parts, *[(PROGRAM, place, k, word) for k, word in enumerate(words)])

    for name, words in malformed():
        yield name, six(3, 1, SKIPPED), at(SKIPPED, words)
    for place in (0, 12):
        yield f"instruction {place} malformed", six(3, 1, place), at(place, inst(data=1))
    for data in (4 + 32 * MANY, 8 + 2 + 32 * MANY, 16 + 32, 4 + 32, 8 + 32, 6 + 32):
        yield f"well-formed DATA {data}", ACCEPTED, at(SKIPPED, inst(data=data))


def starts(pc, fp):
    """Start numbers at or above p, among them the right ones with a bit too many."""
    for wrong in sorted({P, P + pc, 2**32 - 1, 2**32, 2**32 + pc, 2**63 + pc, 2**64 - 1}):
        yield wrong, fp
    for wrong in sorted({P, P + fp, 2**32 - 1, 2**32, 2**32 + fp, 2**63 + fp, 2**64 - 1}):
        yield pc, wrong
    yield P, P


def cases(t):
    parts, start = each_kind()
    shared = [*sizes(parts), *words(parts), *instructions(parts)]
    for name, answer, given in shared + list(wrong_words(parts, (EXEC, EXT))):
        t.judge(name, answer, given, start)
    for wrong in [*starts(*start), (1, 40), (0, 41), (P - 1, 40), (40, 0)]:
        t.judge(f"start {wrong}", six(4), parts, wrong)
    t.judge("row 0 has another pc", six(4), changed(parts, (EXEC, 0, PC, 1)), start)
    t.judge("row 0 has another fp", six(4), changed(parts, (EXEC, 0, FP, 41)), start)
    for name, answer, given in shared:
        t.table(name, answer, given[0], given[1], start, len(given[2]), len(given[3]))
    for wrong in starts(*start):
        t.table(f"start {wrong}", six(4), parts[0], parts[1], wrong)
