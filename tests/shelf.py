"""The shelf: labels, and beside each the answer and the tables' checksum, computed by tests/oracle.py.

`shelf.py DIR check` says what differs from the files that stand there; `shelf.py DIR write` writes them; `shelf.py DIR beside NAME`
writes the answer and the checksum of one label that stands there. The labels are chosen here, and `choice` asserts what they cover;
others may stand beside them (`./bench record`)."""
import hashlib
import pathlib
import sys

import oracle
import oracle_versions

H = K = 256
SEEDS = {"low": 0x000000002FFFFFFF, "one": 0x000000012FFFFFFF, "all": 0xFFFFFFFF2FFFFFFF}  # they differ in the upper half alone


NUMBERS = ("verdict", "part", "place", "rule", "expected", "found")


def six_lines(answer):
    """An answer as it is printed; numbers at its end that are not given are 0."""
    return "".join(f"{name}={number}\n" for name, number in zip(NUMBERS, oracle.six(*answer))).encode()


def answer_and_tables(text):
    """What the replay and the table program write, by document 01 and 02's M-104 and M-107."""
    *answer, version, seed, m, n = oracle.read_label(text)
    if answer[0] != 0:
        return six_lines(answer), b""
    if m != 10:
        return text + six_lines((1, 2)), b""
    program, memory = oracle.make(version, seed, m, n)
    tabled, execution, extension = oracle.table(program, memory, 0, 0, 32 * H, 120 * K)
    assert tabled[0] == 0, (text, tabled)
    judged = oracle.judge(program, memory, 0, 0, execution, extension)
    return text + six_lines(judged), bytes(program) + bytes(memory) + bytes(execution) + bytes(extension)


def kind_of(seed):
    """The kind of a recipe's first instruction, and for an extension its operation, be and N."""
    program, _ = oracle.make(1, seed, 10, 1)
    words = oracle.words_of(program)[:12]
    if words[8]:
        return "mul"
    if words[9]:
        return "jump-taken" if words[0] else "jump-untaken"
    if words[10]:
        return "add" if words[10] == 1 else "deref"
    operation = {4: "xadd", 8: "xmul", 16: "xpeq"}[words[11] & 28]
    return f"{operation}{'-be' if words[11] & 2 else ''}-{words[11] >> 5}"


KINDS = ["add", "mul", "deref", "jump-taken", "jump-untaken"] + [f"x{o}{be}-{n}" for o in ("add", "mul", "peq") for be in ("", "-be") for n in (1, 2)]


def choice():
    """Each label under its name: a first instruction of every kind, both ends of n, seeds that differ in the upper half, refusals."""
    labels, seed = {}, 0
    while len(labels) < len(KINDS):
        labels.setdefault("kind-" + kind_of(seed), oracle.label(1, seed, 10, 1))
        seed += 1
    assert set(labels) == {"kind-" + kind for kind in KINDS}
    for name, number in SEEDS.items():
        labels["upper-half-" + name] = oracle.label(1, number, 10, 124)
    labels["seed-0"] = oracle.label(1, 0, 10, 124)
    labels["seed-last"] = oracle.label(1, 2**64 - 1, 10, 124)
    labels["memory-11"] = oracle.label(1, 1, 11, 60)
    labels["memory-29"] = oracle.label(1, 1, 29, 60)
    whole = oracle.label(1, SEEDS["one"], 10, 12)
    labels["refused-n-125"] = b"v=1\nseed=000000012fffffff\nm=10\nn=125\n"
    labels["refused-cut"] = whole[:-1]
    labels["refused-more"] = whole + b"\n"
    labels["refused-cr-lf"] = whole.replace(b"\n", b"\r\n")
    labels["refused-capital"] = whole.replace(b"f", b"F")
    labels["refused-empty"] = b""
    labels["refused-binary"] = bytes(range(256))
    labels["refused-v-3"] = whole.replace(b"v=1", b"v=3")
    labels["refused-v2-n-125"] = labels["refused-n-125"].replace(b"v=1", b"v=2")
    return labels | second_version()


def second_version():
    """Labels of version 2: as the others, and with draws thrown away for a cell in each way that there is."""
    (first, other), ninth = oracle_versions.EIGHT, oracle_versions.NINE
    bound, before, drawing = oracle.BOUND, oracle_versions.before, oracle_versions.drawing
    seeds = {"upper-half-" + name: number for name, number in SEEDS.items()}
    seeds |= {"seed-0": 0, "seed-last": 2**64 - 1, "none-thrown": before(first, 32), "eight-thrown": first,
              "eight-thrown-other": other, "eight-thrown-last-cell": before(first, 31), "ninth-taken": ninth,
              "first-at-bound": drawing(bound, 1), "first-below-bound": drawing(bound - 1, 1)}
    counts = {name: oracle_versions.thrown(seed) for name, seed in seeds.items()}
    assert [name for name in seeds if counts[name][0] == 8] == ["eight-thrown", "eight-thrown-other", "ninth-taken"]
    assert counts["eight-thrown-last-cell"] == [0] * 31 + [8]
    assert counts["first-at-bound"][0] == 1 and counts["first-below-bound"][0] == 0
    # its eight large draws are the first instructions', so it makes what version 1 makes
    assert oracle.make(2, seeds["none-thrown"], 10, 124) == oracle.make(1, seeds["none-thrown"], 10, 124)
    labels = {"v2-" + name: oracle.label(2, seed, 10, 124) for name, seed in seeds.items()}
    return labels | {"v2-memory-11": oracle.label(2, 1, 11, 60)}


def beside(name, text):
    """The three files of a label."""
    answer, tables = answer_and_tables(text)
    return {name + ".label": text, name + ".answer": answer, name + ".tables": hashlib.sha256(tables).hexdigest().encode() + b"  -\n"}


def files(folder):
    """What belongs into the folder: the files of the labels chosen here, and of those that `./bench record` added."""
    labels = {path.stem: path.read_bytes() for path in folder.glob("*.label")}
    expected = {}
    for name, text in sorted((labels | choice()).items()):
        expected.update(beside(name, text))
    return expected


def write(folder, expected):
    folder.mkdir(exist_ok=True)
    for name, content in expected.items():
        (folder / name).write_bytes(content)


def main(folder, what, *names):
    folder, faults = pathlib.Path(folder), 0
    if what == "beside":
        for name in names:
            write(folder, beside(name, (folder / (name + ".label")).read_bytes()))
        return 0
    expected = files(folder)
    if what == "write":
        write(folder, expected)
    for name in sorted(set(expected) | {path.name for path in folder.iterdir()}):
        path = folder / name
        if name not in expected or not path.exists() or path.read_bytes() != expected[name]:
            print(f"{path} is not what the documents give")
            faults += 1
    print(f"{len(expected) // 3} labels computed, {faults} files differ")
    return 1 if faults else 0


if __name__ == "__main__":
    sys.exit(main(*sys.argv[1:]))
