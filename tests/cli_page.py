"""docs/VERDICTS.md says of each rule what the definitions, the command and the second implementation say.

Rule numbers and order, and the columns that a rule reads, are those of crates/rules/specs; the draft's formulas,
evaluated on drawn words, are the polynomials of tests/oracle.py; the plain words are cli/sentences.c's, a label's lines
too, the layouts cli/layout.c's; its forms are those that the second implementation finds possible; every definition and
theorem named there, in docs/DISPUTE.md and in docs/LISTING.md is in the file named."""
import itertools
import pathlib
import re
import sys

sys.dont_write_bytecode = True
import oracle
import oracle_forms

ROOT = pathlib.Path(__file__).resolve().parent.parent
PAGE = (ROOT / "docs/VERDICTS.md").read_text()
SPECS = ROOT / "crates/rules/specs"
NEXT, INSTRUCTION, MEMORY = "of the next row ", "of the instruction ", "of memory "
EXEC = "pc fp addrA addrB addrC valueA valueB valueC".split()
WORDS = "a b c fa fb fc fpc fpab mul jump aux data".split()
EXT = "start add mul peq len idxA idxB idxR be base vA vB comp res".split()
SHOWN = dict(zip(WORDS, "A B C fA fB fC fpC fpAB MUL JUMP AUX DATA".split()))
COLUMN = {**{name: re.sub(r"(addr|value)(.)", r"\1 \2", name) for name in EXEC + EXT}, "base": "vA base"}
TRIES = 20


def table(title):
    """The cells of the first table below a heading."""
    text = PAGE[PAGE.index(f"## {title}\n"):]
    lines = re.search(r"(?:^\|.*\n)+", text, re.M)[0].splitlines()[2:]
    return [[cell.strip() for cell in line.strip("|").split(" | ")] for line in lines]


def rules(title):
    """A table's rules by number: the draft's formula, plain words, columns, definition."""
    return {int(number): cells for number, *cells in table(title)}


def definitions(text):
    """The one-line definitions of a file of specs/, by name."""
    return dict(re.findall(r"^(\S+)(?: [ixy])+ = (.+)$", text, re.M))


def reads(body, known):
    """The fields that a definition reads: pairs of x, y or i and the field's name."""
    fields = set(re.findall(r"\b([ixy])\.(\w+)", body))
    for name, inner in known.items():
        if re.search(rf"(?<![\w.ν]){re.escape(name)} [ixy]", body):
            fields |= reads(inner, known)
    return fields


def columns(body, known, order):
    """The same in the page's words."""
    fields = reads(body, known)
    row, following = ([COLUMN[name] for name in order if (whose, name) in fields] for whose in "xy")
    words = [SHOWN[name] for name in WORDS if ("i", name) in fields]
    said = [", ".join(row)]
    said += [INSTRUCTION + ", ".join(words)] if words else []
    said += [NEXT + ", ".join(following)] if following else []
    said += ["the program's length"] if ".count" in body else []
    said += [MEMORY + "five cells"] if "looks_up_five" in body else [MEMORY + "the cell"] if "looks_up" in body else []
    return "; ".join(said)


class Element:
    """Sums and products of elements as Python writes them; a number counts as an element."""

    def __init__(self, words):
        self.words = words if isinstance(words, tuple) else oracle.embed(words)

    def __add__(self, other):
        return Element(oracle.element_sum(self.words, element(other).words))

    def __sub__(self, other):
        return Element(oracle.element_difference(self.words, element(other).words))

    def __rsub__(self, other):
        return element(other) - self

    def __mul__(self, other):
        return Element(oracle.element_product(self.words, element(other).words))

    def __truediv__(self, other):
        return self * pow(other, -1, oracle.P)


def element(value):
    return value if isinstance(value, Element) else Element(value)


def evaluated(formula, names):
    for old, new in (("·", "*"), (")(", ")*("), ("^", "_"), (",F", "_F")):
        formula = formula.replace(old, new)
    return element(eval(re.sub(r"next\((\w+)\)", r"next_\1", formula), {"__builtins__": {}}, names))


def drawn(count, small, state):
    """Some words, and the generator's state; those at the places in `small` are often 0, 1 or 2, as flags are."""
    words = []
    for place in range(count):
        number, state = oracle.draw(state)
        words.append(number % 3 if place in small and number % 4 else number % oracle.P)
    return tuple(words), state


def group_names(row, following):
    """What the draft's names stand for in an extension row."""
    base, names = "start flag_add flag_mul flag_poly_eq len idx_A idx_B idx_R is_be v_A_Fp".split(), {}
    for prefix, words in (("", row), ("next_", following)):
        names.update({prefix + name: Element(word) for name, word in zip(base, words)})
        names.update({prefix + name: Element(words[at:at + 5]) for name, at in (("v_A_Fq", 10), ("v_B", 15), ("comp", 20), ("res", 25))})
        names.update({prefix + name: Element(words[at]) for name, at in (("f_add", 1), ("f_mul", 2), ("f_peq", 3))})
    return names


def step_names(row, following, instruction):
    """The same in an execution row."""
    operands = "operand_A operand_B operand_C flag_A flag_B flag_C flag_fp_C flag_fp_AB MUL JUMP AUX DATA".split()
    steps = "pc fp addr_A addr_B addr_C value_A value_B value_C".split()
    names = {name: Element(word) for name, word in [*zip(steps, row), *zip(operands, instruction)]}
    names.update({name.replace("addr", "address"): names[name] for name in steps[2:5]})
    return {**names, "next_pc": Element(following[0]), "next_fp": Element(following[1])}


def with_short(names):
    """The same with the values that the page's table of short words defines, where what they need is there."""
    for short, formula, _ in table("How to read a rule"):
        name, body = formula.split("`")[1].split(" = ")
        try:
            names[short if "(" in name else name] = evaluated(body, names)
        except NameError:
            pass
    return names


def formulas():
    """The draft's formulas as the page has them, against the second implementation."""
    state = 1
    for _ in range(TRIES):
        words, state = drawn(28, range(19, 27), state)
        row, following, instruction = (0, *words[1:8]), words[8:16], words[16:]
        wanted = {rule: (value,) for rule, value in oracle.exec_rules([instruction], (0,) * 8, row, following)}
        yield from compared("Execution rules", range(5, 17), wanted, with_short(step_names(row, following, instruction)))
        words, state = drawn(60, (0, 1, 2, 3, 8, 30, 31, 32, 33, 38), state)
        row, following = words[:30], words[30:]
        wanted = dict(oracle.ext_rules((0,) * 8, row, following))
        yield from compared("Extension rules", range(1, 18), wanted, with_short(group_names(row, following)))


def compared(title, which, wanted, names):
    """The formulas of a table that are polynomials. tests/oracle.py gives rules 6 to 8 where their flag isn't 0."""
    said = rules(title)
    for rule in which:
        found = evaluated(said[rule][0].strip("`").removesuffix(" = 0"), names).words
        expected = tuple(value % oracle.P for value in wanted.get(rule, (0,)))
        if found != (expected + (0,) * 5)[:5]:
            yield f"{title}, {rule}: the formula is not the second implementation's"


def against_specs(title, file, name, order, words):
    text = (SPECS / file).read_text()
    known, said = definitions(text), rules(title)
    bodies = {int(number): body for number, body in re.findall(r"rule (\d+) \((.+)\)$", text, re.M)}
    if list(said) != list(bodies):
        yield f"{title}: {list(said)}, and {file} has {list(bodies)}"
        return
    for number, body in bodies.items():
        _, plain, read, definition = said[number]
        if read != columns(body, known, order):
            yield f"{title}, {number}: reads {columns(body, known, order)}"
        if not definition.startswith(f"crates/rules/specs/{file} `{name}`, `rule {number}`"):
            yield f"{title}, {number}: no definition is named"
        if words.get(number) != (NEXT in read, plain):
            yield f"{title}, {number}: cli/sentences.c has {words.get(number)}"


def sentences(array):
    """cli/sentences.c's words by rule, with whether the rule reads the next row."""
    text = (ROOT / "cli/sentences.c").read_text()
    text = text[text.index(f"struct rule {array}[]"):]
    entries = re.findall(r'\{(\d+), (true|false), "(.+)"\}', text[:text.index("};")])
    return {int(number): (reading == "true", words) for number, reading, words in entries}


def label_lines():
    """A label's lines in the page's words and in the command's."""
    text = (ROOT / "cli/sentences.c").read_text()
    told = re.findall(r'"(.+)"', re.search(r"label_lines\[\] = \{(.+?)\};", text, re.S)[1])
    if [[str(number), words] for number, words in enumerate(told, 1)] != table("Versions of a label"):
        yield f"Versions of a label: cli/sentences.c has {told}"


def layouts():
    text = (ROOT / "cli/layout.c").read_text()
    arrays = [re.findall(r'\{"(.+?)", \d\}', array) for array in re.findall(r"struct column \w+\[\] = (.+?);", text, re.S)]
    parts = re.findall(r'\[\w+\] = \{"(.+?)", "(.+?)", \d+, "(.+?)"\}', text)
    for (_, part, lengths, row), entry, names in zip(table("Layouts"), parts, arrays, strict=True):
        if (part, lengths) != (entry[0], entry[2]):
            yield f"Layouts: cli/layout.c has {entry}"
        if names != ["word"] and names != re.split(r"[,;] ", re.sub(r"operands |flags |then five words each: ", "", row)):
            yield f"Layouts: cli/layout.c has {names}"


def forms():
    """The possible forms by the page's table, and how many each row says that it has."""
    found = []
    for kind, a, b, c, count in table("Form counts"):
        named = [".".join(names) for names in itertools.product([kind], *(modes.split(", ") for modes in (a, b, c)))]
        if len(named) != int(count):
            yield f"Form counts, {kind}: {len(named)} forms, not {count}"
        found += named
    if len(found) != len(set(found)) or set(found) != oracle_forms.possible():
        yield "Form counts: other forms than are possible"


def named_definitions():
    """Each definition and theorem that the pages name is in the file before it, or in specs/Given of the same crate."""
    text = PAGE + "".join((ROOT / page).read_text() for page in ("docs/DISPUTE.md", "docs/LISTING.md"))
    names = r" ((?:`[^`]+`(?:,\s)?)+)"
    found = re.findall(r"(crates/\S+\.antt)" + names, text)
    for crate, file, named in re.findall(r"`(\w+)`,\s((?:specs|proofs)/\w+)" + names, text):
        found.append((f"crates/{crate}/{file}.antt", named))
    for file, named in found:
        path = ROOT / file
        text = path.read_text() + ((SPECS / "Given.antt").read_text() if path.parent == SPECS else "")
        for name in re.findall(r"`([^`]+)`", named):
            defined = re.search(rf"^ *(?:abbrev |unfoldable )?pub (?:record |data )?{re.escape(name)} [:(]", text, re.M)
            if not defined and not name.startswith("rule "):
                yield f"{file} has no {name}"


def main():
    faults = [*against_specs("Execution rules", "Execution.antt", "exec_rules", EXEC, sentences("execution")),
              *against_specs("Extension rules", "Extension.antt", "ext_rules", EXT, sentences("extension")),
              *label_lines(), *layouts(), *forms(), *named_definitions()]
    faults += [] if faults else dict.fromkeys(formulas())
    print("\n".join(faults) or "docs/VERDICTS.md has every rule as it is")
    return 1 if faults else 0


if __name__ == "__main__":
    sys.exit(main())
