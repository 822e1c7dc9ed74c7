"""What `./bench forms DIR` must write, by tests/oracle_forms.py: `forms.py DIR` prints the report, and on standard
error what is said of the labels and of the forms."""
import pathlib
import sys

sys.dont_write_bytecode = True
import oracle
import oracle_forms
import shelf


def refused(text):
    """Why a label is refused, as its answer names it: the numbers that aren't 0."""
    lines = [line.split("=") for line in shelf.answer_and_tables(text)[0].decode("latin-1").split("\n")[-7:-1]]
    (_, verdict), *numbers = lines
    return " ".join([oracle.NAMES[int(verdict)]] + [f"{name} {number}" for name, number in numbers if number != "0"])


def counted(labels):
    """The grid over all labels by name, and those refused with the reason."""
    grid, reasons = oracle_forms.FRESH, {}
    for name, text in labels.items():
        whole = shelf.answer_and_tables(text)[1]
        program, parts = whole[:-43008], (whole[-43008:-38912], whole[-38912:-30720], whole[-30720:])
        if whole:
            answer, grid = oracle_forms.count(program, parts[0], 0, 0, *parts[1:], grid)
            assert answer[0] == 0
        else:
            reasons[name] = refused(text)
    return grid, reasons


def main(folder):
    labels = {path.stem: path.read_bytes() for path in sorted(pathlib.Path(folder).glob("*.label"))}
    grid, reasons = counted(labels)
    sys.stdout.write(oracle_forms.report(grid)[1].decode())
    possible = [name for name in oracle_forms.FORMS if name in oracle_forms.possible()]
    missing = [name for name in possible if not grid[oracle_forms.FORMS.index(name)]]
    said = [f"bench: {name}: refused, and adds nothing: {reason}" for name, reason in reasons.items()]
    said += [f"bench: {len(labels)} labels: {len(labels) - len(reasons)} counted, {len(reasons)} refused, 0 could not be tried",
             f"{len(possible) - len(missing)} of the {len(possible)} possible forms were reached, in {sum(grid)} rows"]
    print("\n".join(said + [f"not reached: {name}" for name in missing]), file=sys.stderr)


if __name__ == "__main__":
    main(sys.argv[1])
