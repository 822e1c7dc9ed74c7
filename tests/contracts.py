"""Every public function has a contract that determines its answer and every lent byte at return.

Public means exported from its crate. An entry, one of ENTRIES, is what a program, a C call or a customer hands bytes to: it has no `requires`.
Every other public function is inner: it may have a `requires`, which each caller proves. Of both kinds the promise is an equation for the answer
(of a struct: for the whole, or for each field, where a record of specs/ that is equations of its parameters counts as these; of a Result: for
its answer and for its number) and one for what each lent buffer holds at return, its `new`. The facts of a promise are its `ensures` clauses,
and in one what `×` joins; what holds only where something else does counts for nothing, and a relation that one answer alone meets is no
equation. A promise that is none is named in docs/EXCEPTIONS.md, in backquotes
at a line's start, and argued for there; a name there that needs no excuse is a fault too. What no other crate needs is `pub(crate)`."""
import pathlib
import re
import sys

ROOT = pathlib.Path(__file__).resolve().parent.parent
ENTRIES = set("""
draw::Generator::new draw::Generator::draw draw::wrapping_product stream::jump stream::start
label::read_label label::write_label maker::make tabler::table judge::judge
grid::fresh grid::count grid_report::report edition::translate listing_writer::list listing_reader::read_listing
range::find_ranges split::judge_split
uisnabar::uisnabar_judge uisnabar::uisnabar_label uisnabar::uisnabar_count uisnabar::uisnabar_report
uisnabar::uisnabar_translate uisnabar::uisnabar_list uisnabar::uisnabar_read_listing uisnabar::uisnabar_jump
uisnabar::uisnabar_host uisnabar::uisnabar_ranges uisnabar::uisnabar_judge_split
uisnabar_c::uisnabar_judge uisnabar_c::uisnabar_label uisnabar_c::uisnabar_count uisnabar_c::uisnabar_report
uisnabar_c::uisnabar_translate uisnabar_c::uisnabar_list uisnabar_c::uisnabar_read_listing uisnabar_c::uisnabar_jump
uisnabar_c::uisnabar_host uisnabar_c::uisnabar_ranges uisnabar_c::uisnabar_judge_split replay::replay table::table_label
test_probe::probe_table test_probe::probe_make test_probe::probe_write
""".split())
FUNCTION = re.compile(r"^(\s*)pub (?:extern \"C\" )?fn (\w+)")
EXPORT = re.compile(r"^pub use ([^;]+);", re.M)
EXCEPTION = re.compile(r"^- `([\w:]+)`", re.M)
STRUCT = re.compile(r"^(?:pub )?struct (\w+)(?:<[^>]*>)? \{\n(.*?)^\}", re.M | re.S)
RECORD = re.compile(r"^pub record (\w+) (.*?) : Type 0 where\n((?:  .*\n)+)", re.M)
CLAUSE = re.compile(r"^\s*(requires|ensures)(?: \w+)? \{", re.M)
# a fact that holds only where another does
CONDITIONAL = re.compile(r"→|∨|⊎|\b(?:If|On)(?:Ok|Err|Some|None)\b")
OPEN, CLOSED = "([{", ")]}"


def functions(text):
    """(name, contract) of each public function; a method's name has its type before it. A contract is what stands before the body."""
    owner = ""
    lines = text.splitlines()
    for at, line in enumerate(lines):
        if re.match(r"impl\b", line):
            owner = re.match(r"impl(?:<[^>]*>)? (?:.* for )?(\w+)", line)[1] + "::"
        elif line == "}":
            owner = ""
        found = FUNCTION.match(line)
        if found:
            end = at
            while not re.match(found[1] + r"(\{$|\S.*\{$|.*\) \{$)", lines[end]) or re.match(r"\s*(requires|ensures) ", lines[end]):
                end += 1
            yield owner + found[2], "\n".join(lines[at:end] + [lines[end].rstrip("{")])


def parts(text, at_sign):
    """A text cut where the sign stands outside of all brackets."""
    found, depth = [""], 0
    for sign in text:
        depth += (sign in OPEN) - (sign in CLOSED)
        if sign == at_sign and depth == 0:
            found.append("")
        else:
            found[-1] += sign
    return [" ".join(part.split()) for part in found if part.split()]


def bare(fact):
    """A fact without the brackets around the whole of it."""
    while fact.startswith("(") and closes(fact):
        fact = fact[1:-1].strip()
    return fact


def closes(fact):
    """Whether the first bracket is closed by the last."""
    depth = 0
    for at, sign in enumerate(fact):
        depth += (sign in OPEN) - (sign in CLOSED)
        if depth == 0:
            return at == len(fact) - 1
    return False


def clauses(contract):
    """The kind and the body of each clause, up to the brace that closes it."""
    for found in CLAUSE.finditer(contract):
        depth, end = 1, found.end()
        while depth:
            depth += (contract[end] == "{") - (contract[end] == "}")
            end += 1
        yield found[1], contract[found.end():end - 1]


def exports(library):
    """The names that a crate hands on from its modules."""
    return {name.strip().split("::")[-1] for path in EXPORT.findall(library) for name in re.sub(r".*\{|\}", "", path, flags=re.S).split(",")}


def structs():
    """The fields of each struct, by its name: of two of one name, those of both."""
    fields = {}
    for source in ROOT.glob("crates/*/src/**/*.rt"):
        for name, body in STRUCT.findall(source.read_text()):
            fields.setdefault(name, set()).update(re.findall(r"^    (?:pub )?(\w+):", body, re.M))
    return fields


def records(fields):
    """The records of specs/ whose every field is an equation for a parameter, or for a field of one: which are equated whole, in order."""
    found = {}
    for spec in ROOT.glob("crates/*/specs/*.antt"):
        for name, parameters, body in RECORD.findall(spec.read_text()):
            typed = {one: kind.strip() for group, kind in re.findall(r"\(([^:()]+):([^()]*)\)", parameters) for one in group.split()}
            said = re.findall(r"^ +pub [\w-]+ : (.*)$", body, re.M)
            sides = [re.match(r"(?:length )?(\w+)(?:\.(\w+)[.\w]*)? ≡ ", fact) for fact in said]
            told = [side for side, fact in zip(sides, said) if side and not re.match(r"length |[\w.]+\.ghost_name ", fact)]
            if not said or not all(side and side[1] in typed for side in sides):
                continue
            whole = {side[1] for side in told if not side[2]}
            part = {one: {side[2] for side in told if side[1] == one} for one in typed}
            found[name] = [one in whole or bool(fields.get(kind)) and fields[kind] <= part[one] for one, kind in typed.items()]
    return found


def determines(facts, returned, fields, equations):
    """Whether the facts have an equation for an answer of this type."""
    given, sides = set(), set()
    for fact in facts:
        if re.match(r"(?!length |answer_of |number_of )(?:\w+ result|cond result 1 0|result) ≡ ", fact) or fact.endswith(" ≡ Some result"):
            return True
        sides |= set(re.findall(r"^(answer_of|number_of) result ≡ ", fact))
        if sides == {"answer_of", "number_of"}:
            return True
        given |= set(re.findall(r"^(?:drawn_number )?result\.«?(\w+)»? ≡ ", fact))
        name, *arguments = parts(fact, " ")
        for argument, is_equated in zip(arguments, equations.get(name, ())):
            given |= set(re.findall(r"^result\.«?(\w+)»?$", argument)) if is_equated else set()
    return bool(fields.get(returned)) and fields[returned] <= given


def lent_at_return(fact, buffer, equations):
    """Whether a fact is an equation for what a buffer holds at return."""
    name, *arguments = parts(fact, " ")
    equated = [argument for argument, is_equated in zip(arguments, equations.get(name, ())) if is_equated]
    return fact.startswith(f"{buffer}.new ≡ ") or f"{buffer}.new" in equated


def faults_of(contract, fields, equations):
    """What the promise leaves open."""
    signature = CLAUSE.split(contract, maxsplit=1)[0]
    promise = [body for kind, body in clauses(contract) if kind == "ensures"]
    returned = re.search(r"\) -> (\S.*?)\s*$", signature.strip())
    if not promise:
        yield "has no promise"
        return
    facts = [bare(fact) for body in promise if not CONDITIONAL.search(body) for fact in parts(body, "×")]
    if returned and not determines(facts, returned[1], fields, equations):
        yield "has no equation for its answer"
    for lent in re.findall(r"(\w+): &(?:'\w+ )?mut |&(?:'\w+ )?mut (self)", signature):
        if not any(lent_at_return(fact, "".join(lent), equations) for fact in facts):
            yield f"has no equation for {''.join(lent)} at return"


def main():
    excused = set(EXCEPTION.findall((ROOT / "docs/EXCEPTIONS.md").read_text()))
    fields, seen, faults, used = structs(), set(), [], set()
    equations = records(fields)
    for source in sorted(ROOT.glob("crates/*/src/**/*.rt")):
        crate = source.relative_to(ROOT / "crates").parts[0]
        library = ROOT / "crates" / crate / "src/lib.rt"
        exported = exports(library.read_text()) if library.exists() else set()
        for name, contract in functions(source.read_text()):
            whole = f"{crate}::{name}"
            seen.add(whole)
            if source.name != "lib.rt" and name.split("::")[0] not in exported and whole not in ENTRIES:
                faults.append(f"{whole} is public, and no other crate can reach it: pub(crate)")
                continue
            if whole in ENTRIES and any(kind == "requires" for kind, _ in clauses(contract)):
                faults.append(f"{whole} is an entry and has a requires")
            open_ends = list(faults_of(contract, fields, equations))
            if open_ends and whole in excused:
                used.add(whole)
            else:
                faults += [f"{whole} {fault}" for fault in open_ends]
    faults += [f"{name} is named as an entry, and there is no such function" for name in sorted(ENTRIES - seen)]
    faults += [f"docs/EXCEPTIONS.md excuses {name}, which needs no excuse" for name in sorted(excused - used)]
    for fault in faults:
        print(fault)
    print(f"{len(seen)} public functions read, {len(ENTRIES)} of them entries, {len(excused)} exceptions")
    return 1 if faults or not seen else 0


sys.exit(main())
