"""Edits of a definition that its theorems must refuse: the edited crate is still proved, and `run`, for listings
`listing_law`, for streams `stream_law`, for what is made `maker_run`, for range checks `range_law`, for two buffers
`split_law`, or a crate of theorems below it, is not.

  mutate.py            tries every edit
  mutate.py CRATE..    tries the edits of the crates named, as tabler_spec

In a scratch copy outside the checkout, since rt ci takes no sources below target/; prints a line for each edit, and
'N passed, M failed'."""
import pathlib
import re
import shutil
import subprocess
import sys
import tempfile

ROOT = pathlib.Path(__file__).resolve().parent.parent
SCRATCH = pathlib.Path(tempfile.mkdtemp(prefix="uisnabar-mutate-"))
RULES = "crates/rules/specs/"
TABLED = "crates/tabler_spec/specs/Tabled.antt"
LISTING = "crates/listing_spec/specs/Listing.antt"
STREAM = "crates/stream_spec/specs/"
MADE = "crates/maker_spec/specs/Made.antt"
RANGE = "crates/range_spec/specs/"
SPLIT = "crates/split_spec/specs/Split.antt"
ROOM = r"&& leb \(filled m state \(suc r\) \+ 1\) ext_height$"

# name, file, what stands there (a line's start, or a piece of it), what is put there
EDITS = [
    ("extension rule 9 dropped", RULES + "Extension.antt", r"rule 9 \(.*\)$", "rule 9 (zero? 0)"),
    ("extension rule 10 dropped", RULES + "Extension.antt", r"rule 10 \(.*\)$", "rule 10 (zero? 0)"),
    ("extension rule 15 dropped", RULES + "Extension.antt", r"rule 15 \(.*\)$", "rule 15 (zero? 0)"),
    ("extension rule 16 dropped", RULES + "Extension.antt", r"rule 16 \(.*\)$", "rule 16 (zero? 0)"),
    ("extension rule 17 dropped", RULES + "Extension.antt", r"rule 17 \(.*\)$", "rule 17 (zero? 0)"),
    ("execution rule 12 dropped", RULES + "Execution.antt", r"rule 12 \(.*\)$", "rule 12 (zero? 0)"),
    ("the bus reduced to equal totals", RULES + "Bus.antt", r"cond \(same_tuple \(.*\) σ\) \((.*)\) 0\) n$", r"\1) n"),
    ("the last row wrapped to row 0", RULES + "Given.antt", r"^next n r = .*$", "next n r = cond (ltb (r + 1) n) (r + 1) 0"),
    ("expected and found exchanged", RULES + "Lookups.antt", r"\(finding \(cell addr\) v\)", "(finding v (cell addr))"),
    ("another cell than the first that differs", RULES + "Lookups.antt", r"\(finding \(cell addr\) v\)", "(finding (cell (addr + 1)) v)"),
    ("found told where a cell is out of range", RULES + "Lookups.antt", r"leb \(addr \+ length column\) size", "leb (addr + 1) size"),
    ("found told of a rule that is no lookup", RULES + "Lookups.antt", r"lookup 4 x\.", "lookup 5 x."),
    ("a lookup left out", RULES + "Lookups.antt", r"\n    ∷ lookup 4 .*", ""),
    ("padding with comp 0", "crates/tables/specs/Groups.antt", r"(?s)(padding cell =.*?)comp = element_at cell 0", r"\1comp = 0 ∷ 0 ∷ 0 ∷ 0 ∷ 0 ∷ []"),
    ("C not read on an untaken jump", "crates/machine/specs/Step.antt", r"asked 4 \(legal m s f\.c\)", "asked 4 (legal_c m s f f.kind)"),
    ("a bad condition told as a false equation", "crates/machine/specs/Step.antt", r"asked 6 \(", "asked 5 ("),
    ("the extension's cells told as its result", "crates/machine/specs/Step.antt", r"asked 7 \(", "asked 8 ("),
    (
        "STUCK and ROOM in the other order",
        TABLED,
        r"\(refused_at r \(step m \(state r\)\)\)",
        "(cond (leb (filled m state (suc r) + 1) ext_height) (refused_at r (step m (state r))) (Room r))",
    ),
    ("STUCK at the row after", TABLED, r"= Stuck r rule$", "= Stuck (suc r) rule"),
    ("STUCK for a made-up reason", TABLED, r"= Stuck r rule$", "= Stuck r (suc rule)"),
    ("STUCK leaves the old bytes", TABLED, r"^held_after \(Err \(refusal\.Stuck row rule\)\) old written = .*$", "held_after (Err (refusal.Stuck row rule)) old written = old"),
    ("ROOM asks no spare row", TABLED, ROOM, "&& leb (filled m state (suc r)) ext_height"),
    ("ROOM tested before the row's group is counted", TABLED, ROOM, "&& leb (filled m state r + 1) ext_height"),
    ("ROOM leaves the old bytes", TABLED, r"^held_after \(Err \(refusal\.Room row\)\) old written = .*$", "held_after (Err (refusal.Room row)) old written = old"),
    ("OPEN after the last row", TABLED, r"\(Open \(height - 1\)\)", "(Open height)"),
    ("OPEN leaves the old bytes", TABLED, r"^held_after \(Err \(refusal\.Open row\)\) old written = .*$", "held_after (Err (refusal.Open row)) old written = old"),
    ("ACCEPTED where the last step keeps pc alone", TABLED, r"^same_state s t = .*$", "same_state s t = eqb s.pc t.pc"),
    ("ACCEPTED with a start fp at or above p", TABLED, r"cond \(ltb pc p && ltb fp p\)", "cond (ltb pc p)"),
    ("ACCEPTED leaves the old bytes", TABLED, r"^held_after \(Ok x\) old written = .*$", "held_after (Ok x) old written = old"),
    (
        "ACCEPTED leaves the tables of a run a row shorter",
        TABLED,
        r"exec \(exec_table m state \(length exec / 32\)\)",
        "exec (exec_table m state (length exec / 32 - 1))",
    ),
    ("fp: listed as cell:", LISTING, r"^mode_name Frame = .*$", "mode_name Frame = 99 ∷ 101 ∷ 108 ∷ 108 ∷ 58 ∷ []"),
    ("xadd listed as add", LISTING, r"^op_text \(Extension op\.Add be n\) = .*$", "op_text (Extension op.Add be n) = 97 ∷ 100 ∷ 100 ∷ []"),
    ("be left out of a line", LISTING, r"= be_key \+\+ decimal \(bit be\) \+\+ n_key", "= n_key"),
    ("n left out of a line", LISTING, r" \+\+ n_key \+\+ decimal n$", ""),
    ("operand B listed for C", LISTING, r"c_key \+\+ operand_text f\.c", "c_key ++ operand_text f.b"),
    ("no space between two fields", LISTING, r"^b_key = 32 ∷ ", "b_key = "),
    ("no LF behind a line", LISTING, r"\n    \+\+ \(10 ∷ \[\]\)$", ""),
    ("a program of words at or above p", "crates/listing_spec/specs/Program.antt", r"\(words 1 program (\(.*\))\) \(Size", r"\1 (Size"),
    ("a program of numbers that are no bytes", "crates/listing_spec/specs/Program.antt", r"get_or program k 0 < 256", "get_or program k 0 < 257"),
    ("a jump of one draw more", STREAM + "Stream.antt", r"^advances zero s = s$", "advances zero s = advance s"),
    ("another increment than a draw's", STREAM + "Pairs.antt", r"increment = 1442695040888963407", "increment = 1442695040888963409"),
    ("the first increment not multiplied", STREAM + "Pairs.antt", r"p\.multiplier \* p\.increment \+ p\.increment", "p.increment + p.increment"),
    ("a pair that is not doubled", STREAM + "Pairs.antt", r"^pair_of \(suc i\) = .*$", "pair_of (suc i) = pair_of i"),
    ("twice as many hosts", STREAM + "Host.antt", r"^hosts = .*$", "hosts = 2 ^ 25"),
    ("hosts 2^41 draws apart", STREAM + "Host.antt", r"^own_draws = .*$", "own_draws = 2 ^ 41"),
    ("a host that starts 2^24 draws on from the one before", STREAM + "Host.antt", r"after \(k \* own_draws\) g", "after (k * hosts) g"),
    ("a refused host that jumps", STREAM + "Host.antt", r"answer = Host; generator = g ", "answer = Host; generator = after k g "),
    ("a slot of 4 cells", MADE, r"^slot_size = 8$", "slot_size = 4"),
    ("an extension's C at T + 1", MADE, r"fc = 1; c = slot i;", "fc = 1; c = slot i + 1;"),
    ("an extension's B at 28", MADE, r"^right_picked a = 16 \+", "right_picked a = 28 +"),
    ("an extension of three elements", MADE, r"^count_picked c = 1 \+ c % 2$", "count_picked c = 1 + c % 3"),
    ("DEREF's C at T", MADE, r"c = \(slot i \+ 1\) -ₚ fp", "c = slot i -ₚ fp"),
    ("a jump over the next instruction", MADE, r"jump_to \(c % 2\) \(i \+ 1\)", "jump_to (c % 2) (i + 2)"),
    ("a halt that goes on", MADE, r"^halt n = .*$", "halt n = jump_to 1 (n + 1)"),
    ("a halt that isn't taken", MADE, r"^halt n = .*$", "halt n = jump_to 0 n"),
    ("an offset that isn't taken minus fp", MADE, r"(mul = 1; .*) b = slot i -ₚ fp", r"\1 b = slot i"),
    ("an untaken jump that changes the frame", MADE, r"^jump_taken c = .*$", "jump_taken c = eqb (c % 2) 0"),
    ("a jump whose new frame isn't stored", MADE, r"^jump_cells frames a = .*$", "jump_cells frames a = []"),
    ("a range check of another β", RANGE + "RangeCheck.antt", r"b = operand Immediate 0;", "b = operand Immediate x;"),
    ("a range check to immediate t", RANGE + "RangeCheck.antt", r"\(add_of x j \(bound - 1\)\)", "(add_of x j bound)"),
    ("β not tested", RANGE + "Finds.antt", r" && eqb i\.b 0$", ""),
    ("A and C exchanged in the ADD", RANGE + "Finds.antt", r"second\.a first (.*) second\.c last$", r"second.c first \1 second.a last"),
    ("an ADD to a cell", RANGE + "Finds.antt", r" && eqb i\.fb 1", ""),
    ("an ADD of an immediate C", RANGE + "Finds.antt", r" && eqb i\.fc 0", ""),
    ("the row of the last", RANGE + "Finds.antt", r"\(r ∷ bound_at g t r ∷ \[\]\)", "((r + 2) ∷ bound_at g t r ∷ [])"),
    ("t = B", RANGE + "Finds.antt", r"\(instruction_of g t \(r \+ 1\)\)\.b \+ 1$", "(instruction_of g t (r + 1)).b"),
    ("one find too few at the table's end", RANGE + "Finds.antt", r"^first_rows t = .*$", "first_rows t = t.height - 4"),
    ("LIST before the judge's refusals", RANGE + "Finder.antt", r"cond \(accepted .*\)\) \(judge_of q\)$", "cond (leb (8 * finds_number_in q) room) (judge_of q) (ListShort (finds_number_in q))"),
    ("SHORT for LIST", RANGE + "Finder.antt", r"\bListShort\b", "Short"),
    ("LIST's place in bytes", RANGE + "Finder.antt", r"\(ListShort \(finds_number_in q\)\)", "(ListShort (8 * finds_number_in q))"),
    ("a refusal that gives a number", RANGE + "Finder.antt", r"\(finds_number_in q\) 0$", "(finds_number_in q) (finds_number_in q)"),
    ("bytes after the last find moved up", RANGE + "Finder.antt", r"drop \(8 \* finds_number_in q\) finds", "drop (finds_number_in q) finds"),
    ("m' from 1 on", SPLIT, r"is_power \(bytes / 4\) 0 28$", "is_power (bytes / 4) 1 28"),
    ("m' at most 27", SPLIT, r"is_power \(bytes / 4\) 0 28$", "is_power (bytes / 4) 0 27"),
    ("public words of any number", SPLIT, r"is_power \(bytes / 4\) 0 28$", "leb 1 (bytes / 4)"),
    ("public words that are not whole", SPLIT, r"= eqb \(bytes % 4\) 0 && ", "= "),
    ("m' = m", SPLIT, r" && leb 1 rest ", " "),
    ("a rest of any length", SPLIT, r" && memory_fits \(public \+ rest\)$", ""),
    ("a rest that is a memory by itself", SPLIT, r"memory_fits \(public \+ rest\)$", "memory_fits rest"),
    ("the rest first", SPLIT, r"\(q\.public \+\+ q\.rest\)", "(q.rest ++ q.public)"),
    ("pc and fp exchanged where the two are joined", SPLIT, r"q\.pc q\.fp q\.exec", "q.fp q.pc q.exec"),
    ("a bad cut told as part 1", SPLIT, r"\(Size 2 0\)\)$", "(Size 1 0))"),
    ("a bad cut told before part 1", SPLIT, r"(?s)cond \(program_fits .*?\n    \(cond (.*) \(Size 2 0\)\)\n    \(Size 1 0\)$", r"cond \1 (Size 2 0)"),
]

# the crate of theorems that must refuse an edit, by the crate that is edited; of the others it is run
THEOREMS = {"listing_spec": "listing_law", "stream_spec": "stream_law", "maker_spec": "maker_run", "range_spec": "range_law", "split_spec": "split_law"}

# what an edit needs beside it
EXTRA = {
    "padding with comp 0": ("crates/tables/specs/Groups.antt", "use Rattle.std.specs.Prelude.{", "use Rattle.std.specs.Prelude.{[], ◌∷◌, "),
    "C not read on an untaken jump": (
        "crates/machine/specs/Step.antt",
        "-- all operands are read before",
        """-- C of a jump is read only where it is taken
abbrev pub legal_c : Machine → State → Form → Kind → Bool
legal_c m s f Add = legal m s f.c
legal_c m s f Mul = legal m s f.c
legal_c m s f Deref = legal m s f.c
legal_c m s f Jump = eqb (value m s f.a) 0 || legal m s f.c
legal_c m s f (Extension op be n) = legal m s f.c

-- all operands are read before""",
    ),
}


def needed(name, lines, seen):
    for other in lines[name]:
        if other in lines:
            needed(other, lines, seen)
    if name not in seen:
        seen.append(name)


def check(crate):
    done = subprocess.run(["rt", "check"], cwd=SCRATCH / "crates" / crate, stdout=subprocess.PIPE, stderr=subprocess.STDOUT, text=True)
    return done.returncode, done.stdout


def prepare(wanted):
    lines = {}
    for line in (ROOT / "crates.txt").read_text().splitlines():
        if line and not line.startswith("#"):
            name, rest = line.split(":")
            lines[name] = rest.split()
    crates = []
    for theorems in sorted(wanted):
        needed(theorems, lines, crates)
    (SCRATCH / "crates").mkdir(parents=True)
    for name in crates:
        shutil.copytree(ROOT / "crates" / name, SCRATCH / "crates" / name, ignore=shutil.ignore_patterns("must-fail", "mutants", "out"))
    crates.sort(key=list(lines).index)
    (SCRATCH / "crates.txt").write_text("".join(f"{n}: {' '.join(lines[n])}".rstrip() + "\n" for n in crates))
    for theorems in sorted(wanted):
        print(f"proving {theorems} as it stands", flush=True)
        code, out = check(theorems)
        if code != 0:
            sys.exit(out[-2000:] + f"\n{theorems} is not proved as it stands")


def first_error(out, crate):
    """The first thing that is not proved, and in which crate: this one, or the one below it that stopped the check."""
    below = re.search(r"^rt: the library (\w+) did not build", out, re.M)
    for line in out.splitlines():
        if ": error" in line or "it is not proved that" in line:
            return f"{below[1] if below else crate}: {line.removeprefix('./')}"[:160]
    return "no error line"


def theorems_of(path):
    return THEOREMS.get(pathlib.Path(path).parts[1], "run")


def mutate(name, path, old, new):
    file = SCRATCH / path
    text = file.read_text()
    edited, times = re.subn(old, new, text, flags=re.M)
    if name in EXTRA:
        edited = edited.replace(EXTRA[name][1], EXTRA[name][2], 1)
    if times not in (1, 2) or edited == text:
        return False, "the edit found nothing to change"
    file.write_text(edited)
    try:
        crate = pathlib.Path(path).parts[1]
        code, out = check(crate)
        if code != 0:
            return False, f"{crate} itself is refused: {first_error(out, crate)}"
        theorems = theorems_of(path)
        code, out = check(theorems)
        if code != 1:
            return False, f"{theorems} was not refused (exit {code})"
        return True, first_error(out, theorems)
    finally:
        file.write_text(text)


def main(crates):
    edits = [edit for edit in EDITS if not crates or pathlib.Path(edit[1]).parts[1] in crates]
    if not edits:
        sys.exit("no edit of " + " ".join(crates))
    prepare({theorems_of(edit[1]) for edit in edits})
    passed = failed = 0
    for edit in edits:
        ok, why = mutate(*edit)
        passed, failed = passed + ok, failed + (not ok)
        print(f"{passed + failed} of {len(edits)} edits of definitions: {'refused' if ok else 'FAILED'}: {edit[0]}: {why}", flush=True)
    print(f"{passed} passed, {failed} failed")
    return 0 if failed == 0 else 1


try:
    sys.exit(main(sys.argv[1:]))
finally:
    shutil.rmtree(SCRATCH)
