"""The edits of crates/NAME/mutants/, in the format of must-fail/, that the gate leaves to `./bench mutate`: the prover must refuse each.

  mutants.py            all of them
  mutants.py NAME..     those of these crates

In a scratch copy outside the checkout, since rt ci takes no sources below target/, where they stand as must-fail edits
of crates that are proved; prints a line for each, names those that are refused for no fact (tools/hollow), and ends in
'N passed, M failed'."""
import pathlib
import shutil
import subprocess
import sys
import tempfile

ROOT = pathlib.Path(__file__).resolve().parent.parent


def prepare(names, scratch):
    """A copy of the repository's crates with the mutants of these in the place of all must-fail edits. How many they are."""
    shutil.copytree(ROOT / "crates", scratch / "crates", ignore=shutil.ignore_patterns("must-fail", "mutants", "out"))
    shutil.copy(ROOT / "crates.txt", scratch)
    for name in names:
        shutil.copytree(ROOT / "crates" / name / "mutants", scratch / "crates" / name / "must-fail")
    return sum(1 for _ in scratch.glob("crates/*/must-fail/*.edit"))


def tried(names, scratch):
    """Tries the mutants of the copy: whether all of them are refused, and each for a fact."""
    count = prepare(names, scratch)
    print(f"{count} mutants of {len(names)} crates; what is not proved yet is proved first", flush=True)
    for name in names:
        proved = subprocess.run(["rt", "check"], cwd=scratch / "crates" / name, stdout=subprocess.PIPE, stderr=subprocess.STDOUT, text=True)
        if proved.returncode != 0:
            sys.exit(proved.stdout[-2000:] + f"\n{name} is not proved as it stands")
    number = passed = 0
    said = scratch / "said"
    with said.open("w") as log:
        with subprocess.Popen(["rt", "must-fail", *names], cwd=scratch, stdout=subprocess.PIPE, stderr=subprocess.STDOUT, text=True) as run:
            for line in run.stdout:
                log.write(line)
                if line.startswith("rt: must-fail "):
                    number += 1
                    passed += ": refused" in line
                    print(f"{number} of {count} mutants: {line.removeprefix('rt: ').strip()[:200]}", flush=True)
    hollow = subprocess.run([ROOT / "tools/hollow", said], check=False).returncode
    print(f"{passed} passed, {count - passed} failed")
    return not hollow and passed == count


def main(argv):
    has = sorted(path.parent.name for path in ROOT.glob("crates/*/mutants"))
    unknown = [name for name in argv[1:] if not (ROOT / "crates" / name).is_dir()]
    if unknown:
        sys.exit(f"no such crate: {' '.join(unknown)}")
    names = [name for name in has if name in argv[1:] or not argv[1:]]
    if not names:
        sys.exit(f"no mutants of {' '.join(argv[1:])}")
    with tempfile.TemporaryDirectory(prefix="uisnabar-mutants-") as scratch:
        return 0 if tried(names, pathlib.Path(scratch)) else 1


sys.exit(main(sys.argv))
