"""The pages and headers say what is true now, as far as a script can see.

The picture of docs/ARCHITECTURE.md is crates.txt's; prose and comments have at most 120 characters a line (tables are exempt); every crate named
in docs/ in backquotes as `crate::function` has that function; docs/CLAIMS.md lists every edit, and where it cites one as `crate/label` says who
tries it; each file of specs/ says in its first line what it is: `Inner:` where it serves inner functions, and then it cites no section, or else
the section or the demand that it states; and it says where each struct and enum that it uses is declared. `pages.py write` puts that line into
the headers, and the edits into the page."""
import pathlib
import re
import subprocess
import sys

ROOT = pathlib.Path(__file__).resolve().parent.parent
WIDTH = 120
CITES = re.compile(r"document 0[12]|draft 0\.[56]\.0|demand|mission", re.I)
DECLARED = re.compile(r"^use Rattle\.(\w+)\.specs\.declared\.(\w+)[.{]", re.M)
LINE = "-- Declared in src/: "
EDITS, END = "<!-- written by tests/pages.py -->\n", "<!-- end -->\n"


def prose():
    for page in [ROOT / "README.md", *sorted((ROOT / "docs").glob("**/*.md"))]:
        inside = False
        for number, line in enumerate(page.read_text().splitlines(), 1):
            inside ^= line.startswith("```")
            if len(line) > WIDTH and not line.startswith("|") and not inside:
                yield f"{page.relative_to(ROOT)}:{number}: {len(line)} characters"


def comments():
    for source in sorted(source for part in ("src", "specs", "proofs") for source in ROOT.glob(f"crates/*/{part}/**/*")):
        if source.suffix in (".rt", ".antt") and source.is_file():
            for number, line in enumerate(source.read_text().splitlines(), 1):
                if len(line) > WIDTH and line.lstrip().startswith(("--", "//")):
                    yield f"{source.relative_to(ROOT)}:{number}: a comment of {len(line)} characters"


def header(text):
    """The comment lines that a file begins with."""
    lines = text.splitlines()
    end = next((at for at, line in enumerate(lines) if not line.startswith("--")), len(lines))
    return lines[:end]


def declared(text, crate):
    """The header's line that says where the structs and enums are declared, wrapped."""
    homes = {}
    for home, name in DECLARED.findall(text):
        homes.setdefault(home, [])
        if name not in homes[home]:
            homes[home].append(name)
    if not homes:
        return []
    said = "; ".join(", ".join(names) + (" (here)" if home == crate else f" ({home})") for home, names in homes.items())
    lines, line = [], LINE
    for word in (said + ".").split():
        if len(line) + len(word) > WIDTH:
            lines.append(line.rstrip())
            line = "--   "
        line += word + " "
    return lines + [line.rstrip()]


def definitions(write):
    for spec in sorted(ROOT.glob("crates/*/specs/*.antt")):
        if spec.name == "Lib.antt":
            continue
        text, crate, name = spec.read_text(), spec.parts[-3], spec.relative_to(ROOT)
        said = header(text)
        if not said:
            yield f"{name}: no header"
            continue
        own = [line for at, line in enumerate(said) if not line.startswith(LINE)]
        if any(line.startswith(LINE) for line in said):
            own = said[:next(at for at, line in enumerate(said) if line.startswith(LINE))]
        wanted = own + declared(text, crate)
        if said != wanted:
            if write:
                spec.write_text("\n".join(wanted + text.splitlines()[len(said):]) + "\n")
            else:
                yield f"{name}: the header doesn't say where structs and enums are declared: tests/pages.py write"
        whole = " ".join(own)
        inner = said[0].startswith("-- Inner: ")
        if inner and CITES.search(whole):
            yield f"{name}: serves inner functions, and cites a section"
        if not inner and not CITES.search(whole):
            yield f"{name}: neither says that it is inner nor what section it states"


def named():
    functions = set()
    for source in ROOT.glob("crates/*/src/**/*.rt"):
        crate = source.relative_to(ROOT / "crates").parts[0]
        functions |= {f"{crate}::{name}" for name in re.findall(r"^\s*pub (?:extern \"C\" )?fn (\w+)", source.read_text(), re.M)}
    crates = {path.name for path in (ROOT / "crates").iterdir()}
    for page in sorted((ROOT / "docs").glob("**/*.md")):
        for crate, name in re.findall(r"`(\w+)::(?:\w+::)?(\w+)`", page.read_text()):
            if crate in crates and f"{crate}::{name}" not in functions:
                yield f"{page.relative_to(ROOT)} names {crate}::{name}, and there is no such function"


def edits(write):
    """The table of docs/CLAIMS.md with each crate's edits: those that the gate tries, and those of `./bench mutate`."""
    page = ROOT / "docs/CLAIMS.md"
    text = page.read_text()
    start = text.index(EDITS) + len(EDITS)
    end = text.index(END, start)
    rows = ["| Crate | In the gate | By `./bench mutate` |", "|---|---|---|"]
    for crate in re.findall(r"^(\w+)(?: staticlib)?:", (ROOT / "crates.txt").read_text(), re.M):
        kinds = [sorted(edit.stem for edit in (ROOT / "crates" / crate / kind).glob("*.edit")) for kind in ("must-fail", "mutants")]
        if any(kinds):
            rows.append(f"| `{crate}` | " + " | ".join(", ".join(f"`{name}`" for name in names) for names in kinds) + " |")
    table = "\n".join(rows) + "\n"
    if text[start:end] != table:
        if write:
            page.write_text(text[:start] + table + text[end:])
        else:
            yield "docs/CLAIMS.md lists other edits than there are: tests/pages.py write"


def fitting():
    """Every edit still fits the code that it is to spoil: each text stands there once, as rt wants it."""
    for edit in sorted(ROOT.glob("crates/*/m*/*.edit")):
        texts, name, old = {}, "", ""
        for key, value in re.findall(r"^(file|old|new): ?(.*)$", edit.read_text(), re.M):
            if key == "file":
                name = edit.parts[-3] + "/" + value
                file = ROOT / "crates" / name
                if not file.is_file():
                    yield f"{edit.relative_to(ROOT)}: there is no {name}"
                texts.setdefault(name, file.read_text() if file.is_file() else "")
            elif key == "old":
                old = value
                if texts[name].count(old) != 1:
                    yield f"{edit.relative_to(ROOT)}: {old} is in {name} {texts[name].count(old)} times"
            else:
                texts[name] = texts[name].replace(old, value)


def cited():
    """An edit that docs/CLAIMS.md cites stands behind the word that says who tries it, and in that one's folder."""
    text = (ROOT / "docs/CLAIMS.md").read_text()
    crates = {path.name for path in (ROOT / "crates").iterdir()}
    told = set()
    for word, names in re.findall(r"\b(gate|mutate): ((?:`\w+/\w+`(?:, )?)+)", text):
        told |= {(name, "must-fail" if word == "gate" else "mutants") for name in re.findall(r"`(\w+/\w+)`", names)}
    for name in sorted({name for name in re.findall(r"`(\w+/\w+)`", text) if name.split("/")[0] in crates}):
        crate, label = name.split("/")
        folders = [folder for other, folder in told if other == name]
        if not folders:
            yield f"docs/CLAIMS.md cites {name} and doesn't say whether gate: or mutate: tries it"
        for folder in folders:
            if not (ROOT / "crates" / crate / folder / f"{label}.edit").exists():
                yield f"docs/CLAIMS.md: {name} is not in {folder}/"


def main(argv):
    write = argv[1:] == ["write"]
    faults = [*prose(), *comments(), *definitions(write), *named(), *edits(write), *fitting(), *cited()]
    for fault in faults:
        print(fault)
    drawn = subprocess.run([ROOT / "tools/wings", "write" if write else "check"], check=False).returncode
    return 1 if faults or drawn else 0


sys.exit(main(sys.argv))
