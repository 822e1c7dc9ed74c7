#!/usr/bin/env python3
"""Brings definitions and lemmas to the spelling of today's Rattle: words in snake case, types in camel case.

usage: python3 tools/respell.py      once, at the top, right after the kit's port.py

A name from src/ keeps its spelling, and so does a type. A lemma that comes to a definition's name gets _lem.
"""
import os
import re
import sys

DECLARED = re.compile(r"^( {0,8})(?:(?:abbrev|unfoldable|pub)\s+)*([^\s(){}.,;:=]+)\s*:\s")
FIELD = re.compile(r"^\s*(?:pub(?:\([a-z]+\))?\s+)?([a-z]\w*): [^=]*,$", re.M)
WORD = r"\w\-'?"


def files(top, endings):
    for folder, dirs, names in os.walk(top):
        dirs[:] = sorted(d for d in dirs if d not in ("out", ".git"))
        for name in sorted(names):
            if name.endswith(endings):
                yield os.path.join(folder, name)


def read(path):
    with open(path, encoding="utf-8") as file:
        return file.read()


def declared():
    """The names that specs/ and proofs/ declare, without the goals of the functions' proofs."""
    found = {}
    for path in files("crates", ".antt"):
        goals = os.path.basename(path) == "Proof.antt"
        for line in read(path).split("\n"):
            match = DECLARED.match(line)
            if not match:
                continue
            rest = line[match.end():]
            if goals and (rest.startswith("tie.") or "statement M" in rest):
                continue
            found.setdefault(match[2], set()).add(path)
    return found


def record_fields(text):
    inside = None
    for line in text.split("\n"):
        start = re.match(r"(\s*)(?:pub )?record [^=]*where$", line)
        if start:
            inside = len(start[1])
        elif inside is not None and line.strip() and len(line) - len(line.lstrip()) <= inside:
            inside = None
        field = inside is not None and re.match(r"\s*(?:pub )?([^\s(){}]+) :", line)
        if field:
            yield field[1]


def snake(name, kept):
    parts = []
    for part in name.split("-"):
        if part not in kept and re.match("[a-z]", part):
            part = re.sub(r"(?<=[a-z0-9'])([A-Z])", lambda m: "_" + m[1].lower(), part)
        parts.append(part)
    return "_".join(parts)


def respelling():
    kept = set()
    for path in files("crates", ".rt"):
        kept |= {name for name in FIELD.findall(read(path)) if re.search("[A-Z]", name)}
    kept |= {"addrA", "addrB", "addrC", "valueA", "valueB", "valueC", "idxA", "idxB", "idxR", "vA", "vB"}
    names = declared()
    turned = {}
    for name in names:
        if name not in kept and re.fullmatch(rf"[{WORD}]+", name):
            new = snake(name, kept)
            if new != name:
                turned[name] = new
    taken = {new for name, new in turned.items() if "-" not in name} | {n for n in names if n not in turned}
    lemmas = {name for name, new in turned.items() if "-" in name and new in taken}
    return turned, lemmas


def main():
    turned, lemmas = respelling()
    each = "|".join(re.escape(n) for n in sorted(turned, key=len, reverse=True))
    name = re.compile(rf"(?<![{WORD}◌ₚₑ])({each})(?![{WORD}◌ₚₑ])")

    fields = {}
    for path in files("crates", ".antt"):
        for field in record_fields(read(path)):
            fields.setdefault(field, set()).add(path)

    def one(match):
        word, text = match[0], match.string
        if word == "exec-lookups" and "/mission/" in path and re.match(" [:=]", text[match.end():match.end() + 2]):
            # later fields of the same record speak of the function exec_lookups
            return "execution_lookups"
        field = path in fields.get(word, ()) and text[match.end():match.end() + 2] == " :"
        literal = word in fields and re.search(r"(?:[{;]|\n)\s*$", text[:match.start()]) and text[match.end():match.end() + 3] == " = "
        after = text[match.start() - 1:match.start()] == "."
        return turned[word] + ("_lem" if word in lemmas and not (field or literal or after) else "")

    def prose(match):
        # in a comment words that are joined by a dash are English
        return match[0] if "-" in match[0] else one(match)

    for path in files("crates", (".rt", ".antt", ".edit")):
        text = read(path)
        new = "".join(
            name.sub(prose if re.match(r"\s*(--|//|# )", line) else one, line)
            for line in text.splitlines(keepends=True)
        )
        if new != text:
            with open(path, "w", encoding="utf-8") as file:
                file.write(new)
    # port.py turned some names itself, and no page
    names = declared()
    dashed = re.compile(rf"(?<![{WORD}])[a-z][\w']*(?:-[\w']+)+(?![{WORD}])")

    def listed(match):
        new = match[0].replace("-", "_")
        return new if new in names and match[0] not in names else match[0]

    pages = ["README.md"] + list(files("docs", ".md"))
    for path in pages:
        text = read(path)
        new = re.sub(r"`[^`\n]+`", lambda m: dashed.sub(listed, name.sub(one, m[0])), text)
        if new != text:
            with open(path, "w", encoding="utf-8") as file:
                file.write(new)
    print(f"respell: {len(turned)} names, {len(lemmas)} of them lemmas that had come to another name")


if __name__ == "__main__":
    sys.exit(main())
