#!/usr/bin/env python3
"""Spells this repository's own definitions and lemmas in snake case, as today's Rattle has them: `nameRow` is `name_row`.

usage: snake_names.py      at the top of the repository, once, right after port.py

Types, records and facts keep their capitals, and a dash between two names stays. What turns is a name that begins small and has a capital
within: in .antt files and must-fail edits everywhere, in .rt files outside strings, in pages between backticks. Names of Rust, of C, of strings
and of inputs have no such form here. A lemma that would then have its function's name gets `_lem`.
"""
import pathlib
import re

root = pathlib.Path(__file__).resolve().parent.parent
WORD = re.compile(r"[^\s(){}.;,@\"«»\[\]|/:\\*…⟨⟩⟦⟧`]+")
CAMEL = re.compile(r"[a-z0-9][A-Z]")
# Lemmas whose names fall together with a function's in its new spelling.
LEMMAS = (
    "no_room rows_in is_key head_bytes rows_behind by_name row_read block_in lists_at taken_as rows_made marked_by no_name by_first row_count"
).split()
# A variable that would hide the function `in_span`.
VARIABLES = {"in_span": "spanned"}


def snake(word):
    def part(p):
        if not (p[:1].islower() and CAMEL.search(p)):
            return p
        return re.sub(r"([a-z0-9])([A-Z]+)", lambda m: m[1] + "_" + m[2], p).lower()

    return "-".join(map(part, word.split("-")))


def has_small_head(word):
    return any(p[:1].islower() and CAMEL.search(p) for p in word.split("-"))


def turn(text, table):
    return WORD.sub(lambda m: table.get(m[0], m[0]), text)


def outside_strings(text, table):
    pieces = re.split(r'(b?"(?:\\.|[^"\\\n])*")', text)
    return "".join(p if i % 2 else turn(p, table) for i, p in enumerate(pieces))


def within_backticks(text, table):
    return re.sub(r"`[^`\n]+`", lambda m: turn(m[0], table), text)


def declares(text, name):
    return re.search(rf"(?m)^\s*(?:pub |abbrev |unfoldable )*{name} (?:\{{[^}}\n]*\}} )?:", text)


def imports(text, name):
    return re.search(rf"(?m)^use [^\n]*[{{ ,]{name}[,}}]", text)


def lemmas_apart(path, text):
    for name in LEMMAS:
        if "Proof.antt" not in path.name and declares(text, name) or imports(text, name):
            text = re.sub(rf"(?<![\w.'-]){name}(?![\w'-])(?!\.\w)", name + "_lem", text)
    for name, other in VARIABLES.items():
        text = re.sub(rf"(?<![\w.'-]){name}(?![\w'-])", other, text)
    return text


def main():
    sources = sorted(p for p in (root / "crates").rglob("*") if p.suffix in (".antt", ".rt", ".edit") and "out" not in p.parts)
    texts = {p: p.read_text() for p in sources}
    words = set()
    for path, text in texts.items():
        if path.suffix != ".rt":
            words |= set(WORD.findall(text))
    table = {w: snake(w) for w in words if has_small_head(w)}
    taken = {}
    for word, new in table.items():
        assert taken.setdefault(new, word) == word, (new, word, taken[new])
    for path, text in texts.items():
        if path.suffix == ".antt":
            text = turn(lemmas_apart(path, text), table)
        elif path.suffix == ".edit":
            text = turn(text, table)
        else:
            text = outside_strings(text, table)
        path.write_text(text)
    pages = [root / "README.md", *sorted((root / "docs").rglob("*.md")), root / "bench" / "README.md", root / "tests" / "differential" / "README.md"]
    for path in pages:
        path.write_text(within_backticks(path.read_text(), table))
    print(len(table), "names")


main()
