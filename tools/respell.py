#!/usr/bin/env python3
"""Spells this repository's own definitions and lemmas as the library's are: words in snake case, functions into Type in camel case.

usage: tools/respell.py        at the top of the repository, once, after Rattle's own port.py

It turns each row of respelled.tsv, old and new name (port.py's own renamings among them, for what it doesn't read), where the old name stands as a whole word:
  .antt           the code and the comments; a lemma of a row with a dash, in a Unique.antt, gets plain underscores
  .rt             the clauses, `ghost use` items and comments: names in camel case everywhere (Rust has none), a dash in clauses alone
  .edit           as .rt or .antt, by the file that it edits; and what port.py does to clauses there: `c .field` and brackets
  .md             names in camel case everywhere, names with a dash between backquotes
Names of functions of src/, exported names, strings, inputs and outputs have no row, or are not read."""
import pathlib
import re
import subprocess

ROOT = pathlib.Path(__file__).resolve().parents[1]
ROWS = dict(line.split("\t") for line in (ROOT / "tools/respelled.tsv").read_text().splitlines())
WORD = re.compile(r'[^\s(){}.;,@"«»`|]+')
CAMEL = {k: v for k, v in ROWS.items() if re.fullmatch(r"[a-z]\w*[A-Z]\w*", k)}
# Spelled so by port.py already, and again here, in proofs alone.
TWICE = {k for k in ROWS if "-" not in k and k not in CAMEL}


def words(text, rows):
    return WORD.sub(lambda m: rows.get(m.group(0), m.group(0)), text)


def antt(text, path):
    if path.endswith("/Unique.antt"):
        dashes = lambda m: m.group(0).replace("-", "_") if re.fullmatch(r"[a-z][\w-]*", m.group(0)) else m.group(0)
        return WORD.sub(dashes, words(text, CAMEL))
    kept = []
    for line in text.split("\n"):
        if line.lstrip().startswith("use "):
            # A module's path keeps the names of functions of src/.
            head, brace, items = line.partition("{")
            kept.append((words(head, CAMEL) if " as " in head else head) + brace + words(items, ROWS))
        else:
            kept.append(words(line, ROWS))
    return "\n".join(kept)


CLAUSE = re.compile(r"\b(?:requires|ensures|ghost)\b[^\n]*")


def rt(text, path):
    rows = {k: v for k, v in ROWS.items() if k not in TWICE}
    text = re.sub(r"(?<![\w-])\w+(?![\w-])", lambda m: CAMEL.get(m.group(0), m.group(0)), text)
    return CLAUSE.sub(lambda m: words(m.group(0), rows), text)


def edit(text, path):
    turn = antt if re.search(r"^file: .*\.antt$", text, re.M) else rt
    text = turn(text, path)
    text = re.sub(r"λ r\. ⌜ (.*?) ⌝", lambda m: re.sub(r"\br\b", "result", m.group(1)), text)
    # An application's field takes brackets; a path takes none.
    text = re.sub(r"(?<!\w)((?:step|side_of|wrote|proceeded|sent|cleared) (?:\w+|\([^()]*\))(?: \w+)?) \.(?=[a-z])", r"(\1).", text)
    text = re.sub(r"(?<=[\w)]) \.(?=[a-z])", ".", text)
    text = re.sub(r"\((\w+(?:\.\w+)+)\)", r"\1", text)
    text = re.sub(r"Rattle·(\w+)(?:·(?:specs|proofs))?\.(specs|proofs)\.", r"Rattle.\1.\2.", text)
    return text.replace("lib.ListN.replicate", "Rattle.std.specs.Prelude.replicate")


def md(text, path):
    text = re.sub(r"(?<![\w-])\w+(?![\w-])", lambda m: CAMEL.get(m.group(0), m.group(0)), text)
    rows = {k: v for k, v in ROWS.items() if k not in TWICE}
    return re.sub(r"`[^`\n]+`", lambda m: words(m.group(0), rows), text)


def main():
    listed = subprocess.run(["git", "ls-files"], cwd=ROOT, capture_output=True, text=True, check=True).stdout
    turns = {".antt": antt, ".rt": rt, ".edit": edit, ".md": md}
    for name in listed.splitlines():
        path = ROOT / name
        turn = turns.get(path.suffix)
        if turn and "tools/" not in name:
            text = path.read_text()
            new = turn(text, name)
            if new != text:
                path.write_text(new)


if __name__ == "__main__":
    main()
