"""The wrong answers of docs/contracts/wrong, and the public functions of the crates, for `tries` and `missing`."""
import pathlib
import re

ROOT = pathlib.Path(__file__).resolve().parents[2]
FIELDS = ["free", "is", "in", "old", "last", "new", "error"]


def blocks():
    """(crate, function, what its contract leaves open, [wrong answer..]) for each block, a wrong answer by its fields."""
    found = []
    for number, line in enumerate((ROOT / "docs/contracts/wrong").read_text().splitlines(), 1):
        if line.startswith("#") or not line:
            continue
        word, text = line.split(None, 1)
        if line[0] != " ":
            found.append((word, text, {}, []))
        elif word not in FIELDS:
            raise SystemExit(f"docs/contracts/wrong, line {number}: {word}?")
        elif word == "free":
            found[-1][2][word] = text
        elif word == "is":
            found[-1][3].append({word: text})
        else:
            found[-1][3][-1][word] = text
    return [(crate, name, own.get("free"), answers) for crate, name, own, answers in found]


def functions(text):
    """The public functions of a source, a method as Type::name."""
    owner = ""
    for line in text.split("\n"):
        if found := re.match(r"impl(?:<[^>]*>)? (\w+)", line):
            owner = found.group(1) + "::"
        elif line.startswith("}"):
            owner = ""
        if found := re.match(r'\s*pub (?:extern "C" )?fn (\w+)', line):
            yield owner + found.group(1)


def public_functions():
    """(crate, function) for each."""
    return {(s.parent.parent.name, name) for s in ROOT.glob("crates/*/src/*.rt") for name in functions(s.read_text())}
