#!/usr/bin/env python3
"""Respells the repository's own definitions and lemmas as today's Rattle has them: words in snake case, types and modules in upper camel case.

usage: tools/respell.py            at the top of the repository, once, after the kit's port.py
       tools/respell.py --show     lists old and new, and changes nothing

A name is respelled that a crate's specs/ or a lemma file of its proofs/ declares (not a function's own proof, where the prover makes the names),
where it has a capital inside a word or a dash between words. Functions of src/, exported names, strings and what the prover makes keep theirs.
Where two names would be one, the definition takes the plain name and the lemma ends in _lem.
"""
import glob
import re
import sys

# A lemma on a definition whose name it would have, in this crate or in one that reads it; in_float is a word of std.
ASIDE = """net-at block-length holding-length collateral-right quantity-right rubles-right holding-right-at collateral-at quantity-at rolled-to
rolled-rubles rolled-holding move-amount-right no-figures move-stands date-marks in-force sound-row in-float""".split()
# std has a lemma of this name, and files cite both.
KEPT = ["and-true"]

LETTER = r"A-Za-z0-9_'ℤℕ₀-₉!?"
DECLARED = re.compile(r"^\s*(?:abbrev pub |abbrev |unfoldable pub |unfoldable |pub )*(?:record |data )?(?:pub )?([^\s:(){}=λ,;]+)\s*(?:[({].*)?\s:(?:\s|$)")
NAME = re.compile(r"[a-z][A-Za-z0-9ℤℕ]*(?:-[A-Za-z0-9]+)*[₀-₉!?]?")
OPERATOR = re.compile(r"◌([a-z]+[A-Z]\w*)◌")


def files(pattern):
    return sorted(p for p in glob.glob(pattern, recursive=True) if "/out/" not in p)


def of_a_function(path):
    return path.endswith(("/Proof.antt", "/Answers.antt", "/Invariants.antt"))


def snake(name):
    name = re.sub(r"(?<=[a-z0-9])([A-Z])", lambda m: "_" + m.group(1).lower(), name)
    name = re.sub(r"(?<=[a-z])ℤ$", "_ℤ", name)
    return name.replace("-", "_")


def respelled():
    names = {}
    for path in files("crates/*/specs/**/*.antt") + files("crates/*/proofs/**/*.antt"):
        if of_a_function(path):
            continue
        for line in open(path, encoding="utf-8"):
            declared = DECLARED.match(line)
            if not declared:
                continue
            name = declared.group(1)
            operator = OPERATOR.fullmatch(name)
            if operator:
                name = operator.group(1)
            elif not NAME.fullmatch(name) or name in KEPT:
                continue
            new = snake(name) + ("_lem" if name in ASIDE else "")
            if new != name:
                names[name] = new
    return names


def replacer(names):
    """Names in a stretch of text; the longest first, and whole."""
    if not names:
        return lambda text: text
    every = "|".join(re.escape(n) for n in sorted(names, key=len, reverse=True))
    find = re.compile(rf"(?<![{LETTER}\-])({every})(?![{LETTER}]|-[{LETTER}])")
    return lambda text: find.sub(lambda m: names[m.group(1)], text)


def main(argv):
    names = respelled()
    if argv == ["--show"]:
        for old in sorted(names):
            print(old, names[old])
        return 0
    code = replacer(names)
    words = replacer({old: new for old, new in names.items() if "-" not in old})  # in a sentence a dash may be English

    def lines(text, comment):
        for line in text.split("\n"):
            at = line.find(comment)
            yield code(line) if at < 0 else code(line[:at]) + words(line[at:])

    for path in files("crates/*/specs/**/*.antt") + files("crates/*/proofs/**/*.antt") + files("crates/*/src/**/*.rt"):
        text = open(path, encoding="utf-8").read()
        new = "\n".join(lines(text, "//" if path.endswith(".rt") else "-- "))
        if new != text:
            open(path, "w", encoding="utf-8").write(new)
    for path in files("crates/*/must-fail/*.edit"):
        text = open(path, encoding="utf-8").read()
        new = "\n".join(code(line) if line.startswith(("old: ", "new: ")) else words(line) for line in text.split("\n"))
        if new != text:
            open(path, "w", encoding="utf-8").write(new)
    for path in files("*.md") + files("docs/**/*.md"):
        text = open(path, encoding="utf-8").read()
        new = re.sub(r"`[^`\n]+`", lambda m: code(m.group(0)), text)
        if new != text:
            open(path, "w", encoding="utf-8").write(new)
    return 0


if __name__ == "__main__":
    raise SystemExit(main(sys.argv[1:]))
