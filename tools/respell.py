#!/usr/bin/env python3
"""Brings the names of this repository's own definitions and lemmas to Rattle's spelling.

usage: python3 tools/respell.py [--list] [FOLDER]     FOLDER is the top of the repository, by default the folder that it is run in

Run once, after the scripts that come with Rattle. A definition, a constructor, a field or a lemma of specs/ or proofs/ that begins
with a small letter is written in snake case: `wordKind` becomes `word_kind` and `not-both` becomes `not_both`. A dash stays where it
joins the name of a function, of this repository or of the library, to what a lemma says of it, as in `run-takes`.
Names of Rust functions, files, strings, inputs and outputs stay, and so do the names that Rattle makes.
It stops, and writes nothing, where two names would fall together; --list prints the pairs, old and new.
"""

import os
import re
import sys

WORDS_BEFORE = {"abbrev", "pub", "unfoldable", "record", "data", "mutual", "ruleset"}
# functions of the library whose name a lemma of ours begins with
LIBRARY = {"length", "take", "drop", "map", "cond", "get_or", "count_by", "sum_by", "replicate", "set", "min"}
# where the plain rule would run into another name
APART = {
    "action-words": "action_words_lem",
    "new-class": "new_class_lem",
    "on-chosen": "on_chosen_lem",
    "on-operand": "on_operand_lem",
    "pattern-words": "pattern_words_lem",
    "production-words": "production_words_lem",
    "test_words": "test_words_lem",
    "with-attribute": "with_attribute_lem",
}
TOKEN = re.compile(r"[^\s(){}\[\],.;:\"`]+")


def files(top, *ends):
    for folder, dirs, names in os.walk(os.path.join(top, "crates")):
        dirs[:] = sorted(d for d in dirs if d not in ("out", ".git"))
        for n in sorted(names):
            if n.endswith(ends):
                yield os.path.join(folder, n)


def read(path):
    with open(path, encoding="utf-8") as f:
        return f.read()


def declared(line):
    """The names that a line declares, and whether Rattle made them."""
    if line.lstrip().startswith(("--", "use ", "module")) or " : " not in line and " (" not in line:
        return [], False
    words = line.split()
    while words and words[0] in WORDS_BEFORE:
        words.pop(0)
    names = []
    for i, w in enumerate(words):
        if w.startswith((":", "(", "{")):
            made = w == ":" and i + 1 < len(words) and words[i + 1].startswith("goal.")
            return ([] if "=" in names else [n for n in names if TOKEN.fullmatch(n)]), made
        names.append(w)
    return [], False


def snake(name):
    return re.sub(r"(?<=[a-z0-9])([A-Z])", lambda m: "_" + m[1].lower(), name)


def collect(top):
    """Own names by their old spelling, and the names that Rattle made."""
    own, made, functions = set(), set(), set()
    for path in files(top, ".antt"):
        specs = os.sep + "specs" + os.sep in path
        answers = path.endswith(("Answers.antt", "Choices.antt", "Invariants.antt"))
        for line in read(path).splitlines():
            if answers and line.startswith(" "):
                continue
            names, by_rattle = declared(line)
            (made if by_rattle else own).update(names)
            if specs and not by_rattle:
                functions.update(snake(n) for n in names)
    for path in files(top, ".rt"):
        for m in re.finditer(r"(?m)^ *ghost (\w+)(?::| =)", read(path)):
            own.add(m[1])
    return own - made, made, functions


def respelled(name, functions):
    if name in APART:
        return APART[name]
    if not name[0].islower():
        return name
    new = snake(name)
    if "-" not in new:
        return new
    parts = new.split("-")
    for i in range(len(parts) - 1, 0, -1):
        front = "_".join(parts[:i])
        if front in functions or front in LIBRARY:
            return front + "-" + "_".join(parts[i:])
    return "_".join(parts)


def spans(text, rust):
    """The text in pieces: code, comment, string."""
    at = 0
    marks = re.compile(r'//[^\n]*|br?"(?:\\.|[^"\\])*"|"(?:\\.|[^"\\])*"' if rust else r'--(?=[\s-])[^\n]*')
    for m in marks.finditer(text):
        yield "code", text[at : m.start()]
        yield ("comment" if m[0].startswith(("//", "--")) else "string"), m[0]
        at = m.end()
    yield "code", text[at:]


def in_code(text, names, dashed=True):
    return TOKEN.sub(lambda m: names.get(m[0], m[0]) if dashed or "-" not in m[0] else m[0], text)


def in_prose(text, names):
    text = in_code(text, {k: v for k, v in names.items() if re.search(r"[a-z0-9][A-Z]", k)})
    return re.sub(r"`[^`\n]*`", lambda m: in_code(m[0], names), text)


def turned(path, names):
    text = read(path)
    if path.endswith(".md"):
        return text, re.sub(r"`[^`\n]*`", lambda m: in_code(m[0], names), text)
    if path.endswith(".edit"):
        return text, in_code(text, names, dashed=False)
    out = []
    for kind, piece in spans(text, path.endswith(".rt")):
        out.append(in_code(piece, names) if kind == "code" else in_prose(piece, names) if kind == "comment" else piece)
    return text, "".join(out)


def clashes(top, names, own):
    """New names that stand for two old ones, or that some file uses for something else beside the old one."""
    found = []
    by_new = {}
    for old, new in names.items():
        by_new.setdefault(new, []).append(old)
    for new, olds in sorted(by_new.items()):
        if len(olds) > 1:
            found.append(f"{' and '.join(sorted(olds))} would both be {new}")
    for path in files(top, ".rt", ".antt"):
        tokens = set()
        for kind, piece in spans(read(path), path.endswith(".rt")):
            if kind == "code":
                # a Rust function may have the name of the definition that says what it answers, and so may Rattle's names for it
                piece = re.sub(r"\bfn \w+|\b\w+\(|\bRattle\.[\w.+]*|\b[cw]\.[\w.-]+", "", piece)
                tokens.update(TOKEN.findall(piece))
        for old, new in names.items():
            if old in tokens and new in tokens and names.get(new, new) == new:
                found.append(f"{os.path.relpath(path, top)}: {old} would be {new}, which stands there already")
    return found


def main(argv):
    listing = "--list" in argv
    rest = [a for a in argv if a != "--list"]
    top = rest[0] if rest else "."
    own, made, functions = collect(top)
    names = {n: respelled(n, functions) for n in own}
    names = {old: new for old, new in names.items() if old != new}
    for old in sorted(names) if listing else []:
        print(old, names[old])
    bad = clashes(top, names, own | made)
    for line in bad:
        print("clash:", line)
    if bad or listing:
        return 1 if bad else 0
    changed = 0
    docs = [os.path.join(top, "docs", n) for n in sorted(os.listdir(os.path.join(top, "docs"))) if n.endswith(".md")]
    for path in [*files(top, ".rt", ".antt", ".edit"), os.path.join(top, "README.md"), *docs]:
        old, new = turned(path, names)
        if old != new:
            with open(path, "w", encoding="utf-8") as f:
                f.write(new)
            changed += 1
    print(f"{len(names)} names, {changed} files")
    return 0


if __name__ == "__main__":
    raise SystemExit(main(sys.argv[1:]))
