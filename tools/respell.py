#!/usr/bin/env python3
"""Spells the names of this repository's definitions, fields and lemmas in snake case, by respell.tsv beside this file.

usage: tools/respell.py [FOLDER]

FOLDER is a checkout of the last commit before the port, over which port.py has gone once; the default is this one. A row of the table is the old
name, a tab, the new. Files are rewritten in place. What turns: specs/ and proofs/, the clauses of src/, edits, and code spans in comments and pages.
In a Proof.antt, which also has names that Rattle makes, a name turns that has a capital inside, or that the file brings from this repository or declares.
Functions of src/, C names, strings, inputs and outputs keep their names: none of them is in the table, since none has a capital inside or a dash.
"""

import os
import re
import sys

HERE = os.path.dirname(os.path.realpath(__file__))
WORD = re.compile(r"[^\s(){}\[\].;,@\"«»`]+")
USE = re.compile(r"(?m)^(\s*(?:pub |ghost )?use )([^\s;{]+?(?=\.\{|[\s;]|$))(\.\{[^}]*\})?")
OWN = re.compile(r"(?m)^ *(?:abbrev |unfoldable |pub )*([^\s:(){}=]+) :(?=\s)([^\n]*)")
# Lemmas that would be spelled as a definition of theirs is from now on: they turn in these crates, and in specs/ and proofs/ alone.
LEMMAS = {"above_zero": ("float",), "all_left": ("client",), "count_word": ("sheet",), "laid_in": ("sheet", "parking")}


def read(path):
    with open(path, encoding="utf-8", newline="") as f:
        return f.read()


def words(text, turn):
    """Turns each word of the text by turn, which is given the word and the character before it."""
    return WORD.sub(lambda m: turn(m[0], text[max(0, m.start() - 1) : m.start()]), text)


def code(text, turn):
    """Turns code: of a use line what is in its braces, and of the rest each word."""
    out, at = [], 0
    for m in USE.finditer(text):
        out += [words(text[at : m.start()], turn), m[1], m[2], words(m[3] or "", lambda w, _: turn(w, ""))]
        at = m.end()
    return "".join(out) + words(text[at:], turn)


def turned(text, mark, turn, rows):
    """Turns a file: its code, and the code spans of its comments, which begin with the mark. Strings stay."""
    out, at = [], 0
    for m in re.finditer(r'"(?:[^"\\\n]|\\.)*"|(?<![^\s(){}.;,])%s[^\n]*' % re.escape(mark), text):
        comment = not m[0].startswith('"')
        out += [code(text[at : m.start()], turn), spans(m[0], rows) if comment else m[0]]
        at = m.end()
    return "".join(out) + code(text[at:], turn)


def spans(text, rows):
    return re.sub(r"`[^`\n]*`", lambda it: words(it[0], lambda w, _: rows.get(w, w)), text)


def of_walk(text, rows, crates, fields):
    """How a Proof.antt turns a word."""
    mine = {m[1] for m in OWN.finditer(text) if not re.search(r"tie\.(Need|invariant|decreases)|statement", m[2])}
    for m in USE.finditer(text):
        steps = m[2].split(".")
        if m[3] and steps[0] == "Rattle" and steps[1] in crates:
            mine.update(it.split(" as ")[0].strip() for it in m[3][2:-1].split(","))
    made = set(re.findall(r"tie\.Need-(\S+)", text))
    mine.update(it for it in rows if re.search(r"[a-z][A-Z]", it))

    def turn(word, before):
        is_own = word in mine or before == "." and word in fields and word not in made
        return rows.get(word, word) if is_own else word

    return turn


def edit(line, rows):
    key, colon, rest = line.partition(":")
    return key + colon + words(rest, lambda w, _: rows.get(w, w)) if key in ("old", "new") else line


def files(root):
    for top in ("crates", "docs"):
        for folder, dirs, names in os.walk(os.path.join(root, top)):
            dirs[:] = sorted(it for it in dirs if it != "out")
            yield from (os.path.join(folder, it) for it in sorted(names))
    yield from (os.path.join(root, it) for it in ("README.md", "CONTRIBUTING.md"))


def main():
    root = os.path.abspath(sys.argv[1] if len(sys.argv) > 1 else os.path.join(HERE, ".."))
    rows = dict(line.split("\t") for line in read(os.path.join(HERE, "respell.tsv")).splitlines())
    # Four rows would turn a definition's new name once more.
    specs = re.sub(r"--[^\n]*", "", "\n".join(read(it) for it in files(root) if "/specs/" in it))
    if not any(re.search(r"[a-z][A-Z]", it) and it in rows for it in WORD.findall(specs)):
        sys.exit("respell: the definitions are respelled already")
    crates = set(os.listdir(os.path.join(root, "crates")))
    lemmas = "\n".join(read(it) for it in files(root) if it.endswith(".antt") and not it.endswith("Proof.antt"))
    fields = {it for it in re.findall(r"(?m)^ +(?:pub )?([^\s:(){}=]+) : ", lemmas) if it in rows}
    plain = {old: new for old, new in rows.items() if old not in LEMMAS}
    for path in files(root):
        if not path.endswith((".antt", ".rt", ".edit", ".md")) or path.endswith("docs/PORT.md"):
            continue
        text, crate = read(path), os.path.relpath(path, root).split(os.sep)[1:2]
        here = {old: new for old, new in rows.items() if old not in LEMMAS or set(crate) & set(LEMMAS[old])}
        if path.endswith("Proof.antt"):
            new = turned(text, "--", of_walk(text, here, crates, fields), here)
        elif path.endswith(".antt"):
            new = turned(text, "--", lambda w, _: here.get(w, w), plain)
        elif path.endswith(".rt"):
            new = turned(text, "//", lambda w, _: plain.get(w, w), plain)
        elif path.endswith(".edit"):
            new = "".join(edit(it, plain) for it in text.splitlines(True))
        else:
            new = spans(text, plain)
        if new != text:
            with open(path, "w", encoding="utf-8", newline="") as f:
                f.write(new)


if __name__ == "__main__":
    main()
