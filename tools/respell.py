#!/usr/bin/env python3
"""Spells the definitions, lemmas and fields of this repository as today's Rattle spells names: words in snake case.

usage: tools/respell.py [--check]        at the top of the repository, after port.py

It reads which names the files of specs/ and the lemma files of proofs/ declare. A name that begins with a small letter
gets underscores in place of capitals and dashes, and an apostrophe in place of a prime; where a lemma would then have the
name of a definition, it gets the ending _lem. It turns whole words in .antt files, in the clauses and ghost lines of .rt
files, in must-fail edits and in code spans of the pages. In edits of specs/ it also writes a projection tight. Behind a dot only names of fields, and names with capitals, turn. Functions of src/,
strings, inputs and outputs keep their names. It prints what falls together. --check prints the table and writes nothing.
"""
import os
import re
import sys

NAME = r"[^\s(){}.;,@\"«»]+"
DECLARED = re.compile(
    rf"^( *)((?:(?:pub|abbrev|unfoldable|mutual|infixl|infixr|infix) )*)({NAME})(?: \{{[^{{}}]*\}}| \([^()]*\))* :(?: .*)?$"
)
RECORD = re.compile(r"^ *(?:(?:pub|abbrev|unfoldable) )*record ")
KEYWORDS = {"use", "mod", "where", "let", "in", "elim", "--", "|", "module", "unfolding", "open", "else", "data", "record"}
OF_A_FUNCTION = ("Proof.antt", "Answers.antt", "Invariants.antt")


def files(kinds):
    for top in ("crates", "docs", "README.md", "models/README.md", "bench/README.md"):
        if os.path.isfile(top):
            if top.endswith(kinds):
                yield top
            continue
        for folder, dirs, names in os.walk(top):
            dirs[:] = sorted(d for d in dirs if d not in ("out", "target"))
            for n in sorted(names):
                if n.endswith(kinds):
                    yield os.path.join(folder, n)


def read(path):
    with open(path, encoding="utf-8") as f:
        return f.read()


def snake(name):
    s = re.sub(r"(?<=[a-z0-9₀-₉])([A-Z])(?=[a-z0-9]|$|[-'′_])", lambda m: "_" + m[1].lower(), name)
    return re.sub(r"(?<=\w)-(?=\w)", "_", s).replace("′", "'")


def table():
    names, fields, specs = {}, set(), set()
    for path in files((".antt",)):
        if os.path.basename(path) in OF_A_FUNCTION:
            continue
        record = None
        for line in read(path).split("\n"):
            deep = len(line) - len(line.lstrip())
            if record is not None and line.strip() and deep <= record:
                record = None
            if RECORD.match(line):
                record = deep
            m = DECLARED.match(line)
            if not m or m[3] in KEYWORDS or not m[3][0].islower() or m[3].endswith(":"):
                continue
            names.setdefault(m[3], []).append(path)
            if record is not None:
                fields.add(m[3])
            elif "/specs/" in path:
                specs.add(m[3])
    turned = {n: snake(n) for n in names}
    meet = {}
    for n in names:
        meet.setdefault(turned[n], []).append(n)
    # of names that would fall together the definition keeps the plain name, else the one that had capitals
    for new, olds in meet.items():
        first = sorted(olds, key=lambda n: (n not in specs, not re.search("[A-Z]", n), n))[0]
        for n in olds:
            if n != first and n not in fields:
                turned[n] = new + "_lem"
    turned = {n: t for n, t in turned.items() if n != t}
    # a lemma that would have the name of a library's word in a file that uses that word
    for path in files((".antt",)):
        if os.path.basename(path) not in OF_A_FUNCTION:
            words = set(re.findall(NAME, read(path)))
            for n in words & set(turned):
                if turned[n] in words and turned[n] not in names and n not in specs and n not in fields:
                    turned[n] += "_lem"
    return names, fields, turned


# constructors, and names of one function's proof
CAPITALS = re.compile(r"(?<![\w'-])[a-z]+(?:[A-Z][a-z]*)+(?![\w'-])")
TOKEN = re.compile(rf"(?<![^\s(){{}}.;,@«»]){NAME}")


def turn(text, turned, fields, comment):
    """The text with each word of the table turned, comments by 'comment'."""
    out, at = [], 0
    for m in TOKEN.finditer(text):
        w = m[0]
        new = turned.get(w)
        if new is None:
            continue
        if m.start() and text[m.start() - 1] == "." and "-" in w and w not in fields:
            continue
        start = text.rfind("\n", 0, m.start()) + 1
        if comment in text[start : m.start()] and "-" in w:
            continue
        out += [text[at : m.start()], new]
        at = m.end()
    text = "".join(out) + text[at:]
    return CAPITALS.sub(lambda m: m[0] if snake(m[0]) in text.split() else snake(m[0]), text)


SPAN = re.compile(r"`[^`\n]+`")


def span(m, turned):
    return re.sub(r"[\w'′₀-₉-]+", lambda w: turned.get(w[0], w[0]), m[0])


def edit_line(line, whole, turned, fields):
    if not line.startswith(("old: ", "new: ")) or "file: src/" in whole and not re.search(r"file: (specs|proofs)/", whole):
        return line
    head, text = line[:5], turn(line[5:], turned, fields, "--")
    text = re.sub(r"(?<![\w.])[a-z]+(?:[A-Z][a-z]+)+(?!\w)", lambda m: snake(m[0]), text)
    text = re.sub(r"(?<=[\w)']) \.(?=[a-z0-9_]+)", ".", text)
    text = re.sub(r"Rattle·(\w+)·specs\.specs\.|Rattle·(\w+)\.specs\.", lambda m: f"Rattle.{m[1] or m[2]}.specs.", text)
    return head + text


def main(argv):
    names, fields, turned = table()
    seen = {}
    for n in names:
        seen.setdefault(turned.get(n, n), set()).add(n)
    for new, olds in sorted(seen.items()):
        if len(olds) > 1:
            print(f"together: {new}: {', '.join(sorted(olds))} ({'; '.join(sorted({p for o in olds for p in names[o]}))})")
    if "--check" in argv:
        for n in sorted(turned):
            print(f"{n}\t{turned[n]}")
    for path in files((".antt", ".rt", ".md", ".edit")):
        old = read(path)
        if path.endswith((".antt", ".rt")):
            words = set(re.findall(NAME, old))
            for n in sorted(words & set(turned)):
                if turned[n] in words and turned[n] not in turned:
                    print(f"look: {path}: {n} gets the spelling of a word there: {turned[n]}")
        if path.endswith(".md"):
            new = SPAN.sub(lambda m: span(m, turned), old)
        elif path.endswith(".edit"):
            new = "\n".join(edit_line(l, old, turned, fields) for l in old.split("\n"))
        else:
            new = turn(old, turned, fields, "--" if path.endswith(".antt") else "//")
        if new != old and "--check" not in argv:
            with open(path, "w", encoding="utf-8") as f:
                f.write(new)


if __name__ == "__main__":
    main(sys.argv[1:])
