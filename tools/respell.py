#!/usr/bin/env python3
"""Spells the project's own definitions and lemmas as today's Rattle does: words in snake case, types in camel case.

usage: tools/respell.py [--table] [ROOT]

Run once, after the toolchain's own script and before any edit by hand. It turns whole words in crates/, more-edits/ and the code spans of docs/, and writes the table of what it turned to standard output under --table, without a change.
A name that is declared in a function's own folder of proofs/ mirrors a goal and stays, but for the proof's own name, FUNCTION_spec.
A lemma that would meet a definition gets `_lem`.
"""

import os
import re
import sys

HEADS = ("unfoldable", "abbrev", "pub", "data", "record", "ruleset", "mutual")
WORD = re.compile(r"[^\s(){}.;,@\"«»`]+")
SPAN = re.compile(r"`[^`\n]+`")


def files(root, top, *endings):
    for folder, dirs, names in os.walk(os.path.join(root, top)):
        dirs[:] = sorted(d for d in dirs if d not in ("out", "target"))
        for name in sorted(names):
            if name.endswith(endings):
                yield os.path.join(folder, name)


def text_of(path):
    with open(path, encoding="utf-8") as f:
        return f.read()


def in_function_folder(path):
    """A file in a folder of its own below proofs/ belongs to one function."""
    at = path.split(os.sep)
    return "proofs" in at and len(at) - at.index("proofs") > 2


def declared(path):
    """The names that a file declares at the head of a line."""
    for line in text_of(path).split("\n"):
        line = line.split("-- ")[0].rstrip()
        head, colon, rest = line.partition(" :")
        words = head.split()
        while words and words[0] in HEADS:
            words.pop(0)
        if not colon or not words or any(c in words[0] for c in "(){}.;,@\"«»=→λ"):
            continue
        if len(words) > 1 and words[1][0] not in "({":
            continue
        yield words[0]


def snake(name):
    if name[0].isupper() and "-" not in name:
        return name
    out = []
    for part in name.split("-"):
        if not part or part.isupper() or part[0].isupper():
            out.append(part)
        else:
            out.append(re.sub(r"(?<=[a-z0-9])([A-Z])", lambda m: "_" + m[1].lower(), part))
    return "-".join(out)


def table_of(root):
    names = {}
    for path in files(root, "crates", ".antt"):
        own = in_function_folder(path)
        for name in declared(path):
            if not own or name.endswith("-spec"):
                names.setdefault(name, set()).add(own)
    used = set()
    for path in files(root, "crates", ".antt", ".rt"):
        used.update(WORD.findall(text_of(path)))
    table = {}
    for name in sorted(names):
        if not re.match(r"[\w+'-]+$", name):
            continue
        if name.endswith("-spec") and names[name] == {True}:
            new = name.replace("-", "_") if not name.startswith("+") else name[:-5] + "_spec"
        elif name.replace("-", "").isupper():
            new = name.replace("-", "_")
        else:
            new = snake(name).replace("-", "_")
        if new != name:
            table[name] = new
    given = {}
    for name, new in sorted(table.items(), key=lambda it: ("-" in it[0], it[0])):
        while new in given or new in used and new not in table and not name.replace("-", "").isupper() and not name.endswith("-spec") and "-" in name:
            new += "_lem"
        given[new] = name
        table[name] = new
    plain = {it for path in files(root, "crates", ".antt") if not in_function_folder(path) for it in declared(path)}
    for name, new in list(table.items()):
        if "-" not in name and new in plain and new not in table:
            table[new] = new + "_lem"
    return table, used


def turned(text, table, behind_dots, is_antt):
    def one(m):
        word = m[0]
        if word + "_lem" == table.get(word) and (not is_antt or text[m.start() - 1 : m.start()] == "."):
            return word
        if not behind_dots and text[m.start() - 1 : m.start()] == ".":
            line = text[text.rfind("\n", 0, m.start()) + 1 : m.start()]
            if not re.match(r"\s*(ghost )?use ", line):
                return word
        if word in table:
            return table[word]
        bare = word.rstrip(":'*?!")
        if bare != word and bare in table:
            return table[bare] + word[len(bare) :]
        return word

    return WORD.sub(one, text)


def main(args):
    only_table = "--table" in args
    args = [a for a in args if a != "--table"]
    root = args[0] if args else "."
    table, used = table_of(root)
    if only_table:
        for old, new in sorted(table.items()):
            print(f"{old}\t{new}" + ("\tMEETS" if new in used and new not in table else ""))
        return 0
    for path in [*files(root, "crates", ".antt", ".rt", ".edit"), *files(root, "more-edits", ".edit")]:
        old = text_of(path)
        new = turned(old, table, not in_function_folder(path), path.endswith(".antt"))
        if new != old:
            with open(path, "w", encoding="utf-8") as f:
                f.write(new)
    for path in [*files(root, "docs", ".md"), os.path.join(root, "README.md")]:
        old = text_of(path)
        new = SPAN.sub(lambda m: turned(m[0], table, True, False), old)
        if new != old:
            with open(path, "w", encoding="utf-8") as f:
                f.write(new)
    return 0


if __name__ == "__main__":
    raise SystemExit(main(sys.argv[1:]))
