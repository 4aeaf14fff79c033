#!/usr/bin/env python3
"""Spells the repository's own definitions, lemmas, fields and constructors in snake case, as `looked-at` to `looked_at`.

usage: tools/spell_names.py      at the top of a checkout on which the kit's port.py has run, once

The names are those with a dash that stand in a crate's specs/ or in a lemma file right below its proofs/ and that no file imports from the
kit's library. They turn as whole words: in .antt files, in the clauses of .rt files, in the code spans of comments, and in the texts of
must-fail edits. Names that Rattle makes for a function's goals stay as they are, and so do functions, files and plain prose.
"""

import glob
import re

TOKEN = re.compile(r"[^\s(){}\[\],;.\"«»@|`]+")
COMMENT = re.compile(r"(?m)(?<!\S)(?:--|//).*$")
SPAN = re.compile(r"`[^`\n]*`")
DASH = re.compile(r"[^◌\W]-\w|\w-[^\W]")
USE = re.compile(r"use ([^\s{;]+)\.\{([^}]*)\}")
# Names that would fall together with one of the library's in the same file, and two statements, whose names are in camel case.
OTHERWISE = {
    "bit-and": "bit_of_and",
    "bit-or": "bit_of_or",
    "bit-xor": "bit_of_xor",
    "Kind-ok": "kind_ok",
    "leak": "IsLeak",
    "learns_nothing": "IsNoLeak",
}


def below(pattern):
    return sorted(glob.glob(pattern, recursive=True))


def library_names(paths):
    found = set()
    for path in paths:
        for module, names in USE.findall(open(path, encoding="utf-8").read()):
            if module.startswith("Rattle.") and not module.startswith("Rattle.std."):
                continue
            found |= {name.split(" as ")[0].strip() for name in names.split(",")}
    return found


def own_names(paths, library):
    found = set()
    for path in paths:
        code = COMMENT.sub("", open(path, encoding="utf-8").read())
        found |= {word for word in TOKEN.findall(code) if DASH.search(word)}
    return {word: word.replace("-", "_") for word in found - library} | OTHERWISE


def in_code(text, names):
    return TOKEN.sub(lambda word: names.get(word[0], word[0]), text)


def in_source(text, names):
    out, at = [], 0
    for comment in COMMENT.finditer(text):
        out.append(in_code(text[at : comment.start()], names))
        out.append(SPAN.sub(lambda span: in_code(span[0], names), comment[0]))
        at = comment.end()
    return "".join(out) + in_code(text[at:], names)


def in_edit(text, names):
    lines = text.split("\n")
    return "\n".join(in_code(line, names) if re.match(r"(?:old|new):", line) else line for line in lines)


def main():
    lemmas = below("crates/*/specs/*.antt") + below("crates/*/proofs/*.antt")
    sources = below("crates/*/specs/**/*.antt") + below("crates/*/proofs/**/*.antt") + below("crates/*/src/*.rt")
    names = own_names(lemmas, library_names(sources))
    for path in sources + below("crates/*/must-fail/*.edit"):
        before = open(path, encoding="utf-8").read()
        after = (in_edit if path.endswith(".edit") else in_source)(before, names)
        if after != before:
            open(path, "w", encoding="utf-8").write(after)
    print(f"{len(names)} names")


main()
