#!/usr/bin/env python3
"""Respells the repository's own definitions, lemmas, fields and constructors: words in snake case, as today's library has them.

usage: python3 tools/snake_names.py [TOP]     after the kit's port.py, once; `--look` only says which names would fall together

A name of several words that begins with a small letter (`weightsFit`, `part-storedAt`) becomes `weights_fit`, `part-stored_at`. `getD`, where
a lemma is named after it, is `get_or`, as in the library. Files of src/ are read too, for their clauses, imports and comments: functions,
variables and fields there are in snake case already. Texts between quotes stay. Edits of must-fail/ are turned as well, and where a record is
projected, the space before the dot goes.
"""
import os
import re
import sys

WORD = re.compile(r"(?<![\w'′])([a-z][a-z0-9_]*(?:[A-Z][a-z0-9_]*)+)(?![A-Za-z])")
QUOTED = re.compile(r'"(?:[^"\\\n]|\\.)*"')
SPECIAL = {"getD": "get_or"}
# Lemmas that would fall together with the definition that they are about: by the file's end, the lemma and its new name.
LEMMAS = {
    ("rows", "row_count"): "row_count_lem",
    ("states/proofs/Inverse.antt", "numbers_fit"): "numbers_fit_lem",
    ("promises/proofs/Older.antt", "too_large"): "too_large_lem",
}


def snake(word):
    """`weightsFit` is `weights_fit`; a single capital at the end too, as in `getD`."""
    for old, new in SPECIAL.items():
        if word == old or word.startswith(old + "_"):
            return new + word[len(old) :]
    return re.sub(r"([A-Z])", lambda m: "_" + m[1].lower(), word).replace("__", "_")


def files(top):
    for folder, dirs, names in os.walk(os.path.join(top, "crates")):
        dirs[:] = sorted(d for d in dirs if d not in ("out", "data"))
        for name in sorted(names):
            if name.endswith((".rt", ".antt", ".edit")):
                yield os.path.join(folder, name)


def turned(text, keep_quotes):
    if not keep_quotes:
        return WORD.sub(lambda m: snake(m[1]), text)
    out, at = [], 0
    for m in QUOTED.finditer(text):
        out += [WORD.sub(lambda w: snake(w[1]), text[at : m.start()]), m[0]]
        at = m.end()
    return "".join(out) + WORD.sub(lambda w: snake(w[1]), text[at:])


def main():
    words = [w for w in sys.argv[1:] if w != "--look"]
    top = words[0] if words else "."
    look = "--look" in sys.argv
    token = re.compile(r"[A-Za-z][\w'′]*")
    for path in files(top):
        with open(path, encoding="utf-8") as f:
            text = was = f.read()
        for (where, lemma), name in LEMMAS.items():
            if "/" + where in path and path.endswith(".antt"):
                text = re.sub(r"(?<![\w'-])" + lemma + r"(?![\w'-])", name, text)
        new = turned(text, path.endswith(".rt"))
        if path.endswith(".edit"):
            new = re.sub(r"(?<=[\w'₀)]) \.(?=[a-z0-9])", ".", new)
        if look:
            there = set(token.findall(text))
            for w in sorted(there):
                s = WORD.sub(lambda m: snake(m[1]), w)
                if s != w and s in there:
                    print(f"{path}: `{w}` falls together with `{s}`")
        elif new != was:
            with open(path, "w", encoding="utf-8") as f:
                f.write(new)


main()
