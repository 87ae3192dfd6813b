#!/usr/bin/env python3
"""Spells the repository's own definitions, lemmas and record fields in snake case: stepsAt, lowest-more -> steps_at, lowest_more.

usage: respell_names.py [--map] [--edits] ROOT

The names are those declared in crates/*/specs/*.antt and crates/*/proofs/*.antt (not in the folders of functions). Types, facts and modules, which
begin with a capital, keep their spelling, and so do functions of src/, strings, inputs and outputs. It rewrites the .antt and .rt files in place; with --edits the
must-fail edits alone. With --map it writes nothing but the names, old and new. It stops where two names would fall together.
"""

import os
import re
import sys

WORD = re.compile(r"\"(?:[^\"\\\n]|\\.)*\"|--[^\n]*|//[^\n]*|[^\s(){}.;,@\"«»\[\]\\`|&!:=<>*+/?#]+")
DECLARED = re.compile(r"^\s*(?:(?:abbrev|unfoldable|opaque|pub)\s+)*([a-z][^\s(){}.;,@\"]*)\s*(?:\{[^}]*\}\s*)*:\s", re.M)
# Names that Rattle makes, and words of the language: never respelled.
KEPT = re.compile(r"(loop|invariant|decreases|returns|if|in|then|else|overflow|bounds|let)(-.*)?$")


def files(root, endings):
    for folder, dirs, names in os.walk(os.path.join(root, "crates")):
        dirs[:] = sorted(d for d in dirs if d not in ("out", "target"))
        for name in sorted(names):
            if name.endswith(endings):
                yield os.path.join(folder, name)


def of_laws(root, path):
    parts = os.path.relpath(path, root).split(os.sep)
    return len(parts) == 4 and parts[2] in ("specs", "proofs") and path.endswith(".antt")


def snake(name):
    name = re.sub(r"([a-z0-9'₀-₉])([A-Z])", r"\1_\2", name).replace("-", "_")
    return re.sub(r"_+", "_", name.lower())


def read(path):
    with open(path, encoding="utf-8", newline="") as it:
        return it.read()


# Lemmas in snake case whose spelling a definition takes now: a lemma that would have its function's name gets `_lem`.
GIVE_WAY = ("block_size", "first_block", "found_of", "mates_at", "too_long")


def names_of(root):
    found = set()
    for path in files(root, ".antt"):
        if of_laws(root, path):
            found |= set(DECLARED.findall(read(path)))
    names = {n: snake(n) for n in sorted(found) if snake(n) != n and not KEPT.match(n)}
    taken = {new for old, new in names.items() if "-" not in old} | found
    names = {old: new + "_lem" if "-" in old and new in taken else new for old, new in names.items()}
    return names | {n: n + "_lem" for n in GIVE_WAY if n in found}


def lent_to(root, text):
    """The names that the file takes from a library, and not from a crate of the repository."""
    found = set()
    for path, list_of in re.findall(r"^(?:ghost )?use ([^\s{]+)\.\{([^}]*)\}", text, re.M):
        if not os.path.isdir(os.path.join(root, "crates", (path.split(".") + [""])[1])) or not path.startswith("Rattle."):
            found |= set(re.split(r"[,\s]+", list_of))
    return found


def respell(text, names, code):
    """Text with each name respelled; in comments a name with a dash only between backticks, and nothing in strings."""

    def comment(it):
        out = re.sub(r"`[^`\n]*`", lambda m: respell(m.group(0)[1:-1], names, False).join("``"), it)
        plain = {o: n for o, n in names.items() if "-" not in o}
        return re.sub(r"(?<![\w`-])[a-z]\w*[A-Z]\w*(?![\w-])", lambda m: plain.get(m.group(0), m.group(0)), out)

    def one(m):
        it = m.group(0)
        if it[0] == '"':
            return it
        if (it.startswith("//") and code) or (it.startswith("--") and not code):
            return comment(it)
        return names.get(it, it)

    return WORD.sub(one, text)


def main(words):
    flags = {w for w in words if w.startswith("--")}
    rest = [w for w in words if not w.startswith("--")]
    if len(rest) != 1:
        sys.exit(__doc__)
    root = rest[0]
    names = names_of(root)
    back = {}
    for old, new in names.items():
        back.setdefault(new, []).append(old)
    tokens = set()
    for path in files(root, (".antt", ".rt")):
        if not of_laws(root, path) and path.endswith(".antt"):
            continue
        tokens |= set(re.findall(r"[^\s(){}.;,@\"«»\[\]\\`]+", read(path)))
    bad = [f"{new}: {' '.join(olds)}" for new, olds in back.items() if len(olds) > 1]
    taken = [f"{new}: {back[new][0]}, and it stands already" for new in back if new in tokens]
    if "--map" in flags:
        for old, new in names.items():
            print(old, new)
    for line in bad + taken:
        print("together: " + line, file=sys.stderr)
    if "--map" in flags:
        return
    for path in files(root, ".edit" if "--edits" in flags else (".antt", ".rt")):
        old = read(path)
        lent = lent_to(root, old)
        mine = {o: n for o, n in names.items() if o not in lent and (path.endswith(".antt") or o not in GIVE_WAY)}
        new = respell(old, mine, path.endswith((".rt", ".edit")))
        if new != old:
            with open(path, "w", encoding="utf-8", newline="") as it:
                it.write(new)


if __name__ == "__main__":
    main(sys.argv[1:])
