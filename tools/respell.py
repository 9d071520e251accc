#!/usr/bin/env python3
"""Brings the repository's own functions and lemmas of antt files to snake case, wherever they are named.

usage: python3 tools/respell.py [FOLDER]      the top of a checkout; without it, the one that this file lies in

A name is renamed that is declared in specs/ or proofs/ and answers no goal: a small letter before a capital becomes two words, and a dash becomes
an underscore. A lemma that would get the name of a definition gets `_lem` after it. Types, modules and facts (names that begin with a capital),
answers to goals and everything that is declared in src/ keep their names. Where a new name is a word of some antt file already, the script says
so and changes nothing.
"""

import os
import re
import sys

DECLARED = re.compile(r"^\s*(?:(?:abbrev|unfoldable|pub|private) )*([A-Za-z_][\w'-]*) *:(?! *goal\.)(?=\s|$)")
GENERATED = re.compile(r"(invariant|decreases|loop|returns|overflow|bounds|slice_bounds|branch|invariant_of|prove)-|.*-(requires|preserved|init|smaller)$")
TOKEN = re.compile(r"(?<![\w'·-])[A-Za-z_][\w']*(?:-[\w']+)*(?![\w'-])")


def files(top, endings):
    for folder, dirs, names in os.walk(os.path.join(top, "crates")):
        dirs[:] = sorted(d for d in dirs if d != "out")
        for name in sorted(names):
            if name.endswith(endings):
                yield os.path.join(folder, name)


def place(top, path):
    """'spec', 'lemma' or 'answer', by where a file lies."""
    parts = os.path.relpath(path, top).split(os.sep)
    if parts[2] == "specs":
        return "spec"
    return "lemma" if len(parts) == 4 or parts[-1] == "Choices.antt" else "answer"


def read(path):
    with open(path, encoding="utf-8") as f:
        return f.read()


def respelled(name):
    return re.sub(r"(?<=[a-z0-9])([A-Z])", lambda m: "_" + m[1].lower(), name).replace("-", "_")


def renamings(top):
    declared, words = {}, {}
    for path in files(top, (".antt",)):
        where = place(top, path)
        for line in read(path).splitlines():
            line = line.split("-- ")[0]
            found = DECLARED.match(line)
            if found:
                declared.setdefault(found[1], set()).add(where)
            for m in TOKEN.finditer(line):
                if line[m.start() - 1 : m.start()] != ".":
                    words.setdefault(m[0], path)
    own = [n for n in sorted(declared) if n[0].islower() and not GENERATED.match(n)]
    renamed = {n: respelled(n) for n in own if respelled(n) != n}
    alike = {}
    for name in own:
        alike.setdefault(respelled(name), []).append(name)
    for names in alike.values():
        # The definition, which is the one in camel case, keeps the name.
        names.sort(key=lambda n: ("spec" not in declared[n], not re.search(r"[a-z][A-Z]", n), n))
        for name in names[1:]:
            renamed[name] = respelled(name) + "_lem"
    together = [(a, b) for a, b in renamed.items() if (b in words and b not in renamed) or list(renamed.values()).count(b) > 1]
    return renamed, together, words


def main():
    top = sys.argv[1] if len(sys.argv) > 1 else os.path.join(os.path.dirname(os.path.realpath(__file__)), "..")
    renamed, together, words = renamings(top)
    for a, b in together:
        print(f"respell: {a} would fall together with {b}, a word of {words.get(b)}")
    if together:
        raise SystemExit(1)
    count = 0
    for path in list(files(top, (".antt", ".rt"))):
        old = read(path)
        # In src/ a name of two words in snake case may be a function's: there only names that no Rust name can be, and those in ghost imports.
        source = path.endswith(".rt")
        new = TOKEN.sub(lambda m: renamed.get(m[0], m[0]) if not source or respelled(m[0]) != m[0] else m[0], old)
        if new != old:
            count += 1
            with open(path, "w", encoding="utf-8") as f:
                f.write(new)
    print(f"respell: {len(renamed)} names, {count} files")
    for a, b in renamed.items():
        print(f"  {a} {b}")


if __name__ == "__main__":
    main()
