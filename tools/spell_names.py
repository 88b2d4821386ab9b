#!/usr/bin/env python3
"""Spells the repository's own names, and what it imports of the library, as today's Rattle does.

usage: tools/spell_names.py ROOT        in a tree that port.py has turned; it prints each name that it spells anew

Words are in snake case, types and modules in camel case. So each name that a file of specs/ or proofs/ declares and that
begins with a small letter gets underscores for dashes and inner capitals. The tests on numbers get their names of today,
and a name that the prelude passes on is imported from there (in proofs/: from the common names).
It changes no text in quotes, and nothing below src/ or must-fail/.
"""

import glob
import os
import re
import shutil
import sys

KIT = os.path.dirname(os.path.dirname(os.path.realpath(shutil.which("rt"))))
NAME = r'[^\s(){}.;,@"«»]+'
DECLARED = re.compile(rf"(?m)^ *(?:(?:pub|abbrev|unfoldable|data|record) )*({NAME})(?: [({{].*?[)}}])* : ")
BOUND = re.compile(rf"[({{]((?:{NAME} )+): ")
USE = re.compile(r"(?m)^use ([^\s;{]+)\.\{([^}]*)\}\n")
TESTS = {"leb": "nat_le", "ltb": "nat_lt", "eqb": "nat_eq"}
# These have words of the prelude's names that mean something else.
OTHERS = re.compile(r"Rattle\.std\.proofs\.Math\.Option|Prim\.Native\.(String|Char)|Rattle\.(?!std\.)")


def in_snake_case(name):
    name = name.replace("getD", "get_or")
    return re.sub(r"(?<=[a-z0-9])[A-Z]", lambda m: "_" + m[0].lower(), name).replace("-", "_")


def files(root):
    for folder in ("specs", "proofs"):
        yield from sorted(glob.glob(os.path.join(root, "crates", "*", folder, "**", "*.antt"), recursive=True))


def read(path):
    with open(path, encoding="utf-8") as f:
        return f.read()


def code(text):
    return re.sub(r'(?m)--.*|"[^"]*"', "", text)


def own_names(texts):
    """The names to spell anew: declared here, of no library, and not yet in snake case."""
    names, lent = set(), set()
    for text in texts:
        text = code(text)
        names |= set(DECLARED.findall(text))
        names |= {n for group in BOUND.findall(text) for n in group.split()}
        for path, listed in USE.findall(text):
            if not path.startswith("Rattle.") or path.startswith("Rattle.std."):
                lent |= {n.split(" as ")[0].strip() for n in listed.split(",")}
    names = {n for n in names - lent if re.match(r"[a-z]", n)}
    return {n: in_snake_case(n) for n in names if in_snake_case(n) != n}


def exported(path):
    """The names that a module of the library passes on."""
    return {n.strip() for listed in re.findall(r"\{([^}]*)\}", read(os.path.join(KIT, "rattle", path))) for n in listed.split(",")}


def respelled(text, names):
    def word(m):
        bare = m[0].strip("`:'’!?")
        return m[0].replace(bare, names[bare]) if bare in names else m[0]

    parts = re.split(r'("(?:[^"\\\n]|\\.)*")', text)
    return "".join(p if i % 2 else re.sub(NAME, word, p) for i, p in enumerate(parts))


def rank(module):
    """Where an import stands: the prelude, the common names, the library, the logic, and then what is the repository's."""
    if module.startswith("Rattle.std."):
        return 0 if module.endswith(".Prelude") else 1 if module.endswith(".Common") else 2
    return 4 if module.startswith("Rattle.") else 3


def imported(text, path, prelude, common):
    """The same imports, from the prelude or the common names where they pass a name on."""
    lines = {}
    proofs = "/proofs/" in path
    for module, listed in USE.findall(text):
        for item in listed.split(","):
            name = item.strip().split(" as ")[0]
            if OTHERS.match(module):
                home = module
            elif name in prelude and not proofs:
                home = "Rattle.std.specs.Prelude"
            elif name in common:
                home = "Rattle.std.proofs.Common"
            else:
                home = module
            if item.strip() not in lines.setdefault(home, []):
                lines[home].append(item.strip())
    first = USE.search(text)
    if not first:
        return text
    order = sorted(lines, key=rank)
    block = "".join(f"use {m}.{{{', '.join(lines[m])}}}\n" for m in order)
    return text[: first.start()] + block + USE.sub("", text[first.start() :])


def main(argv):
    if len(argv) != 1:
        print(__doc__)
        return 2
    paths = list(files(argv[0]))
    texts = {p: read(p) for p in paths}
    names = own_names(texts.values())
    taken = {}
    for old, new in sorted(names.items()):
        taken.setdefault(new, []).append(old)
        print(old, new)
    words = set(re.findall(NAME, code("\n".join(texts.values()))))
    for new, olds in taken.items():
        if len(olds) > 1 or new in words:
            print(f"look: {' and '.join(olds)} and a name {new} that stood here before", file=sys.stderr)
    prelude, common = exported("std/specs/Prelude.antt"), exported("std/proofs/Common.antt")
    for p in paths:
        text = imported(respelled(texts[p], names | TESTS), p, prelude, common)
        if text != texts[p]:
            with open(p, "w", encoding="utf-8") as f:
                f.write(text)
    return 0


if __name__ == "__main__":
    sys.exit(main(sys.argv[1:]))
