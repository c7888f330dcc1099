#!/usr/bin/env python3
"""Brings this repository's own names to the spelling of today's Rattle; run once, right after the kit's port.py.

usage: tools/respell.py [FOLDER]     the repository's top, by default the folder above this file

- A definition, a field and a lemma is in snake case. A dash stays only where a lemma's name begins with the name of a
  definition of specs/ and goes on with another word, as in be_bytes-bytes.
- The crate hex is called hexadecimal, since the kit has a library of the first name.
It reads .antt files, and of .rt files all but their comments and strings. It says which names fall together.
"""

import os
import re
import sys

TOP = os.path.abspath(sys.argv[1] if len(sys.argv) > 1 else os.path.join(os.path.dirname(__file__), ".."))
CRATES = os.path.join(TOP, "crates")
DECLARED = re.compile(r"^ *(?:(?:abbrev|unfoldable|pub|record|data) +)*([^\s(){}:]+)(?: \([^)]*\))* :(?:\s|$)")
TOKEN = re.compile(r"[^\s(){}\[\],.;«»\"]+")


def crates():
    return sorted(os.listdir(CRATES))


def files(ending, *inside, of=None):
    for crate in of or crates():
        for part in inside:
            for folder, dirs, names in os.walk(os.path.join(CRATES, crate, part)):
                dirs.sort()
                yield from (os.path.join(folder, n) for n in sorted(names) if n.endswith(ending))


def read(path):
    with open(path, encoding="utf-8") as f:
        return f.read()


def declared(path):
    """The names that a file declares, but for the answers to goals."""
    for line in read(path).splitlines():
        found = DECLARED.match(line)
        if found and " : goal." not in line and not line.lstrip().startswith("--"):
            yield found.group(1)


def snake(name, words):
    """name in snake case; a dash stays behind a definition's name that a lemma's begins with."""
    for word in words:
        if name.startswith(word + "-"):
            return word.replace("-", "_") + "-" + name[len(word) + 1 :].replace("-", "_")
    return name.replace("-", "_")


def definitions(crate):
    """What specs/ of a crate defines. A lemma that stands there declares neither abbrev, unfoldable, record nor data."""
    names, within = set(), False
    for p in files(".antt", "specs", of=[crate]):
        for line in read(p).splitlines():
            found = DECLARED.match(line)
            if re.match(r"(abbrev|unfoldable|(pub )?(record|data)) ", line.strip()) and found:
                within = "record " in line or "data " in line
                names.add(found.group(1))
            elif within and found and line.startswith("  "):
                names.add(found.group(1))
            elif line and not line.startswith(" "):
                within = False
    return names


# what a lemma's name may begin with besides: words of the library, and of an operator
LIBRARY_WORDS = {"length", "take", "drop", "⊕"}


def renamings():
    listed = {}
    for line in read(os.path.join(TOP, "crates.txt")).splitlines():
        if line.strip() and not line.startswith("#"):
            name, rest = line.split(":")
            listed[name.split()[0]] = rest.split()
    shaped = {c: definitions(c) for c in crates()}
    to = {}
    for crate in crates():
        own = {n for p in files(".antt", "specs", "proofs", of=[crate]) for n in declared(p)}
        near = set().union(LIBRARY_WORDS, *(shaped.get(c, set()) for c in [crate, *listed.get(crate, [])]))
        # a constructor or a field is no word that a lemma's name begins with, nor is a name with no arguments to speak of
        words = sorted({w for d in near for w in (d, d.replace("_", "-"))} - {"bytes", "text", "key"}, key=len, reverse=True)
        for name in own:
            to[name] = name.replace("-", "_") if name in shaped[crate] else snake(name, words)
    return {a: b for a, b in to.items() if a != b}, set(to)


def fall_together(to, own):
    after = {}
    for name in sorted(own):
        after.setdefault(to.get(name, name).lower(), []).append(name)
    for new, olds in sorted(after.items()):
        if len(olds) > 1 and any(o in to for o in olds):
            print(f"respell: {' and '.join(olds)} are alike now, or but for case: {new}")


def turned(text, to):
    """text with the names turned, but for what stands in double quotes."""
    parts = re.split(r'("[^"\n]*")', text)
    return "".join(p if p.startswith('"') else TOKEN.sub(lambda m: to.get(m.group(0), m.group(0)), p) for p in parts)


def turned_source(text, to):
    lines = []
    for line in text.splitlines(keepends=True):
        code, mark, comment = line.partition("//")
        lines.append(turned(code, to) + mark + comment)
    return "".join(lines)


def renamed_crate():
    old, new = os.path.join(CRATES, "hex"), os.path.join(CRATES, "hexadecimal")
    if os.path.isdir(old):
        os.rename(old, new)
    listed = os.path.join(TOP, "crates.txt")
    text = re.sub(r"(?m)(?<![\w/])hex(?![\w-])", "hexadecimal", read(listed))
    with open(listed, "w", encoding="utf-8") as f:
        f.write(text)


def main():
    renamed_crate()
    to, own = renamings()
    to |= {"khazad-enciphered": "khazad_enciphered", "khazad-deciphered": "khazad_deciphered"}
    fall_together(to, own)
    for p in [*files(".antt", "specs", "proofs"), *files(".rt", "src"), *files(".edit", "must-fail")]:
        text = before = read(p)
        text = turned_source(text, to) if p.endswith(".rt") else turned(text, to)
        text = text.replace("Rattle.hex.", "Rattle.hexadecimal.")
        if p.endswith(".rt"):
            text = re.sub(r"\buse hex::", "use hexadecimal::", text)
            text = re.sub(r"«(khazad_(?:en|de)ciphered)»", r"\1", text)
        if text != before:
            with open(p, "w", encoding="utf-8") as f:
                f.write(text)
    print(f"respell: {len(to)} names")


main()
