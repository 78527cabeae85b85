#!/usr/bin/env python3
"""Brings the repository's own definitions and lemmas to the spelling of today's Rattle: words in snake case, as `spectrum_of` for `spectrumOf`.

usage: tools/respell-names.py [--check] [FOLDER]      FOLDER: the repository's root, by default the folder above this one

It was run once, directly after the toolchain's own script had turned the spelling of the language and its library (docs/PORT.md), and is kept so that
anyone can turn the text of before and compare. Names of types, facts and modules begin with a capital and stay; so do the functions of src/, which are
in snake case, and whatever stands in a string. It turns .antt, .rt and .edit files, and the names that the documents and the comments of the second
implementation cite. With --check it writes nothing, and lists each new name that some other name already has.
"""
import os
import re
import sys

# A word that begins small and has a capital inside; a lemma's name may join several by dashes.
CAMEL = re.compile(r"(?<![A-Za-z0-9_])[a-z][a-z0-9]*(?:[A-Z][a-z0-9]*)+(?![A-Za-z0-9_])")
# A word of the library's before, that has another name now.
FOREIGN = {"getD": "get_or"}
# Lemmas that lost their dash to the toolchain's script, and would fall together with a definition.
LEMMAS = ("at_first at_second fields_fit line_refused lines_after pair_fits pair_line in_place opened_rows same_bits").split()
LEMMA = re.compile(r"(?<![\w'-])(" + "|".join(LEMMAS) + r")(?![\w'-])")
STRING = re.compile(r'"(?:[^"\\\n]|\\.)*"')


def snake(name):
    if name in FOREIGN:
        return FOREIGN[name]
    return re.sub(r"([A-Z])", lambda m: "_" + m.group(1).lower(), name)


def turned(text, keep_strings):
    parts, at = [], 0
    if keep_strings:
        for m in STRING.finditer(text):
            parts.append(CAMEL.sub(lambda n: snake(n.group(0)), text[at : m.start()]))
            parts.append(m.group(0))
            at = m.end()
    parts.append(CAMEL.sub(lambda n: snake(n.group(0)), text[at:]))
    return "".join(parts)


def files(root):
    for folder, dirs, names in os.walk(root):
        dirs[:] = sorted(d for d in dirs if d not in (".git", "out", "target"))
        for name in sorted(names):
            path = os.path.join(folder, name)
            inside = os.path.relpath(path, root)
            if name.endswith((".antt", ".rt", ".edit")) and inside.startswith("crates/"):
                yield path
            elif name.endswith(".md") and not inside.startswith("docs/PORT"):
                yield path


def main(words):
    check = "--check" in words
    words = [w for w in words if w != "--check"]
    root = words[0] if words else os.path.join(os.path.dirname(os.path.realpath(__file__)), "..")
    texts = {}
    for path in files(root):
        with open(path, encoding="utf-8", newline="") as f:
            texts[path] = f.read()
    if check:
        there, new = {}, {}
        for path, text in texts.items():
            if path.endswith((".antt", ".rt")):
                for w in set(re.findall(r"(?<![\w])[A-Za-z_]\w*", text)):
                    there.setdefault(w, []).append(os.path.relpath(path, root))
                for w in set(CAMEL.findall(text)):
                    new.setdefault(snake(w), set()).add(w)
        for w in sorted(new):
            if w in there or len(new[w]) > 1:
                print(w, sorted(new[w]), there.get(w, [])[:6])
        return 0
    for path, text in texts.items():
        if path.endswith(".antt"):
            text = LEMMA.sub(lambda m: m.group(1).replace("_", "-"), text)
        now = turned(text, path.endswith((".rt", ".antt")))
        if now != texts[path]:
            with open(path, "w", encoding="utf-8", newline="") as f:
                f.write(now)
            print(os.path.relpath(path, root))
    return 0


sys.exit(main(sys.argv[1:]))
