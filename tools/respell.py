#!/usr/bin/env python3
"""Spells the names of this repository's definitions, fields and lemmas as the library spells its own: words in snake case, a dash only
between two names, and `_lem` on a lemma that would have its definition's name.

usage: python3 tools/respell.py [FOLDER]      once, after port.py, at the top of the repository

The names are those of respell.tsv beside this file: the old one, a tab, the new one. In .antt files a name is a whole word of antt. In .rt
files and must-fail edits only names with a capital change, outside string literals, and in `ghost use` lines and clauses the others too.
"""
import os
import re
import sys

HERE = os.path.dirname(os.path.realpath(__file__))
# a word of antt, cut at what separates words, and at a dot
WORD = re.compile(r"[^\s(){}\[\].;,@\"«»:|`]+")
STRING = re.compile(r'b?"(?:[^"\\\n]|\\.)*"')
# a word of Rust, not part of a longer word of antt
PLAIN = re.compile(r"(?<![\w'-])[a-z]\w*(?![\w'])")


def table():
    with open(os.path.join(HERE, "respell.tsv"), encoding="utf-8") as rows:
        return dict(row.rstrip("\n").split("\t") for row in rows)


def of_antt(text, names):
    return WORD.sub(lambda m: names.get(m[0], m[0]), text)


def of_rust(text, names):
    """Code, with its clauses and `ghost use` lines: what stands between strings."""
    camel = {a: b for a, b in names.items() if re.search("[A-Z]", a)}
    out, at = [], 0
    for s in STRING.finditer(text):
        out += [PLAIN.sub(lambda m: camel.get(m[0], m[0]), text[at:s.start()]), s[0]]
        at = s.end()
    out.append(PLAIN.sub(lambda m: camel.get(m[0], m[0]), text[at:]))
    text = "".join(out)
    clause = lambda m: of_antt(m[0], names)
    text = re.sub(r"(?m)^\s*(?:pub )?ghost use [^;]*;", clause, text)
    return re.sub(r"(?m)^\s*(?:requires|ensures)\*?(?: \w+)? \{.*\}\s*$", clause, text)


def main(root):
    names = table()
    changed = 0
    for folder, below, files in os.walk(os.path.join(root, "crates")):
        below[:] = [it for it in below if it != "out"]
        for it in files:
            if not it.endswith((".antt", ".rt", ".edit")):
                continue
            path = os.path.join(folder, it)
            with open(path, encoding="utf-8") as f:
                old = f.read()
            new = of_antt(old, names) if it.endswith(".antt") else of_rust(old, names)
            if new != old:
                changed += 1
                with open(path, "w", encoding="utf-8") as f:
                    f.write(new)
    print(f"respell: {changed} files, {len(names)} names")


if __name__ == "__main__":
    main(sys.argv[1] if len(sys.argv) > 1 else ".")
