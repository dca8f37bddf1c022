#!/usr/bin/env python3
"""Brings this repository's own definitions and lemmas to today's spelling, behind port.py: words in snake case.

usage: tools/respell.py FOLDER      (FOLDER holds crates/; run once, right after port.py, at the same state)

A definition or a lemma that was in lower camel case (leAt) is written in snake case (le_at). In a lemma's name a dash
stays where it joins two names, of this repository's definitions or of the library's (splice-length); where it joins
plain words it becomes '_' (image_read). Where a lemma would then have a definition's name it gets '_lem'.
Types, facts and modules keep their upper camel case. Names of src/, strings and C names are not touched: of a .rt file only
'ghost use' lines and clauses are read. Must-fail edits are turned as the file is that they name.
It prints each renamed name, old and new, and stops where two names would fall together.
"""

import glob
import os
import re
import sys

LIBRARY = set("""length take drop set append get_or map zero suc nil cons reverse concat sum add mul sub div mod le lt eqb ltb leb
not and or if""".split())
# A private definition of two files, whose plain spelling is a theorem's name.
SPECIAL = {"tooLong": "over_long"}
NAME = r"[A-Za-zµμ][\w'′₀-₉-]*"
SIGNATURE = re.compile(rf"\s*(?:(?:abbrev|unfoldable|opaque|pub|ruleset)\s+)*({NAME})\s+:(?:\s|$)")
RULESET = re.compile(rf"\s*(?:pub )?ruleset ({NAME})\b")
FIELD = re.compile(rf"\s+pub ({NAME}) :")
CAMEL = re.compile(r"(?<=[a-z0-9])(?=[A-Z])")


def snake(word):
    if not word or not word[0].islower():
        return word
    return CAMEL.sub("_", word).lower() if re.search(r"[a-z0-9][A-Z]", word) else word


def files(root, *patterns):
    return sorted(f for p in patterns for f in glob.glob(os.path.join(root, "crates/*", p), recursive=True))


def signed(root, *patterns):
    names = set()
    for f in files(root, *patterns):
        for line in open(f, encoding="utf-8"):
            if line.lstrip().startswith("--"):
                continue
            m = SIGNATURE.match(line) or RULESET.match(line)
            if m:
                names.add(m[1])
    return names


def renaming(root):
    """Old name to new. A definition has its name before a lemma, and a lemma that is spelled right already before one that is not."""
    names = signed(root, "specs/*.antt", "proofs/*.antt")
    stated = signed(root, "specs/*.antt")
    new, taken = {}, {}

    def give(name, text):
        if text in taken:
            text += "_lem"
        if text in taken:
            sys.exit(f"respell: {name} and {taken[text]} fall together at {text}")
        new[name], taken[text] = text, name

    plain = [n for n in names if "-" not in n]
    for n in sorted(plain, key=lambda n: (n not in stated, n != snake(n), n)):
        give(n, SPECIAL.get(n, snake(n)))
    words = {new[n] for n in plain} | LIBRARY
    for n in sorted(names - set(plain)):
        parts = [("get_or" if p == "getD" else snake(p)) for p in n.split("-")]
        text = left = parts[0]
        for p in parts[1:]:
            joins = left in words and p in words
            text += ("-" if joins else "_") + p
            left = p if joins else left + "_" + p
        give(n, text)
    return {k: v for k, v in new.items() if k != v}


def turn(text, new):
    def one(m):
        return new.get(m[0], m[0])
    return re.sub(NAME, one, text)


def turn_rt(text, new):
    camel = {k: v for k, v in new.items() if "-" not in k}
    out, depth = [], 0
    for line in text.split("\n"):
        if depth or re.match(r"\s*(ghost use|requires|ensures|ghost|owns)\b", line) or line.lstrip().startswith("//"):
            if not line.lstrip().startswith("//"):
                depth += line.count("{") - line.count("}")
            line = turn(line, new if line.lstrip().startswith("//") else camel)
        out.append(line)
    return "\n".join(out)


def turn_edit(line, new, spec):
    """What port.py does to a definition, done to a line of an edit of one; of an edit of code only its clauses' words."""
    if not spec:
        return turn(line, {k: v for k, v in new.items() if "-" not in k})
    line = re.sub(NAME, lambda m: new.get(m[0], "get_or" if m[0] == "getD" else snake(m[0])), line)
    line = re.sub(r"(?<=[\w)]) \.(?=[a-z0-9])", ".", line)
    return re.sub(r"\(([a-z]\w*(?:\.\w+)+)\)", r"\1", line)


def main(root):
    new = renaming(root)
    for f in files(root, "specs/**/*.antt", "proofs/**/*.antt"):
        text = open(f, encoding="utf-8").read()
        turned = turn(text, new)
        if turned != text:
            open(f, "w", encoding="utf-8").write(turned)
    for f in files(root, "src/**/*.rt"):
        text = open(f, encoding="utf-8").read()
        turned = turn_rt(text, new)
        if turned != text:
            open(f, "w", encoding="utf-8").write(turned)
    for f in files(root, "must-fail/*.edit"):
        text = open(f, encoding="utf-8").read()
        spec = not re.search(r"^file: src/", text, re.M)
        turned = "".join(turn_edit(l, new, spec) if re.match(r"(old|new):", l) else l for l in text.splitlines(True))
        if turned != text:
            open(f, "w", encoding="utf-8").write(turned)
    for k in sorted(new):
        print(k, new[k])


if __name__ == "__main__":
    if len(sys.argv) != 2:
        sys.exit(__doc__)
    main(sys.argv[1])
