#!/usr/bin/env python3
"""Brings the names of this repository's own definitions and lemmas to one spelling: words in snake case, types and facts in camel case.

usage: python3 tools/respell.py [--list]      at the top of a checkout, once, after the kit's own port.py

It looks for the names declared in the specs/ and proofs/ of every crate (not those of goals, which the prover gives), works out
their new spelling and writes it wherever the name stands as a word of its own in .rt, .antt and .edit files. Two names that would
fall together stop it before anything is written.
"""

import os
import re
import sys

DECLARED = re.compile(r"^(\s*)((?:(?:abbrev|unfoldable|pub|data|record) )*)([^\s:{}()=,.]+)((?: [({][^)}]*[)}])*)\s*:\s*(.*)$")
# Names that would otherwise fall together with another.
CHOSEN = {"after-all": "state_after_all", "same-status": "status_same", "sameBit": "is_same_bit", "bit-and": "and_bit", "bit-or": "or_bit"}
ODD = re.compile(r"-|[a-z0-9][A-Z]")


def files():
    for folder, dirs, names in os.walk("crates"):
        dirs[:] = sorted(d for d in dirs if d != "out")
        for name in sorted(names):
            if name.endswith((".rt", ".antt", ".edit")):
                yield os.path.join(folder, name)


def is_fact(keywords, signature):
    words = keywords.split()
    return "data" in words or "record" in words or bool(re.search(r"Type 0( where)?$", signature))


def snake(name):
    name = name.replace("getD", "get_or").replace("-", "_")
    name = re.sub(r"([a-z0-9])([A-Z])", r"\1_\2", name)
    return name if name[0].isupper() else name.lower()


def camel(name):
    return "".join(part[0].upper() + part[1:] for part in name.split("-") if part)


def declared():
    """Each odd name that a page of definitions or lemmas declares, with its new spelling."""
    new = {}
    for path in files():
        parts = path.split(os.sep)
        if not path.endswith(".antt") or parts[2] not in ("specs", "proofs"):
            continue
        for line in open(path, encoding="utf-8"):
            found = DECLARED.match(line.rstrip("\n"))
            if not found or line.lstrip().startswith(("--", "let ", "use ")):
                continue
            _, keywords, name, _, signature = found.groups()
            if signature.startswith("goal.") or not ODD.search(name):
                continue
            fact = is_fact(keywords, signature)
            to = CHOSEN.get(name) or (camel(name) if fact else snake(name))
            if name in new and new[name] != to:
                sys.exit(f"respell: {name} is a fact in one place and a word in another")
            new[name] = to
    return {a: b for a, b in new.items() if a != b}


def main():
    new = declared()
    word = re.compile(r"(?<![\w'-])(" + "|".join(sorted(map(re.escape, new), key=len, reverse=True)) + r")(?![\w'-])")
    texts = {path: open(path, encoding="utf-8").read() for path in files()}
    targets = {}
    for a, b in new.items():
        targets.setdefault(b, []).append(a)
    bad = 0
    for b, olds in sorted(targets.items()):
        if len(olds) > 1:
            print(f"respell: {', '.join(olds)} would all be {b}")
            bad += 1
        taken = re.compile(r"(?<![\w'-])" + re.escape(b) + r"(?![\w'-])")
        # A function of src/ may have the name of the definition that says what it returns.
        for path, text in texts.items():
            if path.endswith(".antt") and any(re.search(r"(?<![\w'-])" + re.escape(a) + r"(?![\w'-])", text) for a in olds) and taken.search(text):
                print(f"respell: {path} has {b} beside {', '.join(olds)}")
                bad += 1
    if "--list" in sys.argv:
        for a, b in sorted(new.items()):
            print(a, b)
        return
    if bad:
        sys.exit(f"respell: {bad} places to look at; nothing was written")
    for path, text in texts.items():
        turned = word.sub(lambda m: new[m.group(1)], text)
        if turned != text:
            with open(path, "w", encoding="utf-8") as f:
                f.write(turned)


main()
