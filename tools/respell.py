#!/usr/bin/env python3
"""Respells the repository's own definitions and lemmas: words in snake case.

Run once, at the top, after the port to rattle-kit-13f. A dash stays only where it joins the names
of two definitions, as in length-hex. It goes by text, over the whole of each .rt and .antt file: a word
turns wherever it stands. Functions of src/ and the text of strings have no such word, and generated
names are left alone.
"""
import glob
import os
import re
import sys

TOP = os.path.dirname(os.path.dirname(os.path.abspath(__file__)))
WORD = r"[A-Za-z0-9_'\-\u2080-\u2089\u0370-\u03ff\u2115\u2124+]"

# names that would fall together with another one, and what they are called instead
CHOSEN = {
    "entry-line": "line_of_entry",
    "fault-line": "line_of_fault",
}

# lemmas whose dash joins the names of two definitions
JOINED = {
    "length-hex", "length-shown", "length-switches", "length-listed", "end-reverse", "place-reverse",
    "start-reverse", "map-removed", "hexes-++", "lacks-append", "each-push", "pairs-push", "sound-push",
    "single-push", "tally-push", "read-push", "each-removed", "pairs-removed", "sound-removed",
    "single-removed",
}

DECLARED = re.compile(
    r"^(\s*)((?:(?:abbrev|unfoldable|pub|data|record|ruleset) )*)([^\s:(){}.,;=]+)\s*"
    r"(?:\{[^}\n]*\}\s*|\([^\n]*?\)\s*)*(:|=)", re.M)


def read(path):
    with open(path, encoding="utf-8") as f:
        return f.read()


def files():
    found = []
    for ext in ("antt", "rt"):
        found += glob.glob(f"{TOP}/crates/*/**/*.{ext}", recursive=True)
    return sorted(f for f in found if "/out/" not in f)


def is_odd(name):
    return "-" in name and name.strip("-") != "" or re.search(r"^[a-z].*[a-z0-9][A-Z]", name)


def snake(name):
    name = name.replace("-", "_")
    return re.sub(r"([a-z0-9])([A-Z])", lambda m: m.group(1) + "_" + m.group(2).lower(), name)


def declared(texts):
    own = {}
    for path, text in texts.items():
        if not path.endswith(".antt"):
            continue
        # what Rattle asks for by name
        asked = set(re.findall(r":\s*goal\.([^\s{(]+)", text))
        for m in DECLARED.finditer(text):
            name = m.group(3)
            # a measure or an invariant, which Rattle names
            if name in asked or name.startswith(("loop-", "returns-", "invariant-", "decreases-")) and path.endswith(("Answers.antt", "Invariants.antt")):
                continue
            if name[0].isalpha() and is_odd(name):
                own.setdefault(name, set()).add(path)
    return own


def main():
    texts = {f: read(f) for f in files()}
    own = declared(texts)
    turned = {}
    for name in own:
        if name in JOINED:
            continue
        turned[name] = CHOSEN.get(name, snake(name))
    # names that fall together
    tokens = {}
    for path, text in texts.items():
        for t in set(re.findall(WORD + "+", text)):
            tokens.setdefault(t, set()).add(path)
    for name, new in sorted(turned.items()):
        if new in tokens:
            print("exists:", name, new, sorted(own[name])[0], sorted(tokens[new])[:3], file=sys.stderr)
    news = {}
    for name, new in turned.items():
        news.setdefault(new, []).append(name)
    for new, olds in news.items():
        if len(olds) > 1:
            print("together:", new, olds, file=sys.stderr)
    if "--list" in sys.argv:
        for name, new in sorted(turned.items()):
            print(name, new, len(own[name]))
        return
    for path, text in texts.items():
        def turn(m):
            return turned.get(m.group(0), m.group(0))
        # a token is a whole run of name characters; one that is behind `goal.` or `c.` is no definition's
        new = re.sub(WORD + "+", turn, text)
        if new != text:
            with open(path, "w", encoding="utf-8") as f:
                f.write(new)


main()
