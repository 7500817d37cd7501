#!/usr/bin/env python3
"""Brings this repository's own definitions and lemmas to the spelling of today's Rattle: words in snake case.

usage: python3 tools/respell.py        at the top, once, right after port.py

A name that is declared in specs/ or proofs/ (a definition, a lemma, a field, a constructor) and has a dash becomes one with
underscores. A dash stays only where it joins a function of lists to what it is applied to, as in length-hex. Names that Rattle
makes (answers to goals, fields of goals) are left alone, and so is all of src/ outside clauses and ghost items.
"""

import glob
import re

WORD = re.compile(r"[^\s(){}\[\].,;·:⌜⌝|]+")
DECLARED = re.compile(r"^\s*(?:(?:pub|abbrev|unfoldable)\s+)*([^\s:(){}.,]+(?:\s+[^\s:(){}.,]+)*)\s*(?:[({][^:]*:.*|:\s.*|:)$")
GOAL = re.compile(r":\s+(goal|need|given)\.")
APPLIED = ("length",)
MADE = ("invariant-", "decreases-", "loop-", "returns-")
SKIP = {"record", "data", "let", "in", "where", "use", "mod", "elim", "unfolding"}


def texts(*kinds):
    for kind in kinds:
        yield from sorted(glob.glob(f"crates/*/{kind}/**/*.antt", recursive=True))


def declared():
    names = set()
    for path in texts("specs", "proofs"):
        for line in open(path, encoding="utf-8"):
            if GOAL.search(line) or line.lstrip().startswith("--"):
                continue
            found = DECLARED.match(line)
            if found:
                words = found.group(1).split()
                if words[0] in SKIP:
                    words = words[1:2] if words[0] in ("record", "data") else []
                names.update(w for w in words if re.search(r"\w-\w", w) and not w.startswith(MADE))
    return names


def respelled(name):
    for function in APPLIED:
        if name.startswith(function + "-"):
            return function + "-" + name[len(function) + 1:].replace("-", "_")
    return name.replace("-", "_")


def turn(text, names):
    return WORD.sub(lambda m: names.get(m.group(0), m.group(0)), text)


def turn_source(text, names):
    """Only clauses, ghost items and ghost fields: what stands between braces on lines that begin one, and `ghost use` lines."""
    out, at = [], 0
    start = re.compile(r"(?m)^[ \t]*(?:pub )?(?:ghost\b|requires\b|ensures\b)")
    while True:
        found = start.search(text, at)
        if not found:
            out.append(text[at:])
            return "".join(out)
        out.append(text[at:found.start()])
        end, depth = found.start(), 0
        while end < len(text):
            if text[end] == "{":
                depth += 1
            elif text[end] == "}":
                depth -= 1
                if depth == 0:
                    end += 1
                    break
            elif text[end] == ";" and depth == 0:
                break
            end += 1
        out.append(turn(text[found.start():end], names))
        at = end


def main():
    names = {n: respelled(n) for n in declared()}
    names = {n: m for n, m in names.items() if n != m}
    for path in texts("specs", "proofs"):
        old = open(path, encoding="utf-8").read()
        new = turn(old, names)
        if new != old:
            open(path, "w", encoding="utf-8").write(new)
    for path in sorted(glob.glob("crates/*/src/**/*.rt", recursive=True)):
        old = open(path, encoding="utf-8").read()
        new = turn_source(old, names)
        if new != old:
            open(path, "w", encoding="utf-8").write(new)
    print(f"{len(names)} names")


if __name__ == "__main__":
    main()
