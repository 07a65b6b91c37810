#!/usr/bin/env python3
"""Brings the repository's own names in specs/ and proofs/ to one spelling, once: python3 tools/respell.py at the top.

Types are in upper camel case; functions, lemmas, fields and constructors are in snake case. A dash stays in the name of a
lemma where both its sides are names of functions, and is an underscore elsewhere. Names that Rattle makes stay as they are.
It renames words of .rt and .antt files of crates/, and of the edits of crates/ and planted/; it says which names fall together.
"""

import collections
import glob
import os
import re
import sys

DECLARED = re.compile(r"^(\s*)((?:(?:abbrev|unfoldable|pub|record|data|ruleset)\s+)*)([^\s:(){}.,;]+)((?:\s+[({].*?[)}])*)\s*:\s+(.*)$")
MADE = re.compile(r"(returns|loop|in|then|else|if|overflow|bounds|nonzero|slice_bounds|invariant|decreases|prove)([-_].*)?$")
# `first_of` is a tactic, and `ReadsBack` is a name already
CHOSEN = {"firstOf": "first_fault", "Reads-back": "WritingReadsBack"}
LIBRARY = set("length take drop append map reverse set get get_or sum min max add mul sub cond not nil cons".split())


def files():
    for top, dirs, names in os.walk("crates"):
        dirs[:] = [d for d in dirs if d != "out"]
        for name in sorted(names):
            if name.endswith((".rt", ".antt")):
                yield os.path.join(top, name)


def answer(path):
    return os.path.basename(path) in ("Answers.antt", "Invariants.antt", "Proof.antt", "Choices.antt")


def declarations():
    """Each declared name with its kinds: type, field, function, lemma."""
    kinds = collections.defaultdict(set)
    for path in files():
        if not path.endswith(".antt"):
            continue
        inside = None
        with open(path, encoding="utf-8") as f:
            lines = f.read().split("\n")
        for line in lines:
            if line.strip() and not line.startswith((" ", "--")):
                inside = "fields" if re.match(r"(pub |abbrev |unfoldable )*(record|data) ", line) else None
            m = DECLARED.match(line)
            if not m or line.strip().startswith(("--", "let ")):
                continue
            indent, words, name, _, rest = m.groups()
            words = words.split()
            made = answer(path) and re.match(r"(goal|need|given)\.", rest)
            if made or not re.match(r"[^\W\d]", name):
                continue
            if "record" in words or "data" in words:
                kinds[name].add("type")
            elif indent and inside == "fields":
                kinds[name].add("field")
            elif re.search(r"Type 0\s*$", rest):
                kinds[name].add("type")
            elif "abbrev" in words or "unfoldable" in words:
                kinds[name].add("function")
            else:
                kinds[name].add("lemma")
    return kinds


def snake(word):
    return re.sub(r"(?<=[a-z0-9])([A-Z])", r"_\1", word).lower()


def camel(name):
    return "".join(w[:1].upper() + w[1:] for w in re.split(r"[-_]", name))


def respelt(name, kinds, functions):
    if "type" in kinds and name[:1].isupper():
        return camel(name)
    parts = [snake(p) if p[:1].islower() else p for p in name.split("-")]
    if "field" in kinds or "function" in kinds:
        return "_".join(parts)
    out = parts[0]
    for left, right in zip(parts, parts[1:]):
        out += ("-" if left in functions and right in functions else "_") + right
    return out


def main():
    kinds = declarations()
    functions = LIBRARY | {snake(n) for n, k in kinds.items() if "function" in k}
    turned = {}
    for name, kind in kinds.items():
        if MADE.match(name) and "function" not in kind and "field" not in kind and "type" not in kind:
            continue
        new = respelt(name, kind, functions)
        if new != name:
            turned[name] = new
    turned.update((name, new) for name, new in CHOSEN.items() if name in kinds)
    together = collections.defaultdict(set)
    for name in kinds:
        together[turned.get(name, name)].add(name)
    for new, olds in sorted(together.items()):
        lemmas = [name for name in olds if kinds[name] == {"lemma"}]
        if len(olds) > 1 and len(olds) == len(lemmas) + 1:
            for name in lemmas:
                turned[name] = new + "_lem"
        elif len(olds) > 1:
            print("fall together:", new, sorted((name, *kinds[name]) for name in olds))
    pattern = re.compile(r"(?<![\w'\u2080-\u2089-])(" + "|".join(sorted(map(re.escape, turned), key=len, reverse=True)) + r")(?![\w'\u2080-\u2089-])")
    places = 0
    for path in list(files()) + sorted(glob.glob("crates/*/must-fail/*.edit") + glob.glob("planted/*/*.edit")):
        with open(path, encoding="utf-8") as f:
            text = f.read()
        new, n = pattern.subn(lambda m: turned[m[1]], text)
        if n:
            places += n
            if "--dry" not in sys.argv:
                with open(path, "w", encoding="utf-8") as f:
                    f.write(new)
    if "--list" in sys.argv:
        for name in sorted(turned):
            print(f"{name} -> {turned[name]} ({', '.join(sorted(kinds[name]))})")
    print(f"{len(turned)} names, {places} places")


main()
