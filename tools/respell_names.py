#!/usr/bin/env python3
"""Respells the repository's own definitions and lemmas as today's Rattle spells names, and was run once, after the kit's port.py.

usage: python3 tools/respell_names.py [--list]     at the top of the repository; --list prints the pairs and writes nothing

A type or a fact is written in upper camel case. Everything else is in snake case, but in a lemma a dash still joins two names, that is
words that themselves name a definition of this repository or one of the words of the library that stand in JOINED.
Names that Rattle makes (goals, steps) are left alone, and so are strings and the names of functions in src/.
"""

import glob
import re
import sys

TOKEN = r"[^\s(){}\[\];:.,@\"]+"
DECLARED = re.compile(r"\s*(?:abbrev |unfoldable )?(?:pub )?(?:data |record |ruleset )?(" + TOKEN + r")(?:\s+[({].*)?\s:\s(.*)$")
# words of the library, as they stand in the names of lemmas
JOINED = ["length", "append", "drop", "take", "map", "replicate", "cons", "get_or", "sum", "sum_by", "add", "sub", "mul", "mod", "minus", "zero", "suc", "cond", "or_else", "count", "total", "head"]
# definitions whose names are plain words in the name of a lemma
PLAIN = ["back", "to", "up", "given", "key", "sized", "after", "same", "laws", "here", "read", "left"]
# spellings of the library's words that changed
WORDS = {"getD": "get_or", "sumBy": "sum_by", "remEuclid": "rem_euclid"}


def sources():
    specs = sorted(glob.glob("crates/*/specs/**/*.antt", recursive=True))
    proofs = sorted(glob.glob("crates/*/proofs/**/*.antt", recursive=True))
    return specs, proofs


def declared(path):
    for line in open(path, encoding="utf-8"):
        m = DECLARED.match(line)
        if m and not re.match(r"(goal|need)\.", m.group(2)) and not line.lstrip().startswith(("use ", "--", "let ", "ghost use ", "pub use ")):
            yield m.group(1), m.group(2)


def is_type(name):
    return name[0].isupper() and len(name) > 1


def camel(name):
    return "".join(part[0].upper() + part[1:] for part in name.split("-"))


def snake(name):
    return "_".join(WORDS.get(part, part) for part in name.split("-"))


def lemma(name, known):
    """Segments the words of a lemma's name: the longest known names, joined by dashes, and plain words by underscores."""
    parts = [WORDS.get(p, p) for p in name.split("-")]
    pieces, i = [], 0
    while i < len(parts):
        for j in range(len(parts), i, -1):
            if "_".join(parts[i:j]) in known:
                pieces.append(("_".join(parts[i:j]), True))
                i = j
                break
        else:
            pieces.append((parts[i], False))
            i += 1
    out = pieces[0][0]
    for (_, before), (word, named) in zip(pieces, pieces[1:]):
        out += ("-" if before and named else "_") + word
    return out


def mapping():
    specs, proofs = sources()
    defined, lemmas = {}, {}
    for path in specs:
        for name, kind in declared(path):
            defined.setdefault(name, path)
    for path in proofs:
        for name, kind in declared(path):
            if name not in defined:
                lemmas.setdefault(name, path)
    pairs = {}
    for name in defined:
        if "-" in name:
            pairs[name] = camel(name) if is_type(name) else snake(name)
    known = set(JOINED) | {pairs.get(n, n) for n in defined if not is_type(n)} - set(PLAIN)
    for name in lemmas:
        if any(w in name for w in ["-", *WORDS]):
            pairs[name] = camel(name) if is_type(name) else lemma(name, known)
    return {old: new for old, new in pairs.items() if old != new}


def bound(path, text, names):
    """The names with a dash that a file of definitions or lemmas binds itself: parameters, variables and fields of records on the spot."""
    imported = {n for line in re.findall(r"(?m)^\s*(?:pub )?use .*$", text) for n in re.findall(TOKEN, line)}
    found = set(re.findall(r"(?<![^\s(){}\[\];:,@])([A-Za-z_0-9']+(?:-[A-Za-z_0-9']+)+)(?![^\s(){}\[\];:.,@\"])", re.sub(r"--.*|\"[^\"]*\"", "", text)))
    return {n: snake(n) for n in found - imported - names if not re.match(r"(loop|returns|invariant|decreases|overflow|offset|bounds|slice|in|if|else)-", n)}


def main(argv):
    pairs = mapping()
    if argv == ["--list"]:
        for old, new in sorted(pairs.items()):
            print(old, new)
        return 0
    token = re.compile(r"(?<![^\s(){}\[\];:.,@λ←→×·])(" + "|".join(re.escape(n) for n in sorted(pairs, key=len, reverse=True)) + r")(?![^\s(){}\[\];:.,@\"])")
    specs, proofs = sources()
    lemmas = set(pairs.values()) | {name for path in specs + proofs for name, _ in declared(path)}
    for path in specs + proofs + sorted(glob.glob("crates/*/src/**/*.rt", recursive=True)):
        text = open(path, encoding="utf-8").read()
        turned = token.sub(lambda m: pairs[m.group(1)], text)
        if path.endswith(".antt") and not path.endswith(("Answers.antt", "Invariants.antt", "Choices.antt", "Proof.antt")):
            own = bound(path, turned, lemmas)
            if own:
                turned = re.sub(r"(?<![^\s(){}\[\];:,@λ.])(" + "|".join(map(re.escape, sorted(own, key=len, reverse=True))) + r")(?![^\s(){}\[\];:.,@\"])", lambda m: own[m.group(1)], turned)
        if turned != text:
            open(path, "w", encoding="utf-8").write(turned)
    return 0


if __name__ == "__main__":
    raise SystemExit(main(sys.argv[1:]))
