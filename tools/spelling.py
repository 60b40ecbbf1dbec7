#!/usr/bin/env python3
"""Brings the repository's own definitions and lemmas to one spelling: words in snake case.

usage: python3 tools/spelling.py [--list]      at the top of the repository, once, right after the kit's port.py

A name declared in specs/ or in a file of lemmas loses its camel case ('lineLength' becomes 'line_length') and its dashes ('and-left' becomes
'and_left'), except a dash that joins the names of two definitions, as the kit's own style has it ('outputs-append'). Names of functions, of types
and of what Rattle makes of the source stay. It stops, and writes nothing, where two names would fall together.
"""
import glob
import os
import re
import sys

TOKEN = r"[^\s(){}\[\];,.λ→]+"
DECLARED = re.compile(r"^(\s*)(?:(?:unfoldable|abbrev)\s+)?(?:pub\s+)?(" + TOKEN + r") : ")
RULES = re.compile(r"^\s*(?:pub\s+)?ruleset\s+(" + TOKEN + r")")
USES = re.compile(r"use\s+([^\s{;]+?)\.\{([^}]*)\}", re.S)
# words of the library that stand in names of ours as the second or first of two definitions
# a field beside the definition that it speaks of
OTHERWISE = {"all_hold": "each_holds"}
LIBRARY = set("append length take drop set get_or map reverse sum abs nat_abs limit cons ext neg mono".split())


def lemma_files():
    """Files that declare names of ours: specs/, and files of lemmas; not a function's own proof, whose names Rattle makes."""
    for p in sorted(glob.glob("crates/*/specs/**/*.antt", recursive=True)):
        yield p
    for p in sorted(glob.glob("crates/*/proofs/*.antt")):
        yield p


def all_files():
    for pattern in ("crates/*/specs/**/*.antt", "crates/*/proofs/**/*.antt", "crates/*/src/**/*.rt"):
        yield from sorted(glob.glob(pattern, recursive=True))


def read(p):
    with open(p, encoding="utf-8") as f:
        return f.read()


def declared():
    names, defined = set(), set()
    for p in lemma_files():
        for line in read(p).split("\n"):
            m = DECLARED.match(line) or RULES.match(line)
            if m:
                n = m.group(m.lastindex)
                names.add(n)
                if "/specs/" in p and re.match(r"(unfoldable|abbrev)", line):
                    defined.add(snake(n))
    return names, defined


def snake(n):
    return re.sub(r"(?<=[a-z0-9])([A-Z])", lambda m: "_" + m.group(1).lower(), n) if re.match(r"[a-z]", n) else n


def parts_named(parts, defined):
    """Joins the parts by '_' within a definition's name, and by '-' between two such names; None where they are not all such names."""
    if not parts:
        return []
    for k in range(len(parts), 0, -1):
        word = "_".join(parts[:k])
        if word in defined or word in LIBRARY:
            rest = parts_named(parts[k:], defined)
            if rest is not None:
                return [word] + rest
    return None


def spelled(n, defined):
    s = "-".join(snake(x) for x in n.split("-")) if "-" in n else snake(n)
    words = s.split("-")
    if len(words) > 1 and all(re.fullmatch(r"[A-Za-z][\w']*", w) for w in words):
        named = parts_named(words, defined)
        if named and len(named) > 1:
            return "-".join(named)
    return re.sub(r"(?<=[A-Za-z0-9'])-(?=[A-Za-z0-9])", "_", s)


def foreign(text):
    """Names that the file imports from a library."""
    out = set()
    for path, items in USES.findall(text):
        if not path.startswith("Rattle.") or path.startswith("Rattle.std."):
            out |= {x.split(" as ")[-1].strip() for x in items.split(",")}
    return out


def made(p, text):
    """Names that a function's own proof declares: Rattle made them of the source."""
    if not re.search(r"crates/\w+/proofs/.+/(Proof|Answers|Invariants)\.antt$", p):
        return set()
    return {m.group(2) for m in map(DECLARED.match, text.split("\n")) if m}


def turn(text, table):
    word = re.compile(r"(?<![^\s(){}\[\];,.λ→`])(" + "|".join(sorted(map(re.escape, table), key=len, reverse=True)) + r")(?![^\s(){}\[\];,.`])")
    quoted = re.compile(r"`([^`\s]+)`")
    lines = []
    for line in text.split("\n"):
        if line.strip().startswith(("--", "//", "#")):  # in a comment only what is quoted as a name
            lines.append(quoted.sub(lambda m: "`" + table.get(m.group(1), m.group(1)) + "`", line))
        else:
            lines.append(word.sub(lambda m: table[m.group(1)], line))
    return "\n".join(lines)


def main():
    names, defined = declared()
    table = {n: spelled(n, defined) for n in sorted(names)}
    table.update(OTHERWISE)
    table = {a: b for a, b in table.items() if a != b}
    # a lemma that would have the name of a definition gets `_lem`, as the kit's own style has it
    taken = {b for a, b in table.items() if "-" not in a} | {"count_of", "side_of", "in_float"}
    table = {a: b + "_lem" if "-" in a and b in taken else b for a, b in table.items()}
    if "--list" in sys.argv:
        for a, b in table.items():
            print(a, b)
        return 0
    bad = 0
    by_new = {}
    for a, b in table.items():
        by_new.setdefault(b, set()).add(a)
    for b, olds in sorted(by_new.items()):
        if len(olds) > 1:
            print("fall together:", b, sorted(olds))
            bad += 1
    files = []
    for p in all_files():
        text = read(p)
        here = {a: b for a, b in table.items() if a not in foreign(text) and a not in made(p, text)}
        tokens = set(re.findall(TOKEN, text))
        for a, b in here.items():
            if p.endswith(".antt") and "/Proof.antt" not in p and a in tokens and b in tokens and b not in OTHERWISE:
                print("stands already:", p, a, b)
                bad += 1
        files.append((p, turn(text, here)))
    if bad:
        return 1
    for p, text in files:
        with open(p, "w", encoding="utf-8") as f:
            f.write(text)
    return 0


if __name__ == "__main__":
    raise SystemExit(main())
