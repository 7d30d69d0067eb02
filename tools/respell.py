#!/usr/bin/env python3
"""Spells the names of this repository's own definitions, lemmas and record fields in snake case (facts in camel case).

usage: python3 tools/respell.py [--dry]      at the top of the repository, once, right after /opt/rattle/port/port.py

A name of ours is one that an .antt file of crates/ declares with a dash in it: at the top, in a `where` block, as a field of
a record, or as the `as` of an import. Names of the library, names that Rattle makes (goals, steps and their fields), comments,
strings and the code of src/ stay. It prints what it changed and what would meet another name.
"""

import collections
import os
import re
import sys

NAME = r"[^\s(){}\[\],;.:\"@«»λ∷]+"
TOKEN = re.compile(r"(?<![^\s(){}\[\],;.\"@«»λ∷])(" + NAME + r")(?![^\s(){}\[\],;.:\"@«»∷])")
DECLARED = re.compile(r"^ *(?:abbrev |unfoldable |package |pub |record |data |let )*(" + NAME + r")(?: *\{[^{}\n]*\})* :(?= |$)")
LET = re.compile(r"\blet (" + NAME + r")(?= =| :|$)")
PARTS = re.compile(r"\(((?:" + NAME + r" )+): ")
ALIAS = re.compile(r" as (" + NAME + r")(?=[,}])")
USE = re.compile(r"^(?:ghost )?(?:pub )?use ([^\s;{]+)\.\{([^}]*)\};?$")
OWN = ("schedule", "rules", "frames", "machine", "mesh", "planner", "meshplan", "examples", "runner", "meshrun")
# facts and places where a plain underscore would meet another name of ours
SPECIAL = {
    "Collections-back": "CollectionsBack",
    "Words-back": "WordsBack",
    "One-frame": "OneFrame",
    "One-given": "OneGiven",
    "One-spelling": "OneSpelling",
    "Told-apart": "ToldApart",
}


def files():
    for folder, dirs, names in os.walk("crates"):
        dirs[:] = sorted(d for d in dirs if d != "out")
        for name in sorted(names):
            if name.endswith((".antt", ".rt")):
                yield os.path.join(folder, name)


def parted(path, line):
    """The line's code and its comment. A string of src/ is cut out by the caller."""
    mark = "--" if path.endswith(".antt") else "//"
    m = re.search(r"(?<!\S)" + mark + r"(?!\S*\S-)", line) if mark == "--" else re.search(mark, line)
    return (line[: m.start()], line[m.start() :]) if m else (line, "")


def is_own(module):
    steps = module.split(".")
    return steps[0] == "Rattle" and len(steps) > 1 and steps[1] in OWN


def made(path, text):
    """The names in a file that Rattle makes or that a library has."""
    kept = set(re.findall(r"goal\.(" + NAME + r")", text))
    for line in text.split("\n"):
        m = USE.match(line)
        if m and (not is_own(m[1]) or m[1].endswith((".Goals", ".Given"))):
            for it in m[2].split(","):
                kept.add(it.split(" as ")[0].strip())
                if " as " not in it:
                    kept.add(it.strip())
    return kept


def main():
    dry = "--dry" in sys.argv
    texts = {p: open(p, encoding="utf-8").read() for p in files()}
    own, fields, homes = set(), set(), collections.defaultdict(set)
    for p, t in texts.items():
        kept = made(p, t)
        for m in ALIAS.finditer(t):
            if "-" in m[1]:
                own.add(m[1])
        if not p.endswith(".antt"):
            continue
        inside = False
        for line in t.split("\n"):
            code, _ = parted(p, line)
            if re.match(r"^(pub )?record .* where", code):
                inside = True
                continue
            if code and not code.startswith(" "):
                inside = False
            found = [m[1] for m in [DECLARED.match(code)] if m] + LET.findall(code)
            found += [x for m in PARTS.finditer(code) for x in m[1].split()]
            for name in found:
                if "-" in name.strip("-") and name not in kept and not name.startswith("◌") and re.match(r"\w", name):
                    own.add(name)
                    homes[name].add(p)
                    if inside and DECLARED.match(code) and DECLARED.match(code)[1] == name:
                        fields.add(name)
    turned = {name: SPECIAL.get(name, re.sub(r"(?<=\w)-(?=\w)", "_", name)) for name in own}
    turned = {a: b for a, b in turned.items() if a != b}
    meets = collections.defaultdict(set)
    count = 0
    for p, t in texts.items():
        kept = made(p, t)
        have = {m[1] for m in TOKEN.finditer("\n".join(parted(p, line)[0] for line in t.split("\n")))}
        out = []
        for line in t.split("\n"):
            code, comment = parted(p, line)

            def turn(m):
                nonlocal count
                name, after_dot = m[1], code[: m.start()].endswith(".") and not code[: m.start()].endswith("..")
                if name not in turned or name in kept:
                    return name
                if after_dot and name not in fields:
                    return name
                if turned[name] in have:
                    meets[(name, turned[name])].add(p)
                count += 1
                return turned[name]

            if p.endswith(".rt"):
                code = "".join(s if i % 2 else TOKEN.sub(turn, s) for i, s in enumerate(re.split(r'("(?:[^"\\]|\\.)*")', code)))
            else:
                code = TOKEN.sub(turn, code)
            out.append(code + comment)
        if not dry:
            with open(p, "w", encoding="utf-8") as f:
                f.write("\n".join(out))
    for (a, b), ps in sorted(meets.items()):
        print(f"meets: {a} -> {b}: {', '.join(sorted(ps))}")
    print(f"respell: {len(turned)} names, {count} places")


main()
