#!/usr/bin/env python3
"""Spells the repository's own definitions and lemmas as today's Rattle does. Run once, at the top, after port.py.

usage: python3 tools/spell.py [--check]      lays the files out by `rt fmt` at the end

A word is in snake case, a fact (what answers a type) in upper camel case, a constant as the code spells it. A dash stays
before a capital. Functions, fields and parameters of src/, strings and outputs keep their names.
--check writes nothing and names the words that would fall together in one file.
"""

import collections
import os
import re
import subprocess
import sys

# A fact that was spelled as a word, by the folder that declares it: old, new.
FACTS = {
    ("listing", "fewer"): "IsFewer",
    ("listing", "fairly"): "IsFairly",
    ("listing", "fair"): "IsFair",
    ("snoop", "left"): "IsLeft",
    ("snoop", "noted"): "IsNoted",
    ("rules", "onEntriesFlags"): "OnEntriesFlags",
    ("theory", "lineIs"): "LineIs",
    ("theory", "wordIs"): "WordIs",
    ("theory", "sees"): "SeesValue",
    ("theory", "backAgrees"): "BackAgrees",
    ("theory", "agrees"): "Agrees",
    ("theory", "backBelow"): "BackBelow",
    ("theory", "ordered"): "IsOrdered",
    ("theory", "coarse"): "IsCoarse",
    ("theory", "hits"): "Hits",
    ("theory", "below"): "IsBelow",
    ("theory", "fineBack"): "IsFineBack",
    ("theory", "fine"): "IsFine",
    ("caches", "none"): "HasNone",
    ("caches", "searched"): "IsSearched",
}

# A lemma that would have its definition's name.
LEMMAS = {
    ("runs", "all_are"): "all_are_lem",
    ("exports", "as_step"): "as_step_lem",
    ("serial", "back_on"): "back_on_lem",
    ("listing", "goes_on"): "goes_on_lem",
    ("swift", "is_live"): "is_live_lem",
    ("theory", "on_line"): "on_line_lem",
    ("sound", "owner_of"): "owner_of_lem",
    ("text", "same_bytes"): "same_bytes_lem",
    ("swift", "store_line"): "store_line_lem",
}

WORD = re.compile(r"[^\s(){}\[\];,.λ↦=→×⊎≡≢<>≤+*∷¬?\"|&`/:@«»∙ₛ]+")
HEAD = re.compile(r"^\s*(?:abbrev |unfoldable |pub |private )*(?:record |data )?([^\s(){}:,.;]+)(?: [^:=]*)? :(?: |$)")


def files(top, ends):
    for folder, dirs, names in os.walk(top):
        dirs[:] = sorted(d for d in dirs if d not in ("out", ".git"))
        for name in sorted(names):
            if name.endswith(ends):
                yield os.path.join(folder, name)


def read(path):
    with open(path, encoding="utf-8") as f:
        return f.read()


def snake(name):
    return re.sub(r"(?<=[a-z0-9])([A-Z])(?![A-Z])", lambda m: "_" + m[1].lower(), name) if re.search("[a-z]", name) else name


def undashed(name):
    """The name with a dash only before a capital."""
    if re.fullmatch(r"[A-Z0-9]+(-[A-Z0-9]+)+", name):
        return name.replace("-", "_")
    first, *others = name.split("-")
    return first + "".join(("_" if re.match(r"[a-z0-9]", o) else "-") + o for o in others)


def declared():
    """Every name that a file of specs/ or of lemmas declares, and those that are imported from the library."""
    names, library = set(), set()
    for path in files("crates", ".antt"):
        text = read(path)
        for use in re.finditer(r"(?m)^use (\S+?)\.\{([^}]*)\}", text):
            if not re.match(r"Rattle\.(?!std\b)", use[1]):
                library |= {w.strip().split(" as ")[0] for w in use[2].split(",")}
        if path.endswith(("/Proof.antt",)):
            continue
        for line in text.split("\n"):
            if line.lstrip().startswith("--"):
                continue
            m = HEAD.match(line)
            if not m:
                continue
            name = m[1]
            if not re.fullmatch(r"[\w'-]+", name) or not re.match(r"[A-Za-z]", name):
                continue
            names.add(name)
    return names, library


def table():
    names, library = declared()
    made = {}
    for name in names - library:
        if re.match(r"[A-Z]", name) and not re.fullmatch(r"[A-Z0-9]+(-[A-Z0-9]+)+", name):
            continue
        to = undashed(snake(name))
        if to != name:
            made[name] = to
    taken = {n for n in names if n not in made} | {to for name, to in made.items() if "-" not in name}
    return {name: to + "_lem" if "-" in name and to in taken else to for name, to in made.items()}


def main(argv):
    check = "--check" in argv
    made = table()
    paths = [p for p in files("crates", (".antt", ".rt", ".edit"))]
    homes = collections.defaultdict(set)
    modules = {}
    for (crate, old), new in list(FACTS.items()) + list(LEMMAS.items()):
        for path in paths:
            text = read(path)
            inside = path.startswith(f"crates/{crate}/")
            if inside and (re.search(rf"(?m)^\s*(?:abbrev |unfoldable |pub )*{re.escape(old)}(?: [^:\n]*)? :(?: |$)", text) or path.endswith(".edit")):
                homes[path].add((old, new))
                if path.endswith(".antt"):
                    modules[os.path.basename(path)[:-5] + "." + old] = os.path.basename(path)[:-5] + "." + new
            if re.search(rf"use Rattle\.{crate}\.(?:specs|proofs)\.[^;\n]*[{{ ]{re.escape(old)}[,}}]", text):
                homes[path].add((old, new))
    for path in paths:
        text = read(path)
        if path.endswith(".edit"):
            text = text.replace("′", "'")
        local = dict(homes[path])

        def turn(m):
            word, before = m[0], text[: m.start()]
            if word in local and not (before.endswith(".") and not before.endswith("..")):
                return local[word]
            return made.get(word, word)

        new = WORD.sub(turn, text)
        for old, to in modules.items():
            new = re.sub(rf"(?<![\w.]){re.escape(old)}(?![\w'-])", to, new)
        if check:
            falls(path, text, made, local)
        elif new != read(path):
            with open(path, "w", encoding="utf-8") as f:
                f.write(new)
    if not check:
        pages(made)
        for crate in sorted(os.listdir("crates")):
            subprocess.run(["rt", "fmt"], cwd=os.path.join("crates", crate), stdout=subprocess.DEVNULL)
    else:
        for old in sorted(made):
            print(old, made[old])
    return 0


def falls(path, text, made, local):
    seen = collections.defaultdict(set)
    for m in WORD.finditer(text):
        if text[: m.start()].endswith("."):
            continue
        seen[local.get(m[0], made.get(m[0], m[0]))].add(m[0])
    for new, olds in sorted(seen.items()):
        if len(olds) > 1:
            print(f"falls: {path}: {sorted(olds)} -> {new}")


def pages(made):
    """Names in the pages, where they stand between backticks or in code."""
    for path in ["README.md"] + list(files("docs", ".md")):
        if path.startswith("docs/PORT"):
            continue
        text = read(path)
        new = re.sub(r"`[^`\n]+`", lambda m: WORD.sub(lambda w: made.get(w[0], w[0]), m[0]), text)
        if new != text:
            with open(path, "w", encoding="utf-8") as f:
                f.write(new)


if __name__ == "__main__":
    raise SystemExit(main(sys.argv[1:]))
