#!/usr/bin/env python3
"""Spells the repository's own definitions and lemmas in snake case, in specs/, proofs/ and the clauses of src/.

    python3 tools/spell.py [TOP]

A name of the repository is one that a file of specs/ or proofs/ declares, apart from the goals that Rattle names. A capital inside a
name becomes `_` and its small letter, and so does a dash, but where it joins two names of several words, or follows `length`. Types,
modules and the functions of src/ keep their names. Two names that would fall together are told apart in OTHER.
"""
import glob
import os
import re
import sys

TOKEN = r"[^\s(){};,.:@\[\]|«»]+"

# A lemma that would have its definition's name, and names of the library's that are older.
OTHER = {
    "integer-at": "integer_at_lem",
    "integer-cut": "integer_cut_lem",
    "is-kind": "is_kind_lem",
    "is-of": "is_of_lem",
    "natives-formed": "natives_formed_lem",
    "one-reference": "one_reference_lem",
    "sizes-allowed": "sizes_allowed_lem",
    "sweep-from": "sweep_from_lem",
    "two-references": "two_references_lem",
    "two-words": "two_words_lem",
    "word-in": "word_in_lem",
    "count-references": "count_references_lem",
    "getD-behind": "get_or-behind",
    "getD-last": "get_or-last",
    "getD-meet": "get_or-meet",
    "getD-stack": "get_or-stack",
    "nth-getD": "nth-get_or",
}

# Lemmas that have such a name already, in the folders that speak of them.
THERE = {
    "front_at": ("crates/reader/proofs", "front_at_lem"),
    "has_room": ("crates/host/proofs", "has_room_lem"),
    "load_byte": ("crates/runtime/proofs", "load_byte_lem"),
    "load_word": ("crates/runtime/proofs", "load_word_lem"),
}


def antt_files(top):
    found = []
    for folder in ("specs", "proofs"):
        found += glob.glob(os.path.join(top, "crates", "*", folder, "**", "*.antt"), recursive=True)
    return sorted(found)


def declared(text):
    """The names that a file of definitions or lemmas declares."""
    names = set()
    for line in text.split("\n"):
        code = "" if line.startswith("--") else line.split(" -- ")[0].rstrip()
        m = re.match(rf"^\s*(?:(?:abbrev|unfoldable|data|record|ruleset|pub)\s+)*({TOKEN}(?:\s+{TOKEN})*)\s*:\s+(.*)$", code)
        if m and not m.group(2).startswith("goal."):
            names |= set(m.group(1).split())
        for m in re.finditer(rf"[({{]((?:{TOKEN}\s+)*{TOKEN})\s+:\s", code):
            names |= set(m.group(1).split())
    return names


def aliases(text):
    """The names under which definitions are imported."""
    return set(re.findall(rf" as ([a-z]{TOKEN})(?=[,}}])", text))


def joins(part):
    return "_" in part or re.search(r"[a-z0-9][A-Z]", part) is not None


def snake(name):
    if name in OTHER:
        return OTHER[name]
    parts = name.split("-")
    out = parts[0]
    for before, after in zip(parts, parts[1:]):
        out += ("-" if joins(before) or joins(after) or before == "length" else "_") + after
    return re.sub(r"(?<=[a-z0-9])([A-Z])", lambda m: "_" + m.group(1).lower(), out)


def respelled(names):
    odd = [n for n in names if re.match(r"^[a-z]", n) and (re.search(r"[a-z0-9][A-Z]", n) or re.match(r"^[\w'₀-₉]+(-[\w'₀-₉]+)+$", n))]
    table = {n: snake(n) for n in odd}
    return {n: s for n, s in table.items() if n != s}


def turn(text, table):
    """Names, but in strings and comments of code."""
    return re.sub(TOKEN, lambda m: table.get(m.group(0), m.group(0)), text)


def turn_source(text, table):
    lines = []
    for line in text.split("\n"):
        if line.lstrip().startswith("//"):
            lines.append(line)
            continue
        pieces = re.split(r'("(?:[^"\\]|\\.)*")', line)
        lines.append("".join(p if p.startswith('"') else turn(p, table) for p in pieces))
    return "\n".join(lines)


def main():
    top = sys.argv[1] if len(sys.argv) > 1 else "."
    files = antt_files(top)
    sources = sorted(glob.glob(os.path.join(top, "crates", "*", "src", "**", "*.rt"), recursive=True))
    names = set()
    for f in files:
        with open(f) as handle:
            names |= declared(handle.read())
    renamed = set()
    for f in files + sources:
        with open(f) as handle:
            renamed |= aliases(handle.read())
    table = respelled(names | renamed)
    taken = {}
    for n, s in sorted(table.items()):
        if s in taken or s in names and s not in THERE and s != "one_more":
            print(f"spell: {n} would be {s}, which {taken.get(s, s)} is")
        taken[s] = n
    for f in files + sources:
        with open(f) as handle:
            old = handle.read()
        here = dict(table)
        for n, (folder, s) in THERE.items():
            if os.path.join(top, folder) + os.sep in f:
                here[n] = s
        new = turn(old, here) if f.endswith(".antt") else turn_source(old, here)
        if new != old:
            with open(f, "w") as handle:
                handle.write(new)
    print(f"spell: {len(table)} names")
    if "--list" in sys.argv:
        for n, s in sorted(table.items()):
            print(f"{n} {s}")


if __name__ == "__main__":
    main()
