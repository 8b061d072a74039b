#!/usr/bin/env python3
"""Lists the places of src/ that a newer form of the language may say better, a heading for each sort of place.

    python3 tools/places.py [TOP]

It goes by text: each place that it lists wants a look, and it can miss one.
"""
import collections
import glob
import os
import re
import sys

TOP = sys.argv[1] if len(sys.argv) > 1 else os.path.join(os.path.dirname(__file__), "..")
FILES = sorted(glob.glob(os.path.join(TOP, "crates", "*", "src", "*.rt")))


def source():
    for path in FILES:
        with open(path) as f:
            for number, line in enumerate(f, 1):
                yield os.path.relpath(path, os.path.join(TOP, "crates")), number, line.rstrip("\n")


def functions():
    """Each function: its file, name, parameters, clauses and body, without comments."""
    head = re.compile(r"^( *)(?:pub(?:\([a-z]+\))? )?fn (\w+)(.*)$")
    for path in FILES:
        lines = [re.sub(r"\s*//.*$", "", line.rstrip("\n")) for line in open(path)]
        at = 0
        while at < len(lines):
            found = head.match(lines[at])
            if not found:
                at += 1
                continue
            end = at
            while end < len(lines) and lines[end] != found.group(1) + "}" and not (lines[end].endswith(";") and end == at):
                end += 1
            text = lines[at : end + 1]
            opening = next((i for i, line in enumerate(text) if line == found.group(1) + "{" or (i == 0 and line.endswith("{"))), 0)
            clauses = [line.strip() for line in text[:opening] if re.match(r"\s*(requires|ensures)\b", line)]
            signature = " ".join(line.strip() for line in text[: opening + 1] if not re.match(r"\s*(requires|ensures)\b", line))
            yield os.path.relpath(path, os.path.join(TOP, "crates")), found.group(2), signature, clauses, text[opening + 1 : -1]
            at = end + 1


def heading(text, places):
    print(f"== {text}: {len(places)}")
    for place in places:
        print("   ", place)


def lines_with(pattern):
    return [f"{path}:{number}: {line.strip()}" for path, number, line in source() if re.search(pattern, line) and not line.strip().startswith("//")]


def twins():
    """Functions of two statements or more that are the same but for names and numbers."""
    groups = collections.defaultdict(list)
    for path, name, _, _, body in functions():
        if len(body) < 2:
            continue
        bare = re.sub(r"\b\w+\b", "w", " ".join(line.strip() for line in body))
        groups[bare].append(f"{path}: {name}")
    return [", ".join(group) for group in groups.values() if len(group) > 1]


def repeated_facts():
    facts = collections.Counter()
    for _, _, _, clauses, _ in functions():
        for clause in {re.sub(r"^(requires|ensures)( \w+)? ", r"\1 ", clause) for clause in clauses}:
            facts[clause] += 1
    return [f"{count} {fact}" for fact, count in facts.most_common() if count >= 3]


def travelling():
    pairs = collections.Counter()
    for _, _, signature, _, _ in functions():
        names = re.findall(r"[(,] *(?:mut )?(\w+): ([^,()]*(?:\([^()]*\))?[^,()]*)", signature)
        for left, right in zip(names, names[1:]):
            pairs[f"{left[0]}: {left[1].strip()}, {right[0]}: {right[1].strip()}"] += 1
    return [f"{count} {pair}" for pair, count in pairs.most_common() if count >= 3]


def answers():
    goals = files = 0
    for path in glob.glob(os.path.join(TOP, "crates", "*", "proofs", "**", "Answers.antt"), recursive=True):
        files += 1
        goals += len(re.findall(r"(?m)^pub \S+ : goal\.", open(path).read()))
    return files, goals


def main():
    heading("1 enums", lines_with(r"^\s*(pub(\(crate\))? )?enum "))
    heading("1 numbers with a value beside", lines_with(r"\((u8|u16), (usize|u32)"))
    heading("1 flags", lines_with(r"^\s+(pub )?\w+: bool,$"))
    heading("2 functions alike but for names and numbers", twins())
    heading("3 loops that count", lines_with(r"^\s*(while|loop)\b|\bfor \w+ in [^ ]*\.\."))
    heading("4 written by hand, by name", lines_with(r"\bfn (same|eq|equal|cmp|copy|clone|show|print|letter|mnemonic|operand|operation|comparison|number|refused|stop_|is_blank|is_all)"))
    heading("4 bytes and numbers", lines_with(r"/ (16777216|65536|256)\b|\* (256|65536)\b"))
    heading("5 facts in three contracts or more", repeated_facts())
    heading("5 parameters that travel together", travelling())
    heading("6 lengths beside", lines_with(r"^\s+(pub )?(len|count|used|depth|\w+_count|\w+_size|size): (usize|u16|u32),$"))
    heading("7 functions as values", lines_with(r"\bdyn\b|: fn\(|impl Fn|\bFn(Mut|Once)?\("))
    files, goals = answers()
    print(f"== 8 answers: {goals} in {files} files")


main()
