#!/usr/bin/env python3
"""Brings the repository's own definitions and lemmas to today's spelling: words in snake case, with a dash only
where it joins the names of two functions. Run it once, at the top, straight after the kit's port.py.

Turned are names that specs/ and proofs/ declare, Rust's fields as specs spell them, and what cites them: in specs/,
proofs/, the ghost lines and comments of src/, and between backticks in README.md and docs/. Names of functions of
src/, strings, inputs and outputs stay, and so do the goals and steps that Rattle names in the files of a function's proof.
It stops before it writes where two names would fall together."""
import collections
import glob
import re
import sys

WORD = re.compile(r"[^\s(){}\[\],;:.|\\\"«»`]+")
STD_FUNCTIONS = {"length", "take", "drop", "reverse", "map", "replicate", "sum", "get_or"}
BINDERS = re.compile(r"^(?:invariant|decreases|returns|loop|overflow|bounds|offset|nonzero|slice|prove|ghost)-|-requires$|-requires-")


def read(path):
    with open(path, encoding="utf-8") as file:
        return file.read()


def antt_files():
    return sorted(glob.glob("crates/*/specs/**/*.antt", recursive=True) + glob.glob("crates/*/proofs/**/*.antt", recursive=True))


def is_of_a_function(path):
    return path.rsplit("/", 1)[1] in ("Answers.antt", "Invariants.antt", "Proof.antt")


def without_comments(text):
    return re.sub(r"--[^\n]*", "", text)


def std_names():
    names = set()
    for path in antt_files() + glob.glob("crates/*/src/**/*.rt", recursive=True):
        for line in re.finditer(r"use (?:Rattle\.std|borrow|native|lib|Prim|mathlib|denote)\.[^{};\n]*\{([^}]*)\}", read(path)):
            names |= {name.strip().split(" as ")[0] for name in line.group(1).split(",")}
    return names


DECLARES = re.compile(r"^\s*(?:(?:abbrev|unfoldable|pub|data|record|ruleset)\s+)*([^\s:(){},;.|\[\]=→λ]+)(?=\s*:|\s+\(|\s+where)")


def declared(path):
    names = set()
    for line in without_comments(read(path)).split("\n"):
        found = DECLARES.match(line)
        if found:
            names.add(found.group(1))
    return names


def snake(word):
    word = re.sub("^getD", "get_or", word)
    word = re.sub(r"([a-z0-9])([A-Z])(?=[a-z0-9]|$)", lambda m: m.group(1) + "_" + m.group(2).lower(), word)
    return word.replace("-", "_")


def is_odd(word):
    if not re.match(r"^[a-z_][\w'⁻₀-₉-]*(?:\+\+)?$", word):
        return False
    return "-" in word or re.search(r"[a-z0-9][A-Z][a-z]|[a-z][A-Z]$", word) is not None


def main():
    std = std_names()
    functions = set(STD_FUNCTIONS)
    owners = collections.defaultdict(set)
    for path in antt_files():
        for line in without_comments(read(path)).split("\n"):
            found = re.match(r"^\s*(?:abbrev|unfoldable) (?:pub )?([^\s:]+) :(.*)", line)
            if found and "≡" not in found.group(2):
                functions.add(found.group(1))
        goals = set(re.findall(r"^(?:abbrev )?(?:pub )?(\S+) : goal\.", read(path), re.M)) if is_of_a_function(path) else set()
        for name in declared(path):
            if is_odd(name) and name not in std and name not in goals and not (is_of_a_function(path) and BINDERS.search(name)):
                owners[name].add(path)

    def spelled(word):
        left, dash, right = word.partition("-")
        if dash and right == "++":
            return snake(left) + "-append"
        if dash and left in STD_FUNCTIONS and right in functions:
            return left + "-" + snake(right)
        return snake(word)

    renamed = {name: spelled(name) for name in owners}

    # a lemma that would have its function's name gets _lem
    everywhere = collections.defaultdict(set)
    for path in antt_files():
        if not is_of_a_function(path):
            for name in declared(path):
                everywhere[renamed.get(name, spelled(name))].add(name)
    for new, olds in everywhere.items():
        of_functions = {old for old in olds if old in functions}
        if len(olds) > 1 and len(of_functions) == 1:
            for old in olds - of_functions:
                renamed[old] = new + "_lem"

    # a Rust field or a local name of a lemma file, which has no declaration of its own
    for path in antt_files():
        if not is_of_a_function(path):
            text = re.sub(r"^use [^\n]*$", "", without_comments(read(path)), flags=re.M)
            for word in WORD.findall(text):
                if is_odd(word) and word not in std and word not in renamed:
                    renamed[word] = snake(word)
    renamed = {old: new for old, new in renamed.items() if old != new}

    fallen = collections.defaultdict(set)
    for old, new in renamed.items():
        fallen[new].add(old)
    clash = False
    for path in antt_files():
        words = set(WORD.findall(re.sub(r"Rattle\.[\w.+]*", "", without_comments(read(path)))))
        for new, olds in fallen.items():
            # Rust's fields stand in both spellings, and are the same
            here = {w for w in words if w in olds and w.replace("-", "_") != new} | ({new} & (words - set(renamed)))
            if len(here) > 1:
                print(f"fall together in {path}: {sorted(here)}")
                clash = True
    for path in glob.glob("crates/*/src/**/*.rt", recursive=True):
        text = read(path)
        # a label in a record is hidden by nothing
        words = set(WORD.findall(re.sub(r"[{;] ?\w+ =", "", text)))
        code = set(re.findall(r"\b([a-z_]\w*)(?=: )|let (?:mut )?([a-z_]\w*)|for ([a-z_]\w*)|const (\w+)", re.sub(r"ghost use [^\n]*|//[^\n]*", "", text)))
        code = {name for names in code for name in names}
        for old, new in renamed.items():
            if old in words and new in code:
                print(f"hidden in {path}: {old} would be {new}")
                clash = True
    if "--list" in sys.argv:
        for old, new in sorted(renamed.items()):
            print(old, new)
    if clash and "--force" not in sys.argv:
        sys.exit(1)
    if "--list" in sys.argv:
        return

    def turn_words(text, skip_fields):
        def turned(found):
            word = found.group(0)
            if word not in renamed:
                return word
            if skip_fields and found.start() and text[found.start() - 1] == "." and not re.search(r"Rattle[\w.+]*\.$", text[: found.start()][-200:]):
                return word
            return renamed[word]

        return WORD.sub(turned, text)

    for path in antt_files():
        text = read(path)
        new = turn_words(text, is_of_a_function(path))
        if new != text:
            with open(path, "w", encoding="utf-8") as file:
                file.write(new)
    for path in glob.glob("crates/*/src/**/*.rt", recursive=True):
        text = read(path)
        parts = re.split(r'("(?:[^"\\\n]|\\.)*")', text)
        new = "".join(part if i % 2 else turn_words(part, False) for i, part in enumerate(parts))
        if new != text:
            with open(path, "w", encoding="utf-8") as file:
                file.write(new)
    for path in ["README.md"] + glob.glob("docs/*.md"):
        text = read(path)
        new = re.sub(r"`[^`\n]*`", lambda m: turn_words(m.group(0), False), text)
        if new != text:
            with open(path, "w", encoding="utf-8") as file:
                file.write(new)


main()
