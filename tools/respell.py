#!/usr/bin/env python3
"""Brings the repository's own words to one spelling: definitions and lemmas in snake case, types and facts in camel case.

usage: python3 tools/respell.py [--check]     at the top of the repository, once, after the kit's own script

A word is the repository's own if a file of specs/ or proofs/ declares it or binds it as a variable. What Rattle makes
(goals, steps, invariants) and what a library declares stays. Functions, strings, inputs and outputs stay: in a .rt file
only code outside strings and comments is read, and there a word with a dash stands in clauses alone. Pages (*.md) turn in
code spans. --check writes nothing and lists each word, each pair of words that would fall together in a file, and each
word with a dash that stays.
"""

import collections
import os
import re
import sys

SPLIT = re.compile(r"[\s(){}.;,@\"«»\[\]|]+")
DASHED = re.compile(r"^[A-Za-z_][\w']*(?:-[\w']+)+$")
WORDS = {"pub", "abbrev", "unfoldable", "data", "record", "module", "mod"}
MADE = re.compile(
    r"^(returns|invariant|decreases|ghost|loop|span|in|if|then|else|from-residual|as)-"
    r"|-(requires|preserved|init|test)$"
)
# Spellings that would fall together with another word of a file, and aliases that no signature declares.
CHOSEN = {
    "the-price": "the_price",
    "the-quantity": "the_quantity",
    "the-participant": "the_participant",
    "numbers-of": "numbers_of",
    "Numbers-of": "numbers_of",
    "carried-over": "carried_over",
    "established-price": "established_price",
    "by-test": "by_test",
    "Room-left": "RoomLeft",
    "in-turn": "in_turn",
}


def files(top, endings):
    for folder, dirs, names in os.walk(top):
        dirs[:] = sorted(d for d in dirs if d not in ("out", ".git", "target"))
        for name in sorted(names):
            if name.endswith(endings):
                yield os.path.join(folder, name)


def bare(path, text):
    mark = "--" if path.endswith(".antt") else "//"
    return re.sub(re.escape(mark) + r"[^\n]*", "", text)


def is_made(path, word, line):
    if not re.search(r"/proofs/.+/\w+\.antt$", path):
        return False
    return re.search(r": +goal\.", line) is not None or MADE.search(word) is not None


def declared(path, text):
    """The words with a dash that a file declares, and those that it binds, with whether each is a type."""
    types, values = set(), set()
    lines = bare(path, text).split("\n")
    for at, line in enumerate(lines):
        l = line.strip()
        if l.startswith("use "):
            for alias in re.findall(r" as ([^\s,}]+)", l):
                if DASHED.match(alias):
                    values.add(alias)
            continue
        for group in re.findall(r"[({]([^(){}:=]+) :(?= )", line):
            for w in group.split():
                if DASHED.match(w):
                    values.add(w)
        for w in re.findall(r"λ ([^.]*)\.", line):
            values.update(x for x in SPLIT.split(w) if DASHED.match(x))
        for w in re.findall(r"\blet ([^\s:=]+)", line):
            if DASHED.match(w):
                values.add(w)
        if " : " in l:
            head, rest = l.split(" : ", 1)
        elif l.endswith(" :"):
            head, rest = l[:-2], " ".join(x.strip() for x in lines[at + 1 : at + 4])
        elif l.split()[:1] and l.split()[0] in WORDS:
            head, rest = l, ""
        else:
            continue
        head = re.split(r"[({]", head)[0]
        if "=" in head.split() or "λ" in head:
            continue
        parts = head.split()
        is_type = "data" in parts or "record" in parts or "mod" in parts or rest.rstrip().endswith("Type 0") or rest.rstrip().endswith("Type 0 where")
        while parts and parts[0] in WORDS:
            parts = parts[1:]
        for w in parts:
            if DASHED.match(w) and not is_made(path, w, line):
                (types if is_type else values).add(w)
    return types, values


def camel(word):
    return "".join(p[:1].upper() + p[1:] for p in word.split("-"))


def spelling(word, is_type):
    if word in CHOSEN:
        return CHOSEN[word]
    if is_type and word[:1].isupper():
        return camel(word)
    return word.replace("-", "_")


def table(root):
    types, values = set(), set()
    for p in files(os.path.join(root, "crates"), ".antt"):
        with open(p, encoding="utf-8") as f:
            t, v = declared(p, f.read())
        types |= t
        values |= v
    return {w: spelling(w, w in types) for w in sorted(types | values | set(CHOSEN))}


QUIET = {
    ".antt": re.compile(r'"(?:[^"\\\n]|\\.)*"|--[^\n]*'),
    ".rt": re.compile(r'//[^\n]*|"(?:[^"\\]|\\.)*"'),
}
SPAN = re.compile(r"`[^`\n]+`")
WORD = re.compile(r"(?<![\w'-])([A-Za-z_][\w']*(?:-[\w']+)+)(?![\w'-])")
HEAD = re.compile(r"(?:^|[^\w.])(?:c|goal|l|v|g)\.$")


def turn(text, names, skip=frozenset(), proof=False):
    def one(m):
        w = m[1]
        if w not in names or w in skip:
            return w
        if proof and HEAD.search(m.string[: m.start()][-8:]):
            return w
        return names[w]

    return WORD.sub(one, text)


def from_library(text):
    """The words with a dash that a file imports from a library and not from this repository."""
    found = set()
    for m in re.finditer(r"(?m)^(?:ghost )?use ([^\s{;]+)\{([^}]*)\}", text):
        head = m[1].split(".")
        if head[0] != "Rattle" or head[1:2] == ["std"] or head[1:2] == ["core"]:
            found.update(w.split(" as ")[0].strip() for w in m[2].split(","))
    return {w for w in found if "-" in w}


def turned(path, text, names):
    skip = from_library(text)
    if path.endswith(".md"):
        return SPAN.sub(lambda m: turn(m[0], names), text)
    ending = ".antt" if path.endswith(".antt") else ".rt"
    proof = "/proofs/" in path
    out, at = [], 0
    for m in QUIET[ending].finditer(text):
        out.append(turn(text[at : m.start()], names, skip, proof))
        quiet = m[0]
        if quiet.startswith(("--", "//")):
            quiet = SPAN.sub(lambda s: turn(s[0], names), quiet)
        out.append(quiet)
        at = m.end()
    out.append(turn(text[at:], names, skip, proof))
    return "".join(out)


def main():
    root = os.getcwd()
    check = "--check" in sys.argv[1:]
    names = table(root)
    back = collections.defaultdict(list)
    for old, new in names.items():
        back[new].append(old)
    if check:
        for old, new in names.items():
            print(f"{old}\t{new}")
        for new, olds in back.items():
            if len(olds) > 1:
                print("together:", new, olds)
    stays = collections.Counter()
    for p in [*files(os.path.join(root, "crates"), (".antt", ".rt")), *files(os.path.join(root, "docs"), ".md"), os.path.join(root, "README.md")]:
        with open(p, encoding="utf-8") as f:
            text = f.read()
        new = turned(p, text, names)
        if check and not p.endswith(".md"):
            had = set(SPLIT.split(bare(p, text)))
            skip = from_library(text)
            for w in had:
                if w in names and w not in skip and names[w] in had:
                    print("meets:", os.path.relpath(p, root), w, "→", names[w])
            for w in set(SPLIT.split(bare(p, new))):
                if DASHED.match(w):
                    stays[w] += 1
        if not check and new != text:
            with open(p, "w", encoding="utf-8") as f:
                f.write(new)
    if check:
        print("stay:", " ".join(sorted(stays)))


main()
