#!/usr/bin/env python3
"""Counts the places in src/ that are written in an older form, by point of docs/DESIGN-PASS.md.

    tools/forms.py [COMMIT]      each place, and a count for each point; with a commit, as it stood there
    tools/forms.py -c [COMMIT]   the counts alone

A place is a line that one of the point's patterns matches. Patterns find candidates: what is kept has its reason beside it in the code.
"""
import re
import subprocess
import sys

POINTS = {
    "1 errors that are bare numbers": r"Result<[^<>]*, u(8|32|64)>",
    "1 numbers that stand for none": r"//.*\b0 (where|for every)|//.*; 0 where",
    "1 numbers for kinds in a struct": r"^\s*pub (side|duration|mark): u32",
    "1 a result in a result": r"Result<Result<",
    "2 the two sides or tapes chosen by hand": r"::<(Buys|Sells)(, T)?>\(",
    "2 methods that stand for each tape or side": r"^\s*(pub )?fn (count|room|read|add|mark|last|comes_first|reached)\(.*self|^\s*fn (comes_first|reached)\(",
    "2 twins of admission": r"fn (best_opposite|best_facing|sweep_of|sweep_for|price_of|hold|hold_limit|hold_price)\(",
    "2 twins of answers": r"fn as_(done|removed|received|left)\(|fn lots\(|fn (placed|changed)\(|pub struct (Receipt|NoRecord|Unwritten)\b",
    "2 twins of parsing": r"fn (number|side|limit|span)_from\(",
    "2 checked numbers made one by one": r"fn new\((ticks|lots|number): u32\)",
    "3 index loops": r"\bfor (i|k|n|number) in .*\.\.",
    "4 numbers compared in place of values": r"\.(ticks|lots|number)\(\) *(<=|>=|<|>|==|!=)",
    "4 conversions as functions": r"fn (number|of|row|order|trade|read_side|read_duration|side_code|duration_code|duration_date)\((self|number: u32|code: u32|side: Side|duration: Duration)",
    "4 equality and choice written out": r"fn (same_side|is_future|in_session|is_closed|ends_day|span)\(",
    "4 printing beside the type": r"pub struct (Maybe|Refused|Mistake)\b",
    "4 answers that cannot fail taken apart": r"unreachable\(\)",
    "5 the bound of a tape's fault": r"Refusal: From<",
    "5 a number that is not 0": r"1 ≤ (number|place|buy|sell) }",
    "5 state and products side by side": r"^\s*state: (&mut )?State,$|state: State, *products",
    "5 what a price is worked out from": r"^\s*(day: u32,|pub day: u32,)$|day: u32, time: u32",
    "6 a buffer with a count": r"^\s*(rungs|rows): \[\w+; [\w:]+\],|^\s*(pub\(crate\) )?used: u32,",
    "7 a switch on which step to run": r"enum (Class|Verb|Span|Turn)\b|class: Class",
}


def files(commit):
    if commit:
        names = subprocess.run(["git", "ls-tree", "-r", "--name-only", commit, "crates"], capture_output=True, text=True, check=True).stdout.split("\n")
    else:
        names = subprocess.run(["git", "ls-files", "crates"], capture_output=True, text=True, check=True).stdout.split("\n")
    return sorted(n for n in names if "/src/" in n and n.endswith(".rt"))


def text(name, commit):
    if not commit:
        return open(name).read()
    return subprocess.run(["git", "show", f"{commit}:{name}"], capture_output=True, text=True, check=True).stdout


def main():
    args = sys.argv[1:]
    counts_only = "-c" in args
    args = [a for a in args if a != "-c"]
    commit = args[0] if args else None
    found = {point: [] for point in POINTS}
    for name in files(commit):
        for at, line in enumerate(text(name, commit).split("\n"), 1):
            for point, pattern in POINTS.items():
                if re.search(pattern, line):
                    found[point].append(f"{name}:{at}: {line.strip()}")
    for point, places in found.items():
        print(f"{len(places):4} {point}")
        if not counts_only:
            for place in places:
                print(f"       {place}")


main()
