#!/usr/bin/env python3
"""In a crate's Answers and Invariants, respells the names that Rattle makes (goals, steps, places) as today's Rattle does.

usage: python3 tools/rename_made.py CRATE..     at the top of the repository; the crates below must be proved

It asks `rt check --generated` for the names that exist, and turns a word that is none of them, but is one of them with
each underscore read as a dash.
"""

import json
import os
import re
import subprocess
import sys
import tempfile

WORD = re.compile(r"(?<![\w'-])([A-Za-z_][\w']*(?:-[\w']+)+)(?![\w'-])")


def strings(v, out):
    if isinstance(v, str):
        for w in re.split(r"[\s.]+", v):
            out.add(w)
    elif isinstance(v, list):
        for x in v:
            strings(x, out)
    elif isinstance(v, dict):
        for k, x in v.items():
            strings(k, out)
            strings(x, out)


def main():
    for crate in sys.argv[1:]:
        folder = os.path.join("crates", crate)
        with tempfile.TemporaryDirectory() as d:
            subprocess.run(["rt", "check", "--generated", d, "--old-names"], cwd=folder, stdout=subprocess.DEVNULL, stderr=subprocess.DEVNULL)
            with open(os.path.join(d, "names.json"), encoding="utf-8") as f:
                names = json.load(f)
        table = {}
        for key, v in names.items():
            m = re.match(r"Rattle-\w+-proofs\.(.*)\.Lts$", key)
            if m:
                got = set()
                strings(v, got)
                table.setdefault(m[1], set()).update(got)
            elif key.startswith("off:"):
                for fn, goals in v.items():
                    path = ".".join(fn.split("::")[1:])
                    got = set()
                    strings(goals, got)
                    table.setdefault(path, set()).update(got)
        for base, _, fs in os.walk(os.path.join(folder, "proofs")):
            for f in fs:
                rel = os.path.relpath(base, os.path.join(folder, "proofs")).replace("/", ".")
                if rel == "." or not f.endswith(".antt"):
                    continue
                got = table.get(rel)
                if not got:
                    print("no names:", rel)
                    continue
                by = {}
                for w in got:
                    if "_" in w:
                        by.setdefault(w.replace("_", "-"), set()).add(w)
                p = os.path.join(base, f)
                t = open(p, encoding="utf-8").read()

                def one(m):
                    w = m[1]
                    if w in got:
                        return w
                    to = by.get(w.replace("_", "-"), ())
                    if len(to) == 1:
                        return next(iter(to))
                    if len(to) > 1:
                        print("several:", p, w, to)
                    return w

                n = WORD.sub(one, t)
                if n != t:
                    open(p, "w", encoding="utf-8").write(n)
                    print("turned", p)


main()
