#!/usr/bin/env python3
"""Keeps `All` as the repository stated it, by recursion on the list: the library's `All` now goes by index.

usage: python3 tools/keep_all.py      at the top of the repository, once
"""
import glob
import re

USE = re.compile(r"^(\s*(?:ghost )?use )(Rattle\.std\.[\w.]+)\.\{([^}]*)\}(;?)$", re.M)
for f in sorted(glob.glob("crates/*/**/*.antt", recursive=True) + glob.glob("crates/*/src/**/*.rt", recursive=True)):
    if "/out/" in f:
        continue
    old = open(f).read()
    found = []

    def turn(m):
        names = [n.strip() for n in m.group(3).split(",")]
        if "All" not in names:
            return m.group(0)
        found.append(m.group(4))
        names.remove("All")
        kept = f"{m.group(1)}{m.group(2)}.{{{', '.join(names)}}}{m.group(4)}\n" if names else ""
        return f"{kept}{m.group(1)}Rattle.std.specs.List.{{AllByRecursion}}{m.group(4)}"

    new = USE.sub(turn, old)
    if found:
        new = re.sub(r"(?<![\w'-])All(?![\w'-])", "AllByRecursion", new)
        # Comments keep their words.
        new = "\n".join(re.sub(r"(--|//).*", lambda m: m.group(0).replace("AllByRecursion", "All"), l) for l in new.split("\n"))
        open(f, "w").write(new)
        print(f)
