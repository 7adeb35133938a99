#!/usr/bin/env python3
"""Respells the repository's own definitions and lemmas: words in snake case, a dash only between two names.

usage: python3 tools/respell.py        at the top of the repository, once, after the kit's own script

Definitions, constructors, fields and lemmas of specs/ and proofs/ are respelled wherever they stand: in specs/, proofs/, the clauses
of src/, must-fail/ and docs/. Functions of src/ and what the toolchain names after them keep their names. A lemma whose name would
fall together with another gets `_lem`. Each change is printed, old and new.
"""
import collections
import glob
import re
import sys

TOKEN = re.compile(r"[^\s(){}\[\].,;:\"λ`|←→]+")
DEFINED = re.compile(r"^(?:abbrev |unfoldable |record |data |ruleset )*(?:pub )?(?:record |data )?([^\s(){}\[\].,;:\"λ]+)\s*(?=[({:])", re.M)
FIELD = re.compile(r"^\s+(?:abbrev |unfoldable )*(?:pub )?([^\s(){}\[\].,;:\"λ]+)\s*:(?!:)", re.M)
LOCAL = re.compile(r"\blet ([^\s(){}\[\].,;:\"λ]+)\s*[:=]")
ALIAS = re.compile(r"\bas ([^\s(){}\[\].,;:\"λ]+)")
CAMEL = re.compile(r"[a-z][\w']*[A-Z][\w']*$")


def plain(text):
    return re.sub(r"--.*", "", text)


def snake(name):
    return re.sub(r"(?<=[a-z0-9])([A-Z])", lambda m: "_" + m.group(1).lower(), name)


def main():
    antt = sorted(f for f in glob.glob("crates/*/**/*.antt", recursive=True) if "/out/" not in f)
    goals = [f for f in antt if re.search(r"/(Answers|Invariants|Choices|Proof)\.antt$", f)]
    own = [f for f in antt if f not in goals]
    rt = sorted(glob.glob("crates/*/src/**/*.rt", recursive=True))
    text = {f: open(f).read() for f in antt + rt}

    defined, fields, local, named, theirs = set(), set(), set(), set(), set()
    for f in own:
        t = plain(text[f])
        top = set(DEFINED.findall(t)) - {"use"}
        defined |= top
        fields |= set(FIELD.findall(t))
        local |= set(LOCAL.findall(t)) | {n for n in TOKEN.findall(t) if CAMEL.match(n)}
        if "/specs/" in f:
            named |= top | set(FIELD.findall(t))
    for f in antt + rt:
        for m in re.finditer(r"use (?:Rattle\.(\w+)|mathlib|lib|borrow|Prim)[\w.'·-]*\.\{([^}]*)\}", text[f]):
            items = [i.strip() for i in m.group(2).split(",")]
            if m.group(1) in (None, "std"):
                theirs |= {i.split(" as ")[0] for i in items}
    for f in antt + rt:
        for a in ALIAS.findall(plain(text[f])):
            local.add(a)
    rust = set()
    for f in rt:
        rust |= set(re.findall(r"\bfn (\w+)", text[f]))
    goal_names = set()
    for f in goals:
        goal_names |= set(DEFINED.findall(plain(text[f])))
        goal_names |= set(re.findall(r"goal\.([\w-]+)", text[f]))

    taken = collections.Counter()
    for f in antt:
        taken.update(TOKEN.findall(plain(text[f])))
    names = {snake(n) for n in named} | theirs | rust

    def turned(name):
        parts = [snake(p) for p in name.split("-")]
        if any(not p for p in parts):
            return name
        if len(parts) == 1:
            return parts[0]
        for cut in range(len(parts) - 1, 0, -1):
            left, right = "_".join(parts[:cut]), "_".join(parts[cut:])
            if right == "decides":
                return left + "-Decides"
            if left in names and right in names:
                return left + "-" + right
        return "_".join(parts)

    change = {}
    for name in sorted((defined | fields | local), key=lambda n: ("-" in n, n)):
        if name in theirs or name in goal_names or not re.fullmatch(r"[A-Za-z][\w'-]*", name):
            continue
        if name[0].isupper() and "-" not in name:
            continue
        if "-" not in name and not CAMEL.match(name):
            continue
        new = turned(name)
        if new == name:
            continue
        if new in taken or new in change.values():
            new += "_lem" if "-" in name else "_of"
        if new in taken or new in change.values():
            sys.exit(f"{name}: no free name")
        change[name] = new

    def respell(line):
        return TOKEN.sub(lambda m: change.get(m.group(0), m.group(0)), line)

    for f in antt:
        new = text[f]
        if f in goals:
            # A path of what the toolchain names keeps its parts, unless they are fields of the repository's own records.
            def part(m):
                dot, token = m.group(1), m.group(2)
                if dot and "-" in token and token not in fields:
                    return m.group(0)
                return dot + change.get(token, token)
            new = re.sub(r"(\.?)(" + TOKEN.pattern + ")", part, new)
        else:
            new = respell(new)
        if new != text[f]:
            open(f, "w").write(new)
    camel = {k: v for k, v in change.items() if "-" not in k}
    for f in rt:
        lines = text[f].split("\n")
        out = []
        for line in lines:
            code = re.match(r"\s*(//|\"|b\")", line)
            if not code:
                if re.match(r"\s*ghost use ", line):
                    line = respell(line)
                else:
                    line = TOKEN.sub(lambda m: camel.get(m.group(0), m.group(0)), line)
            out.append(line)
        new = "\n".join(out)
        if new != text[f]:
            open(f, "w").write(new)
    for f in sorted(glob.glob("crates/*/must-fail/*.edit")):
        old = open(f).read()
        new = TOKEN.sub(lambda m: change.get(m.group(0), m.group(0)) if CAMEL.match(m.group(0)) else m.group(0), old)
        if new != old:
            open(f, "w").write(new)
    for f in ["README.md"] + sorted(glob.glob("docs/*.md")):
        old = open(f).read()
        new = re.sub(r"`([^`\n]+)`", lambda m: "`" + TOKEN.sub(lambda n: change.get(n.group(0), n.group(0)), m.group(1)) + "`", old)
        if new != old:
            open(f, "w").write(new)
    for name in sorted(change):
        print(name, change[name])


main()
