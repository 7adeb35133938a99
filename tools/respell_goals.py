#!/usr/bin/env python3
"""Respells, in the answers to goals, the names that the toolchain makes: what stands in src/ with `_` keeps it, and `in_ok`, `in_err`.

usage: python3 tools/respell_goals.py [CRATE..]      at the top of the repository
"""
import glob
import re
import sys

TOKEN = re.compile(r"[A-Za-z0-9_'+-]+")
names = sys.argv[1:] or [p.split("/")[1] for p in glob.glob("crates/*/src")]
every = set("extend_from_slice starts_with ends_with is_empty is_some is_none is_err is_ok with_capacity as_slice from_residual push_reserved checked_add checked_sub checked_mul saturating_sub saturating_add get_or is_ascii_digit read_exact write_all read_to_end read_until from_utf8 as_bytes copy_from_slice split_at split_at_mut as_ref as_mut is_char_boundary unwrap_or unwrap_or_default extend_with in_ok in_err in_default overflow_add overflow_sub overflow_mul overflow_step slice_bounds offset_bounds invariant_of enum_told shared_slice_known type_inv try_reserve or_insert read_line to_vec with_alloc is_some_and get_mut first_mut last_mut split_first swap_remove binary_search clone_from chunks_exact is_sorted range_from range_to into_iter from_iter is_ascii_hexdigit from_str to_string fetch_add len_utf8 is_alphabetic map_err ok_or and_then or_else unwrap_or_else into_inner read_dir".split())
for crate in names:
    words = set(every)
    for f in glob.glob(f"crates/{crate}/src/**/*.rt", recursive=True):
        words |= {w for w in re.findall(r"\b[A-Za-z][A-Za-z0-9]*(?:_[A-Za-z0-9]+)+\b", open(f).read())}
    table = sorted(((w.replace("_", "-"), w) for w in words), key=lambda p: -len(p[0]))

    def mend(token):
        if "-" not in token:
            return token
        for dashed, word in table:
            if dashed in token:
                token = re.sub(r"(?<![A-Za-z0-9_'])" + re.escape(dashed) + r"(?![A-Za-z0-9_'])", word, token)
        return token

    for f in glob.glob(f"crates/{crate}/proofs/*/**/*.antt", recursive=True):
        old = open(f).read()
        lines = []
        for line in old.split("\n"):
            if re.match(r"use (?!.*proofs\..*\.(Goals|Given))", line) or line.startswith("--"):
                lines.append(line)
            else:
                lines.append(TOKEN.sub(lambda m: mend(m.group(0)), line))
        new = "\n".join(lines)
        if new != old:
            open(f, "w").write(new)
            print(f)
