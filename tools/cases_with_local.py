#!/usr/bin/env python3
"""The cases of cases.py and those for `local`, which the program does not answer yet: what it will be asked, and its answers.

cases.py has the pieces of models, the checker and its own cases; name_cases.py the cases for `local`, and a resolver that answers
those once more. Any disagreement ends the run with status 1, and nothing is written.

    python3 tools/cases_with_local.py --out DIR    write them as DIR/stdin and DIR/stdout
    python3 tools/cases_with_local.py --list       print line number, answer and title of each case
"""

import re
import sys
from pathlib import Path

sys.path.insert(0, str(Path(__file__).resolve().parent))
import cases
import name_cases
from cases import Reader, Refused, files, judge

OWN_PARTS = (cases.first_cases, cases.calls, cases.sizes, cases.cut_offs, cases.layout, cases.depths, cases.names,
             cases.constants, cases.siblings, cases.limits, cases.several, cases.examples)


class Cases(cases.Cases):
    """cases.py's own, with `local` asked where there is no model yet, and no longer an unknown call."""

    def unknown(self, title, line):
        if (self.part, title) == ("calls", "local"):
            return
        super().unknown(title, line)
        if (self.part, title) == ("start", "unknown word before any model"):
            name_cases.without_model(self)

    def bad_at(self, title, *rest, **more):
        super().bad_at(title, *rest, **more)
        if (self.part, title) == ("start", "the least model without its last byte"):
            name_cases.without_model(self)


def answers(lines):
    """The session's answers, one a line."""
    root = None
    for line in lines:
        try:
            if line == "count":
                if root is None:
                    raise Refused(8, 0)
                yield f"count {len(files(root))}"
            elif line == "load" or re.fullmatch(r"load ([0-9a-fA-F]{2})+", line):
                data = bytes.fromhex(line[5:])
                judge(data)
                root = Reader(data).model()
                yield "loaded"
            elif asked := name_cases.asked_by(line):
                yield "local " + name_cases.local_name(root, *asked)
            else:
                yield "unknown call"
        except Refused as refused:
            yield f"refused {refused.number} at {refused.place}"


def main():
    words = sys.argv[1:]
    if words != ["--list"] and not (len(words) == 2 and words[0] == "--out"):
        sys.exit(__doc__)
    asked = Cases()
    for part in (*OWN_PARTS, *name_cases.PARTS):
        part(asked)
    wrong = 0
    for number, ((title, line, expected), found) in enumerate(
            zip(asked.steps, answers([line for _, line, _ in asked.steps])), 1):
        assert "\n" not in line
        if expected != found:
            print(f"cases_with_local.py: line {number}, {title}: built for `{expected}`, checked as `{found}`",
                  file=sys.stderr)
            wrong += 1
    if wrong:
        sys.exit(f"cases_with_local.py: {wrong} disagreements; nothing written")
    if words == ["--list"]:
        for number, (title, _, expected) in enumerate(asked.steps, 1):
            print(f"{number}\t{expected}\t{title.encode('unicode_escape').decode()}")
        return
    folder = Path(words[1])
    folder.mkdir(parents=True, exist_ok=True)
    # A byte that is no UTF-8 is in a line as the surrogate that stands for it.
    stdin = "".join(line + "\n" for _, line, _ in asked.steps).encode("utf-8", "surrogateescape")
    (folder / "stdin").write_bytes(stdin)
    (folder / "stdout").write_bytes("".join(answer + "\n" for _, _, answer in asked.steps).encode())
    print(f"{len(asked.steps)} cases, {len(stdin)} bytes in {folder / 'stdin'}")


if __name__ == "__main__":
    main()
