"""Cases for the call `local`, and a resolver of names that answers each of them once more.

cases_with_local.py adds the PARTS behind those of cases.py. As there, answers are known by
construction: a local name is written out beside the model that it comes from,
and a refusal's place is a mark in the model. The resolver at the end of this
file works on the tree that the checker reads from the bytes, and knows nothing
of how a model was built.

One part is otherwise: `generated` asks some 300 calls of models that a seeded
generator makes, and there the expected answers are the resolver's own. What the
generator knows without it is asserted: which pairs are collected, and that two
pairs share the first name of their local names exactly if they share module and root.

A pair is written here as in a call's line: module, one space, attribute.
"""

import random
import re
from functools import lru_cache
from pathlib import Path

from cases import (at, arg, attr, Attr, cls, collected, expression_positions, files, flat, func, held, HOLDERS, Int, Lst,
                   model, module, module_chain, Name, NONE, Or, Reader, Refused, short_names, Str, Sub, Tup)

TOP = Path(__file__).resolve().parent.parent

# The largest number that a name may end in, and that a call may have; and the largest room.
LARGEST = 18_446_744_073_709_551_615
LARGEST_ROOM = 65_536
LAST = f"R{LARGEST}"


# =============================================================================
# Models that use pairs, and the calls.

def ref(pair):
    """The expression that is the reference; whatever is no pair is an expression already."""
    if not isinstance(pair, str):
        return pair
    module_name, attribute = pair.split(" ")
    return Name(attribute) if module_name == "builtins" else Attr(Name(module_name), attribute)


def use(*pairs):
    """A function `use` that returns a tuple of these."""
    return func("use", returns=Tup(*map(ref, pairs)))


def declare(names):
    return [cls(name) for name in names]


def using(*pairs, declared=()):
    """A model whose one file declares these names, and `use`, and collects these pairs."""
    return model(classes=declare(declared), functions=[use(*pairs)])


def load(c, title, piece, files=1):
    """Loads a model and gives the places of its marks."""
    data, marks = flat(piece)
    c.load(title, data, "loaded")
    c.files = files
    return marks


def ask(c, title, pair, answer, file=0, room=None):
    words = ["local", str(file), pair] + ([] if room is None else [str(room)])
    room_title = "" if room is None else f", room {room}"
    c.line(f"{title}: {pair} in file {file}{room_title}", " ".join(words), answer)


def named(c, title, pair, name, file=0, room=None):
    ask(c, title, pair, f"local {name}", file, room)


def refused(c, title, pair, number, place=0, file=0, room=None):
    ask(c, title, pair, f"refused {number} at {place}", file, room)


def resolves(c, title, piece, names, files=1, file=0):
    """A model without marks, and the local names of some of its pairs."""
    assert not load(c, title, piece, files), title
    for pair, name in names.items():
        named(c, title, pair, name, file)


def fails(c, title, number, piece, *pairs, files=1, file=0):
    """A model whose file is refused at the one mark, whatever pair is asked for."""
    place, = load(c, title, piece, files)
    for pair in pairs:
        refused(c, title, pair, number, place, file)
    return place


# =============================================================================
# The cases.

def without_model(c):
    """For a session that has no model yet. Only a line that is no call comes before this refusal."""
    for pair, file, room in [("builtins int", 0, None), ("m A", LARGEST, None), ("m A", 1, 0),
                             ("1 a..b", 0, None), ("m A", 0, LARGEST_ROOM)]:
        refused(c, "no model", pair, 8, file=file, room=room)
    for line in ("local", "local 0 m", "local x m A", "local 0 m A x", f"local {LARGEST + 1} m A",
                 f"local 0 m A {LARGEST_ROOM + 1}"):
        c.line("no call without a model", line, "unknown call")


def first_names(c):
    c.part = "local"
    resolves(c, "declared Rate", using("contract Rate", "tax Rate", declared=["Rate"]),
             {"contract Rate": "Rate2", "tax Rate": "Rate3"})
    c.count()
    resolves(c, "one root of one module", using("m A.B", "m A.C"), {"m A.B": "A.B", "m A.C": "A.C"})
    resolves(c, "builtins", using("builtins int", "builtins str", "builtins float"),
             {"builtins int": "int", "builtins str": "str", "builtins float": "float"})
    resolves(c, "declared list", using("builtins list", declared=["list"]), {"builtins list": "list2"})
    resolves(c, "builtins by an Attribute", using(Attr(Name("builtins"), "list"), "builtins int",
                                                  declared=["list"]),
             {"builtins list": "list2", "builtins int": "int"})
    resolves(c, "own module", using("r Rate", "r Rate.Inner", "r use", declared=["Rate"]),
             {"r Rate": "Rate", "r Rate.Inner": "Rate.Inner", "r use": "use"})
    resolves(c, "rest of an attribute",
             using("m Rate.Inner", "m Rate.Inner.Rate", "m Rate.x9", declared=["Rate"]),
             {"m Rate.Inner": "Rate2.Inner", "m Rate.Inner.Rate": "Rate2.Inner.Rate",
              "m Rate.x9": "Rate2.x9"})
    # The model that docs/FORMAT.md goes through byte by byte.
    resolves(c, "worked example of the format",
             [b"\x01", module("pay", classes=[cls("Rate")], functions=[func(
                 "due", regular=[arg("r", NONE, Attr(Name("tax"), "Rate"))], returns=Name("float"))])],
             {"tax Rate": "Rate2", "builtins float": "float"})
    refused(c, "declared but not used", "pay Rate", 14)
    c.good("payroll", (TOP / "examples" / "payroll.bin").read_bytes(), 2)
    for pair, name in {
        "typing final": "final", "builtins float": "float", "contract Party": "Party",
        "builtins str": "str", "contract Rate": "Rate2", "tax Rate": "Rate3",
        "payroll Employee": "Employee", "payroll Employee.Status": "Employee.Status",
        "payroll Employee.hours.setter": "Employee.hours.setter", "payroll Rate": "Rate",
        "enum Enum": "Enum", "decimal Decimal": "Decimal", "payroll.slips Slip": "Slip",
        "builtins property": "property", "builtins dict": "dict",
    }.items():
        named(c, "payroll", pair, name)
    for pair, name in {
        "dataclasses dataclass": "dataclass", "payroll Employee": "Employee",
        "payroll.slips Slip": "Slip", "builtins bytes": "bytes", "decimal Decimal": "Decimal",
    }.items():
        named(c, "payroll", pair, name, file=1)
    refused(c, "payroll", "contract Rate.standard", 14)
    refused(c, "payroll", "contract Rate", 14, file=1)
    refused(c, "payroll", "dataclasses dataclass", 14)


# A name, the next one, and so on.
CHAINS = [
    ["Rate", "Rate2", "Rate3", "Rate4"],
    ["Rate007", "Rate8", "Rate9", "Rate10"],
    ["Rate1", "Rate2", "Rate3"],
    ["Rate0", "Rate1", "Rate2"],
    ["Rate00", "Rate1", "Rate2"],
    ["Rate01", "Rate2"],
    ["Rate09", "Rate10"],
    ["Row9", "Row10", "Row11"],
    ["Row19", "Row20"],
    ["Row89", "Row90"],
    ["Row98", "Row99", "Row100", "Row101"],
    ["Row099", "Row100"],
    ["Row999999999", "Row1000000000"],
    ["R255", "R256"],
    ["R65535", "R65536"],
    ["R2147483647", "R2147483648"],
    ["R4294967295", "R4294967296"],
    ["R9223372036854775807", "R9223372036854775808"],
    ["R9999999999999999999", "R10000000000000000000"],
    ["R18446744073709551599", "R18446744073709551600"],
    ["R18446744073709551613", "R18446744073709551614", "R18446744073709551615"],
    ["R018446744073709551614", "R18446744073709551615"],
    ["R" + "0" * 43 + "18446744073709551614", "R18446744073709551615"],
    # Too large a number counts as 1, however many digits it has.
    ["R18446744073709551616", "R2", "R3"],
    ["R18446744073709551617", "R2"],
    ["R18446744073709551624", "R2"],
    ["R18446744073709551625", "R2"],
    ["R18446744073709551700", "R2"],
    ["R20000000000000000000", "R2"],
    ["R28446744073709551615", "R2"],
    ["R36893488147419103232", "R2"],
    ["R99999999999999999999", "R2"],
    ["R018446744073709551616", "R2"],
    ["R118446744073709551615", "R2"],
    ["R184467440737095516150", "R2"],
    ["R184467440737095516160", "R2"],
    ["R340282366920938463463374607431768211456", "R2"],
    ["R340282366920938463463374607431768211463", "R2"],
    ["R" + "9" * 63, "R2"],
    ["R1" + "0" * 62, "R2"],
    ["R" + "0" * 43 + "18446744073709551616", "R2"],
    # Zeros in front do not make it large.
    ["R" + "0" * 40 + "7", "R8", "R9"],
    ["R" + "0" * 63, "R1"],
    ["R" + "0" * 62 + "9", "R10"],
    # Only the digits at the end count.
    ["_", "_2", "_3"],
    ["__", "__2"],
    ["_9", "_10"],
    ["_0", "_1"],
    ["A1B", "A1B2"],
    ["A1_", "A1_2"],
    ["A1_9", "A1_10"],
    ["A9z99", "A9z100"],
    ["A99_", "A99_2"],
    ["z", "z2"],
    ["int", "int2"],
    ["None_", "None_2"],
    # A local name may be longer than an identifier of the model.
    ["x" * 63, "x" * 63 + "2"],
    ["x" * 64, "x" * 64 + "2", "x" * 64 + "3"],
    ["x" * 63 + "9", "x" * 63 + "10", "x" * 63 + "11"],
    ["x" * 62 + "99", "x" * 62 + "100"],
    ["x" + "9" * 18, "x1" + "0" * 18],
    ["x" * 45 + "9" * 19, "x" * 45 + "1" + "0" * 19],
    ["x" * 43 + "18446744073709551616", "x" * 43 + "2"],
]


def next_names(c):
    c.part = "local, next name"
    for chain in CHAINS:
        pairs = [f"{name} {chain[0]}" for name in "abcdefgh"[:len(chain)]]
        resolves(c, f"after {chain[0]}", using(*reversed(pairs)), dict(zip(pairs, chain)))
        if len(chain) > 2:
            resolves(c, f"{chain[0]} declared", using(f"m {chain[0]}.x", declared=chain[:1]),
                     {f"m {chain[0]}.x": chain[1] + ".x"})


def no_next_name(c):
    c.part = "local, no next name"
    resolves(c, "largest number used once", using(f"m {LAST}"), {f"m {LAST}": LAST})
    resolves(c, "largest number of one root", using(f"m {LAST}.b", f"m {LAST}", f"m {LAST}.a"),
             {f"m {LAST}": LAST, f"m {LAST}.a": LAST + ".a", f"m {LAST}.b": LAST + ".b"})
    resolves(c, "largest number of the own module", using(f"r {LAST}", declared=[LAST]), {f"r {LAST}": LAST})
    resolves(c, "largest number behind two names", using(f"a {LAST}", "b S18446744073709551615"),
             {f"a {LAST}": LAST, "b S18446744073709551615": "S18446744073709551615"})
    place = fails(c, "twice", 11, using(f"a {LAST}", at(ref(f"b {LAST}"))),
                  f"a {LAST}", f"b {LAST}", f"c {LAST}", "1 2")
    refused(c, "twice", f"a {LAST}", 11, place, room=0)
    refused(c, "twice", f"a {LAST}", 9, file=1)
    refused(c, "twice", f"a {LAST}", 9, file=LARGEST)
    fails(c, "twice, the later one in front", 11, using(at(ref(f"b {LAST}")), f"a {LAST}"), f"a {LAST}")
    fails(c, "declared", 11, using("builtins int", at(ref(f"a {LAST}")), declared=[LAST]),
          f"a {LAST}", "builtins int")
    before = "R18446744073709551614"
    fails(c, "third of one below", 11, using(at(ref(f"c {before}")), f"b {before}", f"a {before}"),
          f"a {before}", f"b {before}", f"c {before}")
    fails(c, "declared, and second of one below", 11,
          using(f"a {before}", at(ref(f"b {before}")), declared=[before]), f"a {before}", f"b {before}")
    # A local name of another root has taken it.
    fails(c, "taken by the next name of one below", 11,
          using(f"a {before}", f"b {before}", at(ref(f"c {LAST}"))), f"a {before}", f"c {LAST}")
    fails(c, "one below, behind the largest", 11,
          using(f"a {LAST}", f"b {before}", at(ref(f"c {before}"))), f"a {LAST}", f"b {before}")
    for title, zeros in [("zero in front", "0"), ("zeros up to 64 bytes", "0" * 43)]:
        name = f"R{zeros}{LARGEST}"
        fails(c, title, 11, using(f"a {name}", at(ref(f"b {name}"))), f"a {name}")
        resolves(c, title + ", once", using(f"a {name}", f"b {LAST}"), {f"a {name}": name, f"b {LAST}": LAST})
    fails(c, "front of 44 bytes", 11, using(f"a {'x' * 44}{LARGEST}", at(ref(f"b {'x' * 44}{LARGEST}"))),
          f"a {'x' * 44}{LARGEST}")

    # The first that fails in the order of taking counts, at the first of its own uses.
    fails(c, "two fail, the first taken stands behind", 11,
          using(f"c {LAST}", at(ref(f"b {LAST}.x")), f"a {LAST}"), f"a {LAST}", f"c {LAST}")
    fails(c, "two fail, the first taken stands in front", 11,
          using(f"a {LAST}", at(ref(f"b {LAST}.x")), f"c {LAST}"), f"a {LAST}")
    fails(c, "two attributes of one root fail", 11,
          using(f"b {LAST}.y", f"a {LAST}", at(ref(f"b {LAST}.x"))), f"a {LAST}", f"b {LAST}.x", f"b {LAST}.y")
    fails(c, "root itself and an attribute of it fail", 11,
          using(f"b {LAST}.x", f"a {LAST}", at(ref(f"b {LAST}"))), f"a {LAST}")
    fails(c, "two roots fail", 11,
          using("b S18446744073709551615", at(ref(f"b {LAST}")), "a S18446744073709551615", f"a {LAST}"),
          f"a {LAST}")
    fails(c, "used three times", 11,
          using(f"a {LAST}", at(ref(f"b {LAST}")), f"b {LAST}", f"b {LAST}"), f"a {LAST}")
    fails(c, "used in a class and its method, and as decorator", 11,
          model(classes=[cls("C", methods=[func("f", returns=at(ref(f"b {LAST}")))],
                             decorators=[ref(f"b {LAST}")])],
                functions=[use(f"a {LAST}", f"b {LAST}")]), f"a {LAST}")
    fails(c, "a default in front is no use", 11,
          model(functions=[func("f", regular=[arg("p", default=ref(f"b {LAST}"))]),
                           use(f"a {LAST}", at(ref(f"b {LAST}")))]), f"b {LAST}")
    resolves(c, "only a default would fail",
             model(functions=[func("f", regular=[arg("p", default=ref(f"b {LAST}"))]), use(f"a {LAST}")]),
             {f"a {LAST}": LAST})
    refused(c, "only a default would fail", f"b {LAST}", 14)
    fails(c, "a builtin, first by its Name", 11,
          using(at(Name(LAST)), Attr(Name("builtins"), LAST), declared=[LAST]), f"builtins {LAST}")
    fails(c, "a builtin, first by an Attribute", 11,
          using(at(Attr(Name("builtins"), LAST)), Name(LAST), declared=[LAST]), f"builtins {LAST}")
    fails(c, "under an Attribute", 11,
          using(f"a {LAST}", Attr(at(Attr(Name("b"), LAST)), "x")), f"b {LAST}")

    # Only the file that is asked for counts.
    piece = model(modules=[module("s", functions=[use(f"a {LAST}", at(ref(f"b {LAST}")))])],
                  functions=[use(f"b {LAST}")])
    fails(c, "in the submodule", 11, piece, f"a {LAST}", "m A", files=2, file=1)
    named(c, "in the submodule", f"b {LAST}", LAST)
    piece = model(modules=[module("s", functions=[use(f"b {LAST}")])],
                  functions=[use(f"a {LAST}", at(ref(f"b {LAST}")))])
    fails(c, "in the root", 11, piece, f"a {LAST}", f"b {LAST}", files=2)
    named(c, "in the root", f"b {LAST}", LAST, file=1)
    refused(c, "in the root", f"b {LAST}", 9, file=2)


def taken_names(c):
    c.part = "local, taken"
    resolves(c, "Rate and Rate2 declared", using("m Rate", declared=["Rate2", "Rate"]), {"m Rate": "Rate3"})
    resolves(c, "Rate2 declared", using("b Rate", "a Rate", declared=["Rate2"]),
             {"a Rate": "Rate", "b Rate": "Rate3"})
    resolves(c, "Rate and Rate3 declared", using("b Rate", "a Rate", "c Rate", declared=["Rate3", "Rate"]),
             {"a Rate": "Rate2", "b Rate": "Rate4", "c Rate": "Rate5"})
    resolves(c, "a later root is taken by an alias",
             using("b Rate2", "a Rate", "c Rate3", declared=["Rate"]),
             {"a Rate": "Rate2", "b Rate2": "Rate3", "c Rate3": "Rate4"})
    resolves(c, "an earlier root takes the alias", using("b Rate", "a Rate2", declared=["Rate"]),
             {"a Rate2": "Rate2", "b Rate": "Rate3"})
    resolves(c, "a later root of one module", using("m Rate2", "m Rate", declared=["Rate"]),
             {"m Rate": "Rate2", "m Rate2": "Rate3"})
    resolves(c, "a later root with parts", using("b Rate2.x", "a Rate.y", "b Rate2", declared=["Rate"]),
             {"a Rate.y": "Rate2.y", "b Rate2": "Rate3", "b Rate2.x": "Rate3.x"})
    resolves(c, "a root like one with zeros", using("m A", "m A02", "n A02", "n A2", declared=["A"]),
             {"m A": "A2", "m A02": "A02", "n A02": "A3", "n A2": "A4"})
    resolves(c, "a large number falls back to a taken name",
             using("a R2", "b R18446744073709551616", "c R18446744073709551616", "d R3"),
             {"a R2": "R2", "b R18446744073709551616": "R18446744073709551616",
              "c R18446744073709551616": "R3", "d R3": "R4"})
    resolves(c, "a long name and its alias", using("a " + "x" * 64, "b " + "x" * 64, "c " + "x" * 63 + "2"),
             {"a " + "x" * 64: "x" * 64, "b " + "x" * 64: "x" * 64 + "2", "c " + "x" * 63 + "2": "x" * 63 + "2"})
    resolves(c, "two names that differ at the end", using("a " + "x" * 63 + "a", "b " + "x" * 63 + "b"),
             {"a " + "x" * 63 + "a": "x" * 63 + "a", "b " + "x" * 63 + "b": "x" * 63 + "b"})
    resolves(c, "other case", using("a rate", "b RATE", declared=["Rate"]), {"a rate": "rate", "b RATE": "RATE"})
    resolves(c, "one a beginning of the other", using("a Rat", "b Rates", "c Rate", declared=["Rate"]),
             {"a Rat": "Rat", "b Rates": "Rates", "c Rate": "Rate2"})

    # One name for each module and root, however many attributes.
    resolves(c, "attributes of one root", using("m A.C", "m A", "m A.B", "m A.B.C", declared=["A"]),
             {"m A": "A2", "m A.B": "A2.B", "m A.B.C": "A2.B.C", "m A.C": "A2.C"})
    resolves(c, "attributes of two roots", using("m A2", "m A.C", "m A.B", "m A2.B", declared=["A"]),
             {"m A.B": "A2.B", "m A.C": "A2.C", "m A2": "A3", "m A2.B": "A3.B"})
    resolves(c, "one root in two modules", using("n A.B", "m A.C", "n A", "m A.B"),
             {"m A.B": "A.B", "m A.C": "A.C", "n A": "A2", "n A.B": "A2.B"})
    resolves(c, "one pair used again and again", using("n A", "m A", "n A", "m A", "n A"),
             {"m A": "A", "n A": "A2"})

    # Builtins are taken in their turn, like any module.
    resolves(c, "a module before builtins", using("builtins int", "array int"),
             {"array int": "int", "builtins int": "int2"})
    resolves(c, "a module behind builtins", using("zoo int", "builtins int"),
             {"zoo int": "int2", "builtins int": "int"})
    resolves(c, "modules around builtins",
             using("builtins_ T", "builtins.x T", "builtins T", "builtin T", "Builtins T"),
             {"Builtins T": "T", "builtin T": "T2", "builtins T": "T3", "builtins.x T": "T4", "builtins_ T": "T5"})
    resolves(c, "dotted Names", using("builtins a.b", "m a", "builtins a", "m a.b", declared=["a"]),
             {"builtins a": "a2", "builtins a.b": "a2.b", "m a": "a3", "m a.b": "a3.b"})
    resolves(c, "submodule called builtins",
             model(modules=[module("builtins", classes=[cls("int")],
                                   functions=[use("builtins int", "r.builtins int")])]),
             {"builtins int": "int2", "r.builtins int": "int"}, files=2, file=1)

    # The own module keeps its names, though others are taken before it.
    resolves(c, "own module among others", using("a Rate", "z Rate", "r Rate", declared=["Rate"]),
             {"a Rate": "Rate2", "r Rate": "Rate", "z Rate": "Rate3"})
    resolves(c, "own module's next name", using("a Rate", "r Rate2", "r Rate.x", declared=["Rate", "Rate2"]),
             {"a Rate": "Rate3", "r Rate2": "Rate2", "r Rate.x": "Rate.x"})

    # What binds a name, and what does not.
    for title, fields in [
        ("class", {"classes": [cls("T")]}),
        ("function", {"functions": [func("T")]}),
        ("attribute", {"attributes": [attr("T", NONE)]}),
        ("annotated attribute", {"attributes": [attr("T", annotation=NONE)]}),
        ("class, function and attribute",
         {"classes": [cls("T"), cls("T")], "functions": [func("T")], "attributes": [attr("T", NONE)] * 2}),
    ]:
        fields = dict(fields)
        fields["functions"] = fields.get("functions", []) + [use("m T", "n T")]
        resolves(c, f"declared {title}", model(**fields), {"m T": "T2", "n T": "T3"})
    for title, fields in [
        ("root", {}),
        ("method", {"classes": [cls("C", methods=[func("T")])]}),
        ("class attribute", {"classes": [cls("C", attributes=[attr("T", NONE)])]}),
        ("inner class", {"classes": [cls("C", inner=[cls("T")])]}),
        ("parameter", {"functions": [func("f", posonly=[arg("T")], regular=[arg("T")], vararg=arg("T"),
                                          kwonly=[arg("T")], kwarg=arg("T"))]}),
        ("module that is used", {"functions": [func("f", returns=ref("T U"))]}),
        ("further part that is used", {"functions": [func("f", returns=ref("a U.T"))]}),
        ("value", {"attributes": [attr("v", value=Tup(ref("a T"), Name("T")))]}),
        ("Str", {"attributes": [attr("v", annotation=Str("T"))]}),
        ("text over no Name", {"attributes": [attr("v", annotation=Attr(NONE, "T"))]}),
    ]:
        fields = dict(fields)
        fields["functions"] = fields.get("functions", []) + [use("m T")]
        piece = [b"\x01", module("T" if title == "root" else "r", **fields)]
        resolves(c, f"{title} binds nothing", piece, {"m T": "T"})
    resolves(c, "submodule binds nothing", model(modules=[module("T")], functions=[use("m T")]),
             {"m T": "T"}, files=2)
    resolves(c, "submodule's names bind nothing",
             model(modules=[module("s", classes=[cls("T")], functions=[use("a T")])], functions=[use("m T")]),
             {"m T": "T"}, files=2)
    resolves(c, "parent's names bind nothing",
             model(modules=[module("s", functions=[use("m T")])], classes=[cls("T")], functions=[use("a T")]),
             {"m T": "T"}, files=2, file=1)


def orders(c):
    c.part = "local, order"

    def turned(items):
        """In no order: from the middle backwards, then from the end."""
        half = len(items) // 2
        return items[half::-1] + items[:half:-1]

    def in_order(title, *modules, root="R"):
        """Modules in the order of taking. The root goes to the first, and the others have next names."""
        pairs = [f"{name} {root}" for name in modules]
        names = [root] + [f"{root}{number}" for number in range(2, len(pairs) + 1)]
        resolves(c, title, using(*turned(pairs)), dict(zip(pairs, names)))

    in_order("beginnings and dots", "a", "a.b", "a.b.c", "a.b0", "a.bc", "a0", "aB", "a_", "ab")
    in_order("letters and digits", "A", "A0", "A9", "AA", "A_", "Aa", "Z", "_", "_a", "a", "z")
    in_order("bytes, not lengths", "aaaa", "aab", "ab", "b")
    in_order("bytes, not numbers", "m1", "m10", "m100", "m11", "m2", "m9")
    in_order("upper case first", "Z", "a", root="Rate")
    in_order("builtins in its place", "a", "builtin", "builtins", "builtins.b", "builtinsx", "c")
    in_order("last byte", "x" * 63 + "a", "x" * 63 + "b", "x" * 64)
    dotted = ".".join(["p" * 63] * 4)
    in_order("255 bytes", dotted[:-1], dotted, dotted[:-1] + "q")
    in_order("128 parts", ".".join("a" * 127), ".".join("a" * 128), ".".join("a" * 127) + "a")
    # `a` comes before `a.B` whatever the attributes are: the two texts are not joined.
    in_order("texts are not joined", "a", "a.B")
    resolves(c, "split at another dot", using("a.b.c A", "a b.c.A", "a.b c.A", declared=["A", "b", "c"]),
             {"a b.c.A": "b2.c.A", "a.b c.A": "c2.A", "a.b.c A": "A2"})
    # The module counts before the attribute.
    resolves(c, "module before attribute", using("b A", "a A2", declared=["A"]), {"a A2": "A2", "b A": "A3"})
    resolves(c, "module before attribute, dots", using("a.b A", "a A2", declared=["A"]),
             {"a A2": "A2", "a.b A": "A3"})
    # In one module, attributes go by their bytes.
    resolves(c, "attributes by bytes, not numbers", using("m R9", "m R10", declared=["R9", "R10"]),
             {"m R10": "R11", "m R9": "R12"})
    resolves(c, "beginning first", using("m R2", "m R", declared=["R"]), {"m R": "R2", "m R2": "R3"})
    resolves(c, "dot before digit", using("m R2", "m R.z", declared=["R"]), {"m R.z": "R2.z", "m R2": "R3"})
    resolves(c, "upper case before lower case", using("m r1", "m R1", "m R0", declared=["R1", "R0", "r1"]),
             {"m R0": "R2", "m R1": "R3", "m r1": "r2"})
    resolves(c, "zeros by bytes", using("m R9", "m R09", "m R009", declared=["R9", "R09", "R009"]),
             {"m R009": "R10", "m R09": "R11", "m R9": "R12"})
    resolves(c, "shorter number behind", using("m R3", "m R12", "m R2", declared=["R2", "R12", "R3"]),
             {"m R12": "R13", "m R2": "R4", "m R3": "R5"})
    # Where a use stands, and how often, does not count.
    resolves(c, "classes, functions and attributes",
             model(classes=[cls("C", bases=[ref("d T")], methods=[func("f", returns=ref("c T"))])],
                   functions=[use("b T")], attributes=[attr("v", annotation=ref("a T"))]),
             {"a T": "T", "b T": "T2", "c T": "T3", "d T": "T4"})
    resolves(c, "used more often", using("b T", "b T", "b T", "a T"), {"a T": "T", "b T": "T2"})


def many(c):
    c.part = "local, many"
    # Every call has to resolve the file anew, so not all of its pairs are asked for.
    some = [0, 1, 2, 8, 9, 10, 98, 99, 100, 255, 256, 257, 510, 511]

    def scattered(items):
        return [items[number * 179 % 512] for number in range(512)]

    pairs = [f"m{number:03} A" for number in range(512)]
    numbered = ["A"] + [f"A{number}" for number in range(2, 1025)]
    resolves(c, "512 modules of one root", model(classes=[cls("B", bases=list(map(ref, scattered(pairs))))]),
             {pairs[number]: numbered[number] for number in some})
    refused(c, "512 modules of one root", "m512 A", 14)
    declared = declare(scattered(numbered[:512]))
    resolves(c, "512 declared names", model(classes=declared, functions=[func("A", returns=ref("m A"))]),
             {"m A": "A513"})
    resolves(c, "512 declared names and 512 modules of one root",
             model(classes=declared, functions=[func("A2", returns=Lst(*map(ref, scattered(pairs))))]),
             {pairs[number]: numbered[512 + number] for number in some})
    # The largest number that a root without one comes to, and with 255 bytes the longest local name.
    rest = ".".join(["p" * 63] * 3 + ["p" * 61])
    longest = f"m512 A.{rest}"
    load(c, "longest local name", model(classes=declared, functions=[func("A2", returns=Lst(
        *map(ref, scattered(pairs[1:] + [longest]))))]))
    for room in (None, 259, 260):
        named(c, "longest local name", longest, f"A1024.{rest}", room=room)
    for room in (0, 255, 256, 258):
        refused(c, "longest local name", longest, 15, 259, room=room)
    resolves(c, "511 declared names and a gap",
             model(classes=declare(name for name in numbered[:512] if name != "A300"),
                   functions=[func("A", returns=Tup(ref("n A"), ref("m A")))]),
             {"m A": "A300", "n A": "A513"})
    letters = short_names(512)
    resolves(c, "512 roots of the own module",
             model(classes=declare(letters), functions=[func(letters[0], returns=Lst(
                 *[Attr(Name("r"), name) for name in scattered(letters)]))]),
             {f"r {letters[number]}": letters[number] for number in some[::3]})
    resolves(c, "512 roots of another module, all declared",
             model(classes=declare(letters), functions=[func(letters[0], returns=Lst(
                 *[Attr(Name("m"), name) for name in scattered(letters)]))]),
             # a0 to a9 are declared too, so that these go on with a10, each behind the one before it.
             {"m aa": "aa2", "m aZ": "aZ2", "m a_": "a_2", "m a0": "a10", "m a1": "a11", "m a9": "a19"})
    resolves(c, "512 builtins", model(classes=[cls("use", bases=list(map(Name, scattered(letters))))]),
             {f"builtins {letters[number]}": letters[number] for number in some[1::3]})
    parts = [f"A.p{number}" for number in range(512)]
    resolves(c, "512 attributes of one root",
             model(classes=[cls("A", bases=[Attr(Name("m"), part) for part in scattered(parts)])]),
             {f"m {parts[number]}": "A2" + parts[number][1:] for number in some[2::3]})
    long_name = "x" * 64
    pairs = [f"m{number:02} {long_name}" for number in range(100)]
    resolves(c, "100 modules of a long root", using(*reversed(pairs)),
             {pairs[number]: long_name + ("" if number == 0 else str(number + 1))
              for number in (0, 1, 8, 9, 98, 99)})
    # The last of 512 has no next name: 511 are between the first number and the largest.
    pairs = [f"m{number:03} R{LARGEST - 510}" for number in range(512)]
    bases = [ref(pair) for pair in pairs[:511]]
    resolves(c, "511 up to the largest number", model(classes=[cls("B", bases=bases)]),
             {pairs[0]: f"R{LARGEST - 510}", pairs[1]: f"R{LARGEST - 509}", pairs[510]: LAST})
    fails(c, "512 past the largest number", 11,
          model(classes=[cls("B", bases=[at(ref(pairs[511]))] + bases)]), pairs[0], pairs[510], pairs[511])


def positions(c):
    c.part = "local, position"
    for title, _, is_collected, fields in expression_positions():
        load(c, title, model(**fields(Tup(Name("int"), Attr(Name("m"), "X.y")))))
        for pair, name in [("builtins int", "int"), ("m X.y", "X.y")]:
            if is_collected:
                named(c, title, pair, name)
            else:
                refused(c, title, pair, 14)
    # One use that counts is enough, and its place among the others is of no account.
    resolves(c, "value and annotation", model(attributes=[attr("a", ref("m T"), ref("m T"))]), {"m T": "T"})
    resolves(c, "default and annotation",
             model(functions=[func("f", regular=[arg("p", ref("m T"), ref("m T"))])]), {"m T": "T"})
    resolves(c, "all kinds of parameters",
             model(functions=[func("f", posonly=[arg("p", annotation=ref("m A"))],
                                   regular=[arg("p", annotation=ref("m B"))],
                                   vararg=arg("p", annotation=ref("m C")),
                                   kwonly=[arg("p", NONE, ref("m D"))],
                                   kwarg=arg("p", annotation=ref("m E")))]),
             {"m A": "A", "m B": "B", "m C": "C", "m D": "D", "m E": "E"})
    resolves(c, "second of each list",
             model(classes=[cls("K"), cls("L", bases=[NONE, ref("m A")], methods=[func("f"), func(
                 "g", decorators=[NONE, ref("m B")], regular=[arg("p"), arg("q", annotation=ref("m C"))])],
                 attributes=[attr("a", NONE), attr("b", annotation=ref("m D"))],
                 inner=[cls("I"), cls("J", decorators=[NONE, ref("m E")])])]),
             {"m A": "A", "m B": "B", "m C": "C", "m D": "D", "m E": "E"})
    chain = cls("C", bases=[ref("m A")])
    for _ in range(60):
        chain = cls("C", inner=[chain])
    resolves(c, "class at depth 62", model(classes=[chain]), {"m A": "A"})

    c.part = "local, inside"
    for title, holder in HOLDERS:
        load(c, title, model(attributes=[attr("a", annotation=holder(Attr(Name("m"), "X")))]))
        named(c, f"Attribute {title}", "m X", "X")
        refused(c, f"Attribute {title}", "m X.y", 14)
        refused(c, f"Attribute {title}", "builtins m", 14)
        load(c, title, model(attributes=[attr("a", annotation=holder(Name("N.o")))]))
        if title == "under Attribute":
            named(c, f"Name {title}", "N.o y", "y")
            refused(c, f"Name {title}", "builtins N.o", 14)
        else:
            named(c, f"Name {title}", "builtins N.o", "N.o")
            refused(c, f"Name {title}", "N.o y", 14)
        resolves(c, f"deep {title}",
                 model(attributes=[attr("a", annotation=held(holder, 62, Attr(Name("m"), "X")))]), {"m X": "X"})
    resolves(c, "all at once",
             using(Sub(Name("dict"), Tup(Name("str"), Lst(Or(ref("m A"), NONE), Sub(ref("m B"), Str("C"))),
                                         Attr(Sub(ref("n A"), Or(Int("1"), ref("n C.D"))), "E")))),
             {"builtins dict": "dict", "builtins str": "str", "m A": "A", "m B": "B", "n A": "A2", "n C.D": "C.D"})
    for pair in ("builtins C", "n E", "builtins E", "n A.E"):
        refused(c, "all at once", pair, 14)
    resolves(c, "three Attributes", using(Attr(Attr(Attr(Name("a.b"), "C.D"), "E"), "F")), {"a.b C.D": "C.D"})
    for pair in ("a.b C.D.E", "a.b C.D.E.F", "a.b.C D", "a.b C", "a b.C.D", "builtins a.b"):
        refused(c, "three Attributes", pair, 14)


def own_module(c):
    c.part = "local, own module"
    gone = Attr(Name("r"), "Gone")
    for title, _, is_collected, fields in expression_positions():
        if is_collected:
            fails(c, title, 10, model(**fields(at(gone))), "r Gone")
        else:
            # A value or default is not collected, so nothing is wrong with it here.
            load(c, title, model(**fields(gone)))
            refused(c, title, "r Gone", 14)
    for title, holder in HOLDERS:
        fails(c, title, 10, model(attributes=[attr("a", annotation=holder(at(gone)))]), "r Gone", "m A")

    piece = using("m A", at(gone), "r use", declared=["A"])
    place = fails(c, "whatever is asked for", 10, piece, "r Gone", "m A", "r use", "n B", "1 2", "r A")
    refused(c, "before the room", "m A", 10, place, room=0)
    refused(c, "file number first", "r Gone", 9, file=1)
    fails(c, "two uses", 10, using(at(gone), gone), "r Gone")
    fails(c, "two pairs, the later taken in front", 10, using(at(ref("r Z")), ref("r A")), "r A")
    fails(c, "three pairs", 10, using("r use", at(ref("r B.x")), "r C", "r A"), "r use")
    fails(c, "class before function", 10,
          model(classes=[cls("C", bases=[at(gone)])], functions=[use(gone)]), "m A")
    fails(c, "function before attribute", 10,
          model(functions=[use(at(gone))], attributes=[attr("a", annotation=gone)]), "m A")
    fails(c, "method before class decorator", 10,
          model(classes=[cls("C", methods=[func("f", returns=at(gone))], decorators=[gone])]), "m A")
    fails(c, "base before method", 10,
          model(classes=[cls("C", bases=[at(gone)], methods=[func("f", returns=gone)])]), "m A")
    fails(c, "class decorator before inner class", 10,
          model(classes=[cls("C", decorators=[at(gone)], inner=[cls("D", bases=[gone])])]), "m A")
    fails(c, "decorator before parameter", 10,
          model(functions=[func("f", decorators=[at(gone)], regular=[arg("p", annotation=gone)],
                                returns=gone)]), "m A")
    fails(c, "parameter before returns", 10,
          model(functions=[func("f", kwarg=arg("p", annotation=at(gone)), returns=gone)]), "m A")
    fails(c, "a default in front is no use", 10,
          model(functions=[func("f", regular=[arg("p", default=gone, annotation=at(gone))])]), "m A")
    fails(c, "a value in front is no use", 10,
          model(attributes=[attr("a", value=gone, annotation=at(gone))]), "m A")
    fails(c, "slice behind the value", 10, using(Sub(Name("list"), at(gone))), "builtins list")
    fails(c, "inner of two Attributes", 10, using(Attr(at(Attr(Name("r"), "Gone")), "use")), "r Gone")

    for title, attribute, declared in [
        ("root with parts", "Gone.Inner", ["Inner"]),
        ("a longer name is declared", "Rate", ["Rates", "Rate2"]),
        ("a shorter name is declared", "Rates", ["Rate"]),
        ("other case is declared", "rate", ["Rate", "RATE"]),
        ("last byte of 64", "x" * 63 + "a", ["x" * 63 + "b", "x" * 63]),
    ]:
        fails(c, title, 10, using(at(Attr(Name("r"), attribute)), declared=declared), f"r {attribute}")
    fails(c, "only an alias has the name", 10, using("a Rate", at(ref("r Rate2")), declared=["Rate"]), "a Rate")
    fails(c, "only another module has the name", 10, using("a Rate", at(ref("r Rate"))), "a Rate")
    for title, fields in [
        ("method", {"classes": [cls("C", methods=[func("T")])]}),
        ("class attribute", {"classes": [cls("C", attributes=[attr("T", NONE)])]}),
        ("inner class", {"classes": [cls("C", inner=[cls("T")])]}),
        ("parameter", {"functions": [func("f", regular=[arg("T")])]}),
    ]:
        fields = dict(fields)
        fields["functions"] = fields.get("functions", []) + [use(at(ref("r T")))]
        fails(c, f"{title} is not declared", 10, model(**fields), "r T")
    fails(c, "root's own name is not declared", 10, using(at(ref("r r"))), "r r")
    for title, fields in [("class", {"classes": [cls("T")]}), ("function", {"functions": [func("T")]}),
                          ("attribute", {"attributes": [attr("T", NONE)]})]:
        fields = dict(fields)
        fields["functions"] = fields.get("functions", []) + [use("r T.U", "r T")]
        resolves(c, f"{title} is declared", model(**fields), {"r T": "T", "r T.U": "T.U"})
    resolves(c, "declared behind its use",
             model(classes=[cls("C", bases=[ref("r T")])], functions=[use("r C")], attributes=[attr("T", NONE)]),
             {"r T": "T", "r C": "C"})
    resolves(c, "Names are no references to the own module",
             using("builtins Gone", "builtins r", "builtins r.Gone"),
             {"builtins Gone": "Gone", "builtins r": "r", "builtins r.Gone": "r.Gone"})
    resolves(c, "modules like the own one", using("rr Gone", "R Gone", "r.r Gone", "r_ Gone"),
             {"R Gone": "Gone", "r.r Gone": "Gone2", "r_ Gone": "Gone3", "rr Gone": "Gone4"})

    fails(c, "before the lack of a next name", 10, using(at(gone), f"a {LAST}", f"b {LAST}"),
          f"a {LAST}", "r Gone")
    fails(c, "behind the lack of a next name", 10, using(f"a {LAST}", f"b {LAST}", at(gone)),
          f"a {LAST}", "r Gone")
    fails(c, "own module taken before one without next name", 10,
          using(f"s {LAST}", f"t {LAST}", at(ref(f"r {LAST}"))), f"s {LAST}")


def several_files(c):
    c.part = "local, files"
    # The files by number, as their modules' chains of names.
    chains = ["r", "r.a", "r.a.b", "r.a.c", "r.d", "r.d.a"]

    def body(number):
        """Each file declares as many of T, T2, .. as its number says, and uses all files' `use`."""
        names = ["T", "T2", "T3", "T4", "T5"][:number]
        pairs = [f"{chain} use" for chain in reversed(chains)]
        return {"classes": declare(names), "functions": [use("x T", *pairs)]}

    tree = [b"\x01", module("r", modules=[
        module("a", modules=[module("b", **body(2)), module("c", **body(3))], **body(1)),
        module("d", modules=[module("a", **body(5))], **body(4))], **body(0))]
    load(c, "six files", tree, 6)
    c.count()
    for number, chain in enumerate(chains):
        named(c, "six files", "x T", ["T", "T2", "T3", "T4", "T5", "T6"][number], file=number)
        aliases = iter(["use2", "use3", "use4", "use5", "use6"])
        for other in chains:
            named(c, "six files", f"{other} use", "use" if other == chain else next(aliases), file=number)
    for number in (6, 7, 100, 255, 256, 65_535, 65_536, 4_294_967_296, LARGEST - 1, LARGEST):
        refused(c, "six files", "x T", 9, file=number)
    refused(c, "no such file before no such pair", "1 2", 9, file=6)
    refused(c, "no such file before the room", "x T", 9, file=6, room=0)
    for number in ("00", "000000000000000000000000000000"):
        named(c, "zeros in front", "x T", "T", file=number)
    named(c, "zeros in front", "x T", "T6", file="000000000000000000000000000005")
    refused(c, "zeros in front", "x T", 9, file="06")
    refused(c, "zeros in front", "x T", 9, file=f"0000{LARGEST}")

    load(c, "each file its own pairs",
         model(modules=[module("a", modules=[module("b", functions=[use("m C")])], functions=[use("m B")])],
               functions=[use("m A")]), 3)
    for number in range(3):
        for other, attribute in enumerate("ABC"):
            if number == other:
                named(c, "each file its own pairs", f"m {attribute}", attribute, file=number)
            else:
                refused(c, "each file its own pairs", f"m {attribute}", 14, file=number)

    # What is the own module in one file is another module in the next.
    load(c, "own and other",
         model(modules=[module("a", classes=[cls("X")], functions=[use("r.a X", "r X", "a X", "r a.X")])],
               classes=[cls("X")], functions=[use("r.a X", "r X", "a X")]), 2)
    for pair, name in {"r X": "X", "r.a X": "X3", "a X": "X2"}.items():
        named(c, "own and other", pair, name)
    for pair, name in {"r X": "X3", "r.a X": "X", "a X": "X2", "r a.X": "a.X"}.items():
        named(c, "own and other", pair, name, file=1)
    refused(c, "own and other", "r a.X", 14)

    # A submodule is not declared: from the root, its name is no attribute of the own module.
    piece = model(modules=[module("a", functions=[use("r a", "r a.use")])], functions=[use(at(ref("r a.use")))])
    fails(c, "submodule as an attribute", 10, piece, "r a.use", files=2)
    named(c, "submodule as an attribute", "r a.use", "a.use", file=1)
    named(c, "submodule as an attribute", "r a", "a", file=1)
    piece = model(modules=[module("a", functions=[use(at(ref("r.a X")), "r X")])],
                  classes=[cls("X")], functions=[use("r.a X", "r X")])
    fails(c, "declared in the parent alone", 10, piece, "r.a X", "r X", files=2, file=1)
    for pair, name in {"r X": "X", "r.a X": "X2"}.items():
        named(c, "declared in the parent alone", pair, name)
    piece = model(modules=[module("a", classes=[cls("X")], functions=[use("r.a X")])],
                  functions=[use(at(ref("r X")))])
    fails(c, "declared in the submodule alone", 10, piece, "r X", files=2)
    named(c, "declared in the submodule alone", "r.a X", "X", file=1)
    piece = model(modules=[module("a", functions=[use("m A")]), module("b", functions=[use(at(ref("r.b X")))]),
                           module("c", functions=[use("m A")])], functions=[use("r.b X")])
    fails(c, "one file of four", 10, piece, "m A", "r.b X", files=4, file=2)
    for number, pair, name in [(0, "r.b X", "X"), (1, "m A", "A"), (3, "m A", "A")]:
        named(c, "one file of four", pair, name, file=number)
    refused(c, "one file of four", "m A", 9, file=4)
    # Own modules at fault in two files: each has its own place.
    one, two = load(c, "two files at fault",
                    model(modules=[module("a", functions=[use(at(ref("r.a X")))])],
                          functions=[use(at(ref("r X")))]), 2)
    refused(c, "two files at fault", "r.a X", 10, one, file=1)
    refused(c, "two files at fault", "r X", 10, two, file=0)

    innermost = module("r", classes=[cls("X")], functions=[use("r X", "r.r X", "r.r.r X", "r.r.r.r X")])
    load(c, "one name all the way down", model(modules=[module("r", modules=[innermost])]), 3)
    for pair, name in {"r X": "X2", "r.r X": "X3", "r.r.r X": "X", "r.r.r.r X": "X4"}.items():
        named(c, "one name all the way down", pair, name, file=2)
    refused(c, "one name all the way down", "r X", 14, file=1)

    # At depth 62 an Attribute reaches 63, and its Name 64.
    own = ".".join(["m"] * 62)
    load(c, "62 modules in one another", [b"\x01", module_chain(62, module("m", functions=[func(
        "X", returns=Tup()), func("use", returns=ref(f"{own} X")), func("more", returns=ref(f"{own[2:]} X")),
        func("most", returns=ref(f"{own}.m X"))]))], 62)
    for pair, name in {f"{own} X": "X", f"{own[2:]} X": "X2", f"{own}.m X": "X3"}.items():
        named(c, "62 modules in one another", pair, name, file=61)
    refused(c, "62 modules in one another", f"{own} X", 14, file=60)
    refused(c, "62 modules in one another", f"{own} X", 9, file=62)

    # An own module of 255 bytes can be referred to; a longer one cannot.
    part = "p" * 63
    dotted = ".".join([part] * 4)
    deep = module(part, modules=[module("q", classes=[cls("X")], functions=[use(f"{dotted} X")])],
                  classes=[cls("X")], functions=[use(f"{dotted} X", f"{dotted[:-1]} X", f"{dotted[:-1]}q X")])
    for _ in range(3):
        deep = module(part, modules=[deep])
    load(c, "own module of 255 bytes", [b"\x01", deep], 5)
    for pair, name in {f"{dotted} X": "X", f"{dotted[:-1]} X": "X2", f"{dotted[:-1]}q X": "X3"}.items():
        named(c, "own module of 255 bytes", pair, name, file=3)
    named(c, "own module of 257 bytes", f"{dotted} X", "X2", file=4)

    names = short_names(127)
    load(c, "128 files",
         model(modules=[module(name, functions=[use(f"r.{name} use", "r use")]) for name in names]), 128)
    for number in (1, 2, 63, 64, 126, 127):
        named(c, "128 files", f"r.{names[number - 1]} use", "use", file=number)
        named(c, "128 files", "r use", "use2", file=number)
    refused(c, "128 files", "r use", 14, file=0)
    refused(c, "128 files", f"r.{names[1]} use", 14, file=1)
    refused(c, "128 files", "r use", 9, file=128)


def sessions(c):
    c.part = "local, session"
    first = using("m A", "n A")
    resolves(c, "first model", first, {"m A": "A", "n A": "A2"})
    named(c, "asked again", "n A", "A2")
    named(c, "asked again", "m A", "A")
    refused(c, "refused", "k A", 14)
    refused(c, "refused", "m A", 15, 1, room=0)
    named(c, "after refusals", "n A", "A2")

    def as_before(title):
        named(c, f"after a refused load, {title}", "n A", "A2")
        refused(c, f"after a refused load, {title}", "k A", 14)

    c.bad_at("refused load, version", 2, b"\x02", 0)
    as_before("version")
    c.cut("refused load, layout", flat(using("k A"))[0][:-1])
    as_before("layout")
    c.bad("refused load, name", 3, model(functions=[use("k A"), at(func("1"))]))
    as_before("name")
    c.bad("refused load, two modules", 5,
          model(modules=[module("s"), at(module("s"))], functions=[use("k A")]))
    as_before("two modules")
    c.line("refused load, empty", "load", "refused 1 at 0")
    named(c, "after an empty load", "m A", "A")
    c.unknown("no call", "local 0 m")
    named(c, "after no call", "m A", "A")
    resolves(c, "second model", using("k A", "n A", declared=["A"]), {"k A": "A2", "n A": "A3"})
    refused(c, "pair of the first model", "m A", 14)
    resolves(c, "first model again", first, {"n A": "A2", "m A": "A"})
    refused(c, "pair of the second model", "k A", 14)
    c.good("least model", model())
    refused(c, "least model", "m A", 14)
    refused(c, "least model", "builtins int", 14)
    refused(c, "least model", "r r", 14)
    refused(c, "least model", "r r", 9, file=1)
    # A file that cannot be resolved still counts, and the next model is not touched by it.
    fails(c, "own module at fault", 10, using(at(ref("r X"))), "r X")
    c.count()
    resolves(c, "first model after it", first, {"n A": "A2"})


def not_collected(c):
    c.part = "local, not collected"
    piece = model(
        classes=[cls("D"), cls("E"), cls("Rate")],
        functions=[func("f", regular=[arg("p", default=ref("m Unused"))],
                        returns=Tup(ref("m A.B"), ref("m.n C"), ref("builtins int"), ref("builtins a.b"),
                                    ref("r D"), ref("k lm"), ref("contract Rate"), ref("m Zz.y")))],
        attributes=[attr("v", value=Tup(ref("m V"), Name("w")))])
    resolves(c, "collected", piece,
             {"m A.B": "A.B", "m.n C": "C", "builtins int": "int", "builtins a.b": "a.b", "r D": "D", "k lm": "lm",
              "contract Rate": "Rate2", "m Zz.y": "Zz.y"})
    for title, pairs in {
        "shorter attribute": ["m A", "builtins a", "k l", "m.n c", "m Zz"],
        "longer attribute": ["m A.B.C", "m A.BB", "m A.B2", "m.n C.D", "builtins int2", "r D.x", "k lmn"],
        "other attribute": ["m A.C", "m B", "m A.b", "m a.B", "m.n D", "builtins str", "m Zz.z"],
        "other module": ["n A.B", "M A.B", "mm A.B", "m.n A.B", "m.m A.B", "builtins A.B", "r A.B", "m C",
                         "k.l lm", "r int", "r.D D", "f D", "builtins D", "m int"],
        "split elsewhere": ["m n.C", "m.A B", "kl m", "builtins.int int", "a b", "mA .B", "m.nC C",
                            "m.n.C C", "m. A.B", "m .A.B", "m A.B.", "m.n. C"],
        "other way round": ["A.B m", "int builtins", "D r"],
        "declared but not used": ["r E", "r f", "r v", "r Rate", "builtins E"],
        "only in a value or default": ["m V", "builtins w", "m Unused"],
        "local name for the pair": ["contract Rate2", "r Rate2", "builtins Rate2"],
        "no names": ["1 1", "a..b x", "m a..b", "m 1", ". .", "m .", "\u00e9 \u00e9", "m \u00e9", "m None",
                     "None None", "m A-B", "m A,B", "m 'A.B'", "- -", "m A.B;", "m \u0131nt",
                     "m \u20ac\U0001f4b6"],
        "bytes that are no UTF-8": ["m \udcff", "\udcc3 A.B", "m A.B\udc80"],
        # Only a space ends a word.
        "bytes around a name": ["m A.B\t", "m A.B\t9", "m\t A.B", "\tm A.B", "m \tA.B", "m A.B\r", "m\r A.B",
                                "m A.B\x0b", "m\u00a0 A.B"],
        "long words": ["m " + "A" * 64, "m " + "A" * 65, "m A.B" + "B" * 252, "m A.B" + "B" * 253,
                       "m" * 256 + " A.B", "m " + "A.B" * 300, "m.n" * 1000 + " C", "m " + "x" * 5000],
    }.items():
        for pair in pairs:
            refused(c, title, pair, 14)
    refused(c, "before the room", "m A", 14, room=0)
    refused(c, "with room", "m A", 14, room=LARGEST_ROOM)
    named(c, "still there", "m A.B", "A.B")
    # A number in place of the attribute is the attribute.
    refused(c, "number for an attribute", "m 5", 14)
    refused(c, "numbers for all", "0 0", 14)
    refused(c, "numbers for all", "0 0", 14, room=0)
    for pair, count in [("builtins int", 1), ("m Gone", 2)]:
        load(c, "values alone", model(attributes=[attr("v", value=held(Tup, count, ref(pair)))]))
        refused(c, "values alone", pair, 14)


def rooms(c):
    c.part = "local, room"
    long_rest = ".".join(["p" * 63] * 4)
    alias_rest = ".".join(["x" * 64] + ["q" * 62] + ["p" * 63] * 2)
    assert len(long_rest) == len(alias_rest) == 255
    pairs = {
        "m A.B": "A.B",                          # as long as the attribute
        "m z": "z",
        "m Rate.Inner": "Rate2.Inner",           # longer
        "m Row9": "Row10",
        "m Rate007": "Rate8",                    # shorter
        "m R18446744073709551616": "R2",
        "m " + "x" * 64: "x" * 64 + "2",
        "m " + alias_rest: "x" * 64 + "2" + alias_rest[64:],
        "m " + long_rest: long_rest,
        "builtins int": "int",
        "r Rate": "Rate",
    }
    load(c, "rooms", using(*pairs, declared=["Rate", "Row9", "Rate007", "R18446744073709551616", "x" * 64]))
    for pair, name in pairs.items():
        length = len(name)
        for room in sorted({0, length - 1}):
            refused(c, f"{length} bytes", pair, 15, length, room=room)
        for room in (length, length + 1, 512):
            named(c, f"{length} bytes", pair, name, room=room)
        named(c, f"{length} bytes", pair, name)
    for room in (1, 2):
        refused(c, "3 bytes", "m A.B", 15, 3, room=room)
    for room in (255, 256, 511, 513, 1000, 4096, 65_535, LARGEST_ROOM):
        named(c, "large", "m A.B", "A.B", room=room)
    refused(c, "length of the attribute is not enough", "m Row9", 15, 5, room=4)
    named(c, "length of the attribute is not needed", "m Rate007", "Rate8", room=5)
    for room in ("00", "0000000000000000000000000000000000", "02", "0000000000000000000000000000000002"):
        refused(c, "zeros in front", "m A.B", 15, 3, room=room)
    for room in ("03", "0000000000000000000000000000000003", "00065536", "0" * 60 + "65536"):
        named(c, "zeros in front", "m A.B", "A.B", room=room)
    refused(c, "no such pair, no room", "m A", 14, room=0)
    refused(c, "no such file, no room", "m A.B", 9, file=1, room=0)
    named(c, "still there", "m A.B", "A.B", room=3)


def lines(c):
    c.part = "local, line"
    load(c, "two files", model(modules=[module("s", functions=[use("m A")])], functions=[use("m A")]), 2)
    named(c, "right", "m A", "A")
    for title, texts in {
        "word missing": ["local", "local 0", "local 0 m", "local m A", "local m"],
        "word too many": ["local 0 m A 9 9", "local 0 m A 9 m", "local 0 m A m A", "local 0 0 m A",
                          "local 0 m A 9 9 9", "local local 0 m A", "count local 0 m A", "local 0 m A count"],
        "two spaces": ["local  0 m A", "local 0  m A", "local 0 m  A", "local 0 m A  9", "local 0 m  ",
                       "local 0  A", "local  m A", "local   ", "local 0   "],
        "space at an end": [" local 0 m A", "local 0 m A ", "local 0 m A 9 ", "local ", "local 0 ", "local 0 m ",
                            "  local 0 m A", "local 0 m A  "],
        "other space": ["local\t0 m A", "local 0\tm A", "local 0 m\tA", "local 0 m\tA\t9", "local 0 m A 9\t",
                        "local 0 m A 9\r", "local 0\r m A", "local\r", "local 0\u00a0m A", "local\u00a00 m A"],
        "number with a sign": ["local +0 m A", "local -0 m A", "local -1 m A", "local 0 m A +9", "local 0 m A -9",
                               "local 0 m A -0", "local - m A", "local + m A", "local 0 m A -"],
        "no number": ["local x m A", "local 0x0 m A", "local 0x m A", "local 1x m A", "local x1 m A",
                      "local 0_0 m A", "local 0.0 m A", "local 0, m A", "local 1e0 m A", "local \u0660 m A",
                      "local 0\u0661 m A", "local \u00b2 m A", "local / m A", "local : m A", "local 0: m A",
                      "local a m A", "local \udcb0 m A",
                      "local 0 m A x", "local 0 m A 9x", "local 0 m A x9", "local 0 m A 0x9", "local 0 m A 9.",
                      "local 0 m A 1_0", "local 0 m A 9,", "local 0 m A \u0669", "local 0 m A /", "local 0 m A 9:",
                      "local 0 m A A", "local 0 m A ''", "local '0' m A"],
        "file number too large": [f"local {LARGEST + 1} m A", f"local {LARGEST + 2} m A",
                                  f"local 000{LARGEST + 1} m A", "local 18446744073709551620 m A",
                                  "local 28446744073709551615 m A",
                                  "local 99999999999999999999 m A", "local 184467440737095516150 m A",
                                  "local 340282366920938463463374607431768211456 m A", f"local {'9' * 80} m A",
                                  f"local 1{'0' * 300} m A", f"local {LARGEST + 1} m A 9"],
        "room too large": [f"local 0 m A {LARGEST_ROOM + 1}", f"local 0 m A 000{LARGEST_ROOM + 1}",
                           "local 0 m A 65546", "local 0 m A 70000", "local 0 m A 131072", "local 0 m A 100000",
                           "local 0 m A 4294967296", "local 0 m A 4294967305", f"local 0 m A {LARGEST}",
                           f"local 0 m A {LARGEST + 1}", f"local 0 m A {LARGEST + 10}",
                           "local 0 m A 99999999999999999999", f"local 0 m A {'9' * 80}",
                           f"local 2 m A {LARGEST_ROOM + 1}", f"local 0 k A {LARGEST_ROOM + 1}"],
        "other word": ["Local 0 m A", "LOCAL 0 m A", "locals 0 m A", "loca 0 m A", "local0 m A", "local: 0 m A",
                       "name 0 m A", "0 m A", "m A"],
    }.items():
        for line in texts:
            c.line(f"{title}: {line[:60]}", line, "unknown call")
    c.count()
    named(c, "right still", "m A", "A", file=1, room=1)
    named(c, "zeros in front", "m A", "A", file="0" * 70 + "1", room="0" * 70 + "1")
    refused(c, "largest file number", "m A", 9, file=LARGEST, room=1)
    refused(c, "largest file number, zeros in front", "m A", 9, file="0" * 70 + str(LARGEST))


# ---- models from a generator

ROOTS = ["A", "A2", "A3", "A02", "A9", "A10", "B", "C", "f", "a", "R18446744073709551616", "R2", "x" * 64]
MODULES = ["Z", "a", "a.b", "ab", "builtins", "r", "r.m", "r.m.k"]


def generated(c):
    """Answers by the resolver alone; asserted is what is known without it."""
    c.part = "local, generated"
    # Of random() alone Python promises the same numbers in every version.
    chance = random.Random(20).random

    def pick(items):
        return items[int(chance() * len(items))]

    def several(items, most):
        return [pick(items) for _ in range(int(chance() * (most + 1)))]

    places = {wanted: [fields for _, _, is_collected, fields in expression_positions() if is_collected == wanted]
              for wanted in (True, False)}
    wrappers = [lambda e: e, lambda e: e, *[holder for title, holder in HOLDERS if title != "under Attribute"]]

    def some_file(own):
        """The fields of a module, and the pairs that its file collects."""
        fields = {"classes": [], "functions": [], "attributes": []}

        def put(more):
            for field, records in more.items():
                # In front or behind, so that order in the file and order of taking differ.
                fields[field] = records + fields[field] if chance() < 0.5 else fields[field] + records

        # Few roots in a file, so that many references want the same name.
        roots = [pick(ROOTS[:6]), pick(ROOTS[:6]), pick(ROOTS)]
        if chance() < 0.2:
            roots.append(pick([LAST, "R18446744073709551614"]))
        for name in several(roots + ROOTS[:1], 4):
            put(pick([{"classes": [cls(name)]}, {"functions": [func(name)]}, {"attributes": [attr(name, NONE)]}]))
        used = []
        for _ in range(3 + int(chance() * 6)):
            root = pick(roots)
            pair = f"{pick(MODULES)} {root}{pick(['', '', '.x', '.y', '.A'])}"
            # A root of the own module is declared, but for one time in ten.
            if pair.startswith(own + " ") and chance() < 0.9:
                put({"classes": [cls(root)]})
            used.append(pair)
            for _ in range(1 + int(chance() * 2)):
                put(pick(places[True])(pick(wrappers)(ref(pair))))
        for pair in [pick(used), f"{pick(MODULES)} {pick(ROOTS)}"]:
            put(pick(places[False])(pick(wrappers)(ref(pair))))
        return fields, set(used)

    for number in range(33):
        own_modules = ["r", "r.m", "r.m.k"][:1 + number % 3]
        parts = [some_file(own) for own in own_modules]
        inner = []
        for own, (fields, _) in reversed(list(zip(own_modules, parts))):
            inner = [module(own.split(".")[-1], modules=inner, **fields)]
        piece = [b"\x01", inner[0]]
        assert not load(c, f"model {number}", piece, len(parts))
        root = Reader(flat(piece)[0]).model()
        for file, (own, (_, used)) in enumerate(zip(own_modules, parts)):
            check_laws(own, files(root)[file], used)
            # All pairs of the last file, and a few of the others.
            asked = sorted(used) if file == len(parts) - 1 else sorted(used)[:2]
            near, attribute = pick(sorted(used)).split(" ")
            asked.append(pick([f"{near} {attribute.split('.')[0]}", f"{near} {attribute}.x",
                               f"{pick(MODULES)} {attribute}"]))
            for pair in asked:
                room = None
                if chance() < 0.3:
                    room = len(pair.split(" ")[1]) - 1 + int(chance() * 3)
                try:
                    answer = "local " + local_name(root, file, *pair.split(" "), 512 if room is None else room)
                except Refused as fault:
                    answer = f"refused {fault.number} at {fault.place}"
                ask(c, f"model {number}", pair, answer, file, room)


def check_laws(own, file, used):
    """What holds of every file that can be resolved."""
    assert {f"{name.decode()} {attribute.decode()}" for _, name, attribute in collected(file)} == used
    try:
        names = resolved(own.encode(), file)
    except Refused:
        return
    declared = {node.name for field in ("classes", "functions", "attributes")
                for node in file.fields.get(field, [])}
    first = {}
    for (name, attribute), local in names.items():
        root, alias = attribute.split(b".")[0], local.split(b".")[0]
        assert attribute[len(root):] == local[len(alias):]
        assert (alias in declared) == (name == own.encode())
        assert first.setdefault(alias, (name, root)) == (name, root)
    assert len(first) == len(set(first.values()))


PARTS = (first_names, next_names, no_next_name, taken_names, orders, many, positions, own_module, several_files,
         sessions, not_collected, rooms, lines, generated)


# =============================================================================
# The resolver. A file's declared names are bound first, each to the own module and
# itself. Then the collected pairs are taken in order of bytes, the module before the
# attribute. Of each pair the root is tried, then one next name after the other, until a
# name is free, and is bound to this module and root, or has been bound to them already.

def next_name(name):
    """The name tried after this one, or None."""
    digits = re.search(rb"[0-9]*\Z", name).group()
    number = int(digits) if digits else 1
    if number == LARGEST:
        return None
    if number > LARGEST:
        number = 1
    return name[:len(name) - len(digits)] + str(number + 1).encode()


def file_at(root, wanted):
    """Own module and module node of a file, or Refused."""
    found = []

    def visit(node, holders):
        chain = holders + [node.name]
        found.append((b".".join(chain), node))
        for below in node.fields.get("modules", []):
            visit(below, chain)

    visit(root, [])
    if wanted >= len(found):
        raise Refused(9, 0)
    return found[wanted]


@lru_cache(maxsize=8)
def resolved(own, file):
    """The local name of each collected pair, or Refused."""
    uses = {}
    for place, *pair in collected(file):
        uses.setdefault(tuple(pair), []).append(place)
    bound = {}
    for field in ("classes", "functions", "attributes"):
        for node in file.fields.get(field, []):
            bound[node.name] = (own, node.name)
    lost = [place for (name, attribute), places in uses.items()
            if name == own and attribute.split(b".")[0] not in bound for place in places]
    if lost:
        raise Refused(10, min(lost))
    local_names = {}
    for name, attribute in sorted(uses):
        root, dot, rest = attribute.partition(b".")
        trial = root
        while trial in bound and bound[trial] != (name, root):
            trial = next_name(trial)
            if trial is None:
                raise Refused(11, min(uses[name, attribute]))
        bound[trial] = (name, root)
        local_names[name, attribute] = trial + dot + rest
    return local_names


def asked_by(line):
    """File number, module, attribute and room of a line; None for a line that is no call of `local`."""
    words = line.split(" ")
    if len(words) not in (4, 5) or words[0] != "local" or "" in words:
        return None
    numbers = words[1:2] + words[4:]
    if not all(re.fullmatch("[0-9]+", word) for word in numbers):
        return None
    file, room = int(words[1]), int(words[4]) if len(words) == 5 else 512
    if file > LARGEST or room > LARGEST_ROOM:
        return None
    return file, words[2], words[3], room


def local_name(root, file, module_name, attribute, room):
    """The local name as text, or Refused. The root is None where no model is loaded."""
    if root is None:
        raise Refused(8, 0)
    names = resolved(*file_at(root, file))
    pair = tuple(word.encode("utf-8", "surrogateescape") for word in (module_name, attribute))
    if pair not in names:
        raise Refused(14, 0)
    if len(names[pair]) > room:
        raise Refused(15, len(names[pair]))
    return names[pair].decode()
