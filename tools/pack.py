#!/usr/bin/env python3
"""Pack a JSON description of Python modules into the bytes that Pumpsooner loads.

The tool packs and nothing more: names, numbers, depth and sizes are judged by
the program that loads the bytes, so that refused models can be made as well.
docs/FORMAT.md describes the bytes.
"""

import argparse
import json
import sys

MOST = 65_535  # a length or a count has 16 bits


class Bad(Exception):
    """The description cannot be packed; says where and why."""

    def __init__(self, path, why):
        super().__init__(f"{path}: {why}")


class Pairs(list):
    """A JSON object as its pairs: a dict would hide a field given twice."""


def step(path, key):
    # An odd key is quoted, so that the message stays one readable line.
    plain = key.isascii() and key.isidentifier()
    return f"{path}.{key if plain else json.dumps(key)}"


def kind(value):
    if value is None:
        return "null"
    if isinstance(value, bool):
        return "true or false"
    if isinstance(value, (int, float)):
        return "a number"
    if isinstance(value, str):
        return "a string"
    if isinstance(value, Pairs):
        return "an object"
    return "a list"


def wrong(path, wanted, value):
    return Bad(path, f"{wanted} is wanted, not {kind(value)}")


def fields(value, path, known, without=()):
    """The fields of an object by name. Those in `without` must say nothing."""
    if not isinstance(value, Pairs):
        raise wrong(path, "an object", value)
    got = {}
    for key, item in value:
        where = step(path, key)
        if key in got:
            raise Bad(where, "field given twice")
        if key in without:
            if item is not None and item is not False:
                raise Bad(where, "stubs have no place for this; only false or null is accepted")
        elif key not in known:
            raise Bad(where, "unknown field")
        got[key] = item
    return got


def needed(got, path, key):
    if key not in got:
        raise Bad(step(path, key), "missing")
    return got[key], step(path, key)


# ---- numbers, texts, lists, records

def u16(number):
    return number.to_bytes(2, "big")


def text(value, path):
    if not isinstance(value, str):
        raise wrong(path, "a string", value)
    # A lone surrogate packs as the three bytes it would have: whether a text is
    # right UTF-8 is for the load to judge.
    data = value.encode("utf-8", "surrogatepass")
    if len(data) > MOST:
        raise Bad(path, f"a text of {len(data)} bytes; at most {MOST} can be packed")
    return u16(len(data)) + data


def items(value, path, pack_item):
    if not isinstance(value, list) or isinstance(value, Pairs):
        raise wrong(path, "a list", value)
    if len(value) > MOST:
        raise Bad(path, f"a list of {len(value)} items; at most {MOST} can be packed")
    return u16(len(value)) + b"".join(
        pack_item(item, f"{path}[{n}]") for n, item in enumerate(value))


def many(got, path, key, pack_item):
    """A list field. An empty list is the absent field: it has no bit."""
    if got.get(key, []) == [] and not isinstance(got.get(key), Pairs):
        return b""
    return items(got[key], step(path, key), pack_item)


def one(got, path, key, pack_item):
    """A field of one item, or nothing."""
    if got.get(key) is None:
        return b""
    return pack_item(got[key], step(path, key))


def record(got, path, *parts):
    """Map, name, parts. A part's bit is its position; an empty part is absent."""
    name = text(*needed(got, path, "name"))
    bits = sum(1 << bit for bit, part in enumerate(parts) if part)
    return u16(bits) + name + b"".join(parts)


# ---- the records

def module(value, path):
    got = fields(value, path, ("name", "modules", "classes", "functions", "attributes"),
                 ("incomplete", "docstring"))
    return record(got, path,
                  many(got, path, "modules", module),
                  many(got, path, "classes", class_),
                  many(got, path, "functions", function),
                  many(got, path, "attributes", attribute))


def class_(value, path):
    got = fields(value, path,
                 ("name", "bases", "methods", "attributes", "decorators", "inner_classes"),
                 ("docstring",))
    return record(got, path,
                  many(got, path, "bases", expression),
                  many(got, path, "methods", function),
                  many(got, path, "attributes", attribute),
                  many(got, path, "decorators", expression),
                  many(got, path, "inner_classes", class_))


def function(value, path):
    got = fields(value, path, ("name", "decorators", "arguments", "returns"),
                 ("is_async", "docstring"))
    inside = step(path, "arguments")
    args = fields(got.get("arguments", Pairs()), inside,
                  ("positional_only_arguments", "arguments", "vararg",
                   "keyword_only_arguments", "kwarg"))
    return record(got, path,
                  many(got, path, "decorators", expression),
                  many(args, inside, "positional_only_arguments", argument),
                  many(args, inside, "arguments", argument),
                  one(args, inside, "vararg", variable_argument),
                  many(args, inside, "keyword_only_arguments", argument),
                  one(args, inside, "kwarg", variable_argument),
                  one(got, path, "returns", expression))


def attribute(value, path):
    got = fields(value, path, ("name", "value", "annotation"), ("docstring",))
    return record(got, path,
                  one(got, path, "value", expression),
                  one(got, path, "annotation", expression))


def argument(value, path):
    got = fields(value, path, ("name", "default_value", "annotation"))
    return record(got, path,
                  one(got, path, "default_value", expression),
                  one(got, path, "annotation", expression))


def variable_argument(value, path):
    got = fields(value, path, ("name", "annotation"))
    # It is packed like an argument, whose bit 0 is the default it cannot have.
    return record(got, path, b"", one(got, path, "annotation", expression))


# ---- expressions

def variant(value, path):
    """The name and content of an object with exactly one field."""
    if not isinstance(value, Pairs):
        raise wrong(path, "an object naming one variant", value)
    if len(value) != 1:
        raise Bad(path, f"one variant is wanted, not {len(value)}")
    key, content = value[0]
    return key, content, step(path, key)


def constant(value, path):
    if value == "None":
        return b"\x00"
    if value == "Ellipsis":
        return b"\x06"
    if isinstance(value, str):
        raise Bad(path, f"unknown constant {json.dumps(value)}")
    key, content, inside = variant(value, path)
    if key == "Bool":
        if not isinstance(content, bool):
            raise wrong(inside, "true or false", content)
        return b"\x02" if content else b"\x01"
    if key == "Int":
        return b"\x03" + text(content, inside)
    if key == "Float":
        return b"\x04" + text(content, inside)
    if key == "Str":
        return b"\x05" + text(content, inside)
    raise Bad(inside, "unknown constant")


def expression(value, path):
    key, content, inside = variant(value, path)

    def parts(*known):
        got = fields(content, inside, known)
        return [needed(got, inside, name) for name in known]

    if key == "Constant":
        return constant(content, inside)
    if key == "Name":
        (name,) = parts("id")
        return b"\x07" + text(*name)
    if key == "Attribute":
        holder, name = parts("value", "attr")
        return b"\x08" + expression(*holder) + text(*name)
    if key == "BinOp":
        left, (op, op_path), right = parts("left", "op", "right")
        if not isinstance(op, str):
            raise wrong(op_path, "a string", op)
        if op != "BitOr":
            raise Bad(op_path, f"unknown operator {json.dumps(op)}; only BitOr can be packed")
        return b"\x09" + expression(*left) + expression(*right)
    if key in ("Tuple", "List"):
        got = fields(content, inside, ("elts",))
        tag = b"\x0a" if key == "Tuple" else b"\x0b"
        # Here an empty list is packed: () and [] are expressions.
        return tag + items(got.get("elts", []), step(inside, "elts"), expression)
    if key == "Subscript":
        holder, index = parts("value", "slice")
        return b"\x0c" + expression(*holder) + expression(*index)
    raise Bad(inside, "unknown expression")


def pack(source):
    """The packed model of a JSON text (str or UTF-8 bytes)."""
    if isinstance(source, bytes):
        source = source.decode("utf-8")
    return b"\x01" + module(json.loads(source, object_pairs_hook=Pairs), "module")


def main():
    parser = argparse.ArgumentParser(description="Pack a JSON model into the bytes of a load.")
    parser.add_argument("model", nargs="?", help="JSON file; standard input if left out")
    parser.add_argument("-o", metavar="FILE", dest="out", help="write here, not to standard output")
    parser.add_argument("--hex", action="store_true", help="write one line of hexadecimal digits")
    options = parser.parse_args()
    try:
        if options.model is None:
            source = sys.stdin.buffer.read()
        else:
            with open(options.model, "rb") as file:
                source = file.read()
        data = pack(source)
        if options.hex:
            data = data.hex().encode() + b"\n"
        if options.out is None:
            sys.stdout.buffer.write(data)
            sys.stdout.buffer.flush()
        else:
            with open(options.out, "wb") as file:
                file.write(data)
    except Bad as error:
        why = str(error)
    except RecursionError:
        why = "the model is nested too deeply to be packed"
    except UnicodeDecodeError as error:
        why = f"the model is not UTF-8: {error}"
    except ValueError as error:
        why = f"the model is not JSON: {error}"
    except OSError as error:
        why = str(error)
    else:
        return 0
    print(f"pack.py: {why}", file=sys.stderr)
    return 1


if __name__ == "__main__":
    sys.exit(main())
