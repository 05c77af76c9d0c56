#!/usr/bin/env python3
"""Writes pairs of schemas whose sketches are much work, a file each: `pairs.py FOLDER`. README.md says what they are."""
import json
import sys

LONGEST = 1_048_576
MOST_PARTS = 1_048_576
LETTERS = "abcdefghijklmnopqrstuvwxyzABCDEFGHIJKLMNOPQRSTUVWXYZ"


def names(count):
    """So many short names, all different."""
    digits = LETTERS + "0123456789"
    for k in range(count):
        name, k = LETTERS[k % 52], k // 52
        while k:
            name, k = name + digits[k % 62], k // 62
        yield name


def field(name, kind, **more):
    return {"name": name, "type": kind, **more}


def record(name, fields, **more):
    return {"type": "record", "name": name, "fields": fields, **more}


def used_often(inner, parts):
    """A record with as many of an inner one, which has so many parts, as a value may have."""
    outer, level = inner, 0
    while 2 * parts + 1 <= MOST_PARTS:
        outer = record(f"D{level}", [field("a", outer), field("b", outer["name"])])
        parts, level = 2 * parts + 1, level + 1
    return outer


def nested(levels, is_twice):
    """Records in one another, of which each field is read twice, by an alias, or once."""
    outer = record("R0", [])
    for k in range(levels):
        more = [field("b", f"R{k}", aliases=["a"])] if is_twice else []
        outer = record(f"R{k + 1}", [field("a", outer), *more])
    return outer


def chain(levels):
    """A record whose last field is so many levels deep; the records are defined in arrays."""
    fields = [field("f", {"type": "array", "items": record("R0", [field("a", "int")])})]
    for k in range(1, levels):
        fields.append(field(f"f{k}", {"type": "array", "items": record(f"R{k}", [field("a", f"R{k - 1}")])}))
    return record("R", [*fields, field("last", f"R{levels - 1}")])


def flat(count):
    return [field(name, "int") for name in names(count)]


def enum(symbols):
    return used_often(record("R", [field("e", {"type": "enum", "name": "E", "symbols": symbols})]), 2)


def union(branches):
    return used_often(record("R", [field("u", branches)]), 3)


def cases():
    yield "doubling", (used_often(record("R", []), 1),) * 2
    yield "read_twice", (nested(19, True), nested(19, False))
    yield "read_twice_past", (nested(38, True), nested(38, False))
    yield "chain", (chain(998),) * 2
    yield "flat_34000_reversed", (record("R", flat(34000)[::-1]), record("R", flat(34000)))
    yield "flat_30000_often", tuple(used_often(record("R", fields), 30001) for fields in (flat(30000)[::-1], flat(30000)))
    symbols = list(names(150000))
    yield "enum_150000_often", (enum(symbols[::-1]), enum(symbols))
    yield "long_names", (used_often(record("R", [field("n" * 90, "int")]), 2),) * 2
    yield "long_names_past", (used_often(record("R", [field("n" * 500000, "int", aliases=["a"])]), 2), used_often(record("R", [field("a", "int")]), 2))
    branches = [record(f"U{name}", []) for name in names(1000)]
    yield "union_1000_often", (union(branches[::-1]), union(branches))


def main():
    for name, pair in cases():
        texts = [json.dumps(schema, separators=(",", ":")) for schema in pair]
        assert all(len(text) <= LONGEST for text in texts), name
        with open(f"{sys.argv[1]}/sketch_{name}", "w", encoding="ascii") as file:
            file.write("\t".join(texts) + "\n")
        print(name)


if __name__ == "__main__":
    main()
