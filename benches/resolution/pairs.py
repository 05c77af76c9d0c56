#!/usr/bin/env python3
"""Writes pairs of Avro schemas into a folder, a file a case and a pair a line: the reader's text, a TAB, the writer's.

usage: pairs.py FOLDER

The pairs are the same at each run. No schema has a namespace but those of the grid, since releases of Avro Java
differ in how they compare names of two namespaces.
"""
import json
import random
import sys

PRIMITIVES = ["null", "boolean", "int", "long", "float", "double", "bytes", "string"]
# what a writer's type may be read as
WIDER = {"int": "long", "long": "double", "float": "double", "string": "bytes", "bytes": "string"}
DEFAULTS = {"boolean": False, "int": 0, "long": 0, "bytes": "", "string": ""}


def text(schema):
    return json.dumps(schema, separators=(",", ":"))


def record(name, fields):
    return {"type": "record", "name": name, "fields": fields}


class Names:
    """Gives each type and each field a name of its own."""

    def __init__(self, rng):
        self.rng = rng
        self.count = 0

    def next(self, kind):
        self.count += 1
        word = self.rng.choice(["customer", "order", "address", "amount", "created", "status", "item", "region"])
        return f"{kind}_{word}_{self.count}"


def some_type(rng, names, depth):
    choice = rng.random()
    if choice < 0.45 or depth == 0:
        return rng.choice(PRIMITIVES[1:])
    if choice < 0.62:
        return ["null", some_named_or_primitive(rng, names, depth - 1)]
    if choice < 0.72:
        return {"type": "array", "items": some_type(rng, names, depth - 1)}
    if choice < 0.80:
        return {"type": "map", "values": some_type(rng, names, depth - 1)}
    return some_named_or_primitive(rng, names, depth - 1)


def some_named_or_primitive(rng, names, depth):
    choice = rng.random()
    if choice < 0.4:
        return rng.choice(PRIMITIVES[1:])
    if choice < 0.6:
        symbols = [f"S{i}" for i in range(rng.randrange(2, 12))]
        return {"type": "enum", "name": names.next("Enum"), "symbols": symbols}
    if choice < 0.7 or depth == 0:
        return {"type": "fixed", "name": names.next("Fixed"), "size": rng.randrange(1, 33)}
    fields = [some_field(rng, names, depth) for _ in range(rng.randrange(1, 6))]
    return record(names.next("Record"), fields)


def some_field(rng, names, depth):
    return {"name": names.next("field"), "type": some_type(rng, names, depth)}


def evolved(rng, names, schema):
    """A reader's schema for what `schema` wrote: some fields are dropped, added, moved and widened."""
    if isinstance(schema, str):
        return WIDER.get(schema, schema) if rng.random() < 0.1 else schema
    if isinstance(schema, list):
        return [evolved(rng, names, branch) for branch in schema]
    schema = dict(schema)
    for member in ("items", "values"):
        if member in schema:
            schema[member] = evolved(rng, names, schema[member])
    if schema["type"] == "enum" and rng.random() < 0.3:
        schema["symbols"] = schema["symbols"] + ["ADDED"]
    if schema["type"] == "record":
        fields = [dict(field, type=evolved(rng, names, field["type"])) for field in schema["fields"]]
        fields = [field for field in fields if len(fields) < 2 or rng.random() > 0.05]
        if rng.random() < 0.4:
            kind = rng.choice(sorted(DEFAULTS))
            added = {"name": names.next("added"), "type": kind, "default": DEFAULTS[kind]}
            fields.insert(rng.randrange(len(fields) + 1), added)
        if rng.random() < 0.3:
            rng.shuffle(fields)
        schema["fields"] = fields
    return schema


def evolved_pair(rng, least, most, clashes):
    """A record between two lengths of text, and a later form of it."""
    names = Names(rng)
    fields = []
    while len(text(record("Root", fields))) < least:
        fields.append(some_field(rng, names, 3))
    written = record("Root", fields)
    if len(text(written)) > most:
        return evolved_pair(rng, least, most, clashes)
    read = evolved(rng, names, written)
    if clashes:
        read["fields"].append({"name": "required", "type": "string"})
    return read, written


def evolved_pairs(least, most, count):
    rng = random.Random(least)
    return [evolved_pair(rng, rng.randrange(least, most - 400), most, i % 5 == 4) for i in range(count)]


def small_pairs(count):
    rng = random.Random(407)
    pairs = []
    for i in range(count):
        names = Names(rng)
        written = some_type(rng, names, 1)
        read = evolved(rng, names, written) if rng.random() < 0.7 else some_type(rng, names, 1)
        pairs.append((read, written))
    return pairs


def flat_pairs(fields, order, count):
    rng = random.Random(fields)
    pairs = []
    for i in range(count):
        written = [{"name": f"field_{i}_{k}", "type": PRIMITIVES[1 + k % 7]} for k in range(fields)]
        read = list(written)
        if order == "reversed":
            read.reverse()
        elif order == "shuffled":
            rng.shuffle(read)
        pairs.append((record("Flat", read), record("Flat", written)))
    return pairs


def symbols_of(count):
    """That many symbols of at most three characters."""
    first = "ABCDEFGHIJKLMNOPQRSTUVWXYZabcdefghijklmnopqrstuvwxyz_"
    later = first + "0123456789"
    every = [a + b + c for a in first for b in later for c in later]
    return every[:count]


def enum_pair(count):
    symbols = symbols_of(count)
    written = {"type": "enum", "name": "E", "symbols": symbols}
    return dict(written, symbols=symbols[::-1]), written


def grid_pair(side):
    """Two schemas of `side` records, any two of which have to be compared: `side` times `side` pairs, and the roots.

    Each record leads to itself and to the one before it; the reader's does so by other fields than the writer's.
    """

    def schema(steps, stays):
        fields = []
        for k in range(side):
            before = f"n{max(k - 1, 0)}.R"
            inner = [{"name": steps, "type": before}, {"name": stays, "type": f"n{k}.R"}]
            fields.append({"name": f"f{k}", "type": dict(record("R", inner), namespace=f"n{k}")})
        return record("Root", fields)

    return schema("a", "b"), schema("b", "a")


def cases():
    yield "small", small_pairs(407)
    yield "evolved_1_to_2_kB", evolved_pairs(1000, 2000, 40)
    yield "evolved_2_to_4_kB", evolved_pairs(2000, 4000, 40)
    yield "evolved_4_to_8_kB", evolved_pairs(4000, 8000, 40)
    for fields, count in ((10, 100), (100, 20), (1000, 4), (4000, 2)):
        for order in ("in_order", "reversed", "shuffled"):
            yield f"flat_{fields}_{order}", flat_pairs(fields, order, count)
    yield "enum_150000_reversed", [enum_pair(150_000)]
    yield "grid_3000", [grid_pair(3_000)]


def main():
    (folder,) = sys.argv[1:]
    for name, pairs in cases():
        with open(f"{folder}/{name}", "w", encoding="ascii") as file:
            for read, written in pairs:
                file.write(f"{text(read)}\t{text(written)}\n")


if __name__ == "__main__":
    main()
