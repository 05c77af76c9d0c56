"""What the registry of try.py has."""
import json

EVIL = "<img src=x onerror=\"document.title='run'\">"


# Strangers' texts, as names of subjects and wherever a schema may have any text.
HOSTILE = [
    "<script>document.title='run'</script>", "<svg onload=\"document.title='run'\">", "'\"><img src=x onerror=document.title='run'>", "</bdi></a></li><h1>run</h1>",
    "</textarea><script>document.title='run'</script>", "</pre></details><iframe src=/>", "</title><base href=//else.where/>", "<!-- run", "]]>", "javascript:document.title='run'",
    "data:text/html,<script>1</script>", "&lt;b&gt;&amp;amp;", "%3Cb%3E%2e%2e%2f", "{{7*7}}${7*7}`", "\u202erun\u202c\u2066", "\u200bzero\ufeffwidth", "two\nlines\ttab", "__proto__", "constructor",
    "toString", "a/../../b", "?a=b&c#d;e", "null", "\U0001f600 \u00e9\u0301", "x" * 1500, " ", "'; DROP TABLE schemas; --", "<style>*{display:none}</style>", "<a href=x autofocus onfocus=document.title='run'>",
    "<meta http-equiv=refresh content=0>",
]


def record(name, *fields, **more):
    return {"type": "record", "name": name, "fields": list(fields), **more}


def field(name, type, **more):
    return {"name": name, "type": type, **more}


LINE = record("Line", field("article", "string"), field("amount", "int"), field("price", {"type": "bytes", "logicalType": "decimal", "precision": 9, "scale": 2}))
LINE_2 = record("Line", LINE["fields"][0], field("amount", "long"), LINE["fields"][2])
CUSTOMER = record("Customer", field("name", "string"), field("email", ["null", "string"], default=None, doc="Left out if a customer only calls."))
STATE = field("state", {"type": "enum", "name": "State", "symbols": ["PLACED", "PAID", "SENT"]})
STATE_3 = field("state", {**STATE["type"], "symbols": ["PLACED", "PAID", "SENT", "RETURNED"], "default": "PLACED"}, default="PAID")


def order(first, line, *more, state=STATE):
    return record("Order", first, field("customer", CUSTOMER), field("lines", {"type": "array", "items": line}), state, *more,
                  namespace="shop", doc="An order, as it was placed.")


PLACED = field("placed", {"type": "long", "logicalType": "timestamp-millis"})
NOTES = field("notes", {"type": "map", "values": "string"}, default={})
NUMBER = field("number", "long", aliases=["id"])
WEIGHT = field("weight", "long", default=9223372036854775807)
ORDERS = [
    order(field("id", "long"), LINE, PLACED),
    order(field("id", "long"), LINE_2, PLACED, NOTES),
    order(NUMBER, LINE_2, NOTES, WEIGHT, state=STATE_3),
]
# A field more, with a default, which may follow; and a narrower type, which may not.
FOLLOWS = order(NUMBER, LINE_2, NOTES, WEIGHT, field("colour", "string", default="none"), state=STATE_3)
NARROWER = order(NUMBER, LINE, NOTES, state=STATE_3)
WIDE = record("Wide", *[field(f"f{place}", "int", default=0) for place in range(700)])
MANY = 300  # versions of one subject

# subject, the new schema, against which version; the message's end, what is marked in the reader and in the writer, and why
CLASHES = [
    ("orders", NARROWER, "", "version 3, BACKWARD, at /field:lines/items/field:amount: TYPE_MISMATCH", "amount: int", "amount: long", "The writer writes long, and the reader can't read that as int."),
    ("orders", order(NUMBER, LINE_2, field("colour", "string")), "2", "version 2, BACKWARD, at /: READER_FIELD_MISSING_DEFAULT_VALUE colour", "colour: string", "record shop.Order", "The writer doesn't write the field colour, and the reader has no default for it."),
    ("ahead", record("A", field("other", "int")), "", "version 1, FORWARD, at /: READER_FIELD_MISSING_DEFAULT_VALUE kept", "kept: int", "record A", "The writer doesn't write the field kept, and the reader has no default for it."),
    ("enum", {"type": "enum", "name": "E", "symbols": ["A"]}, "", "version 1, BACKWARD, at /: MISSING_ENUM_SYMBOLS B", "enum E", "B", "The writer may write the symbol B, which the reader's enum lacks, and it has no default."),
    ("fixed", {"type": "fixed", "name": "F", "size": 8}, "", "version 1, BACKWARD, at /: FIXED_SIZE_MISMATCH", "fixed F of 8 bytes", "fixed F of 4 bytes", "The writer writes 4 bytes, and the reader reads 8."),
    ("fixed", {"type": "fixed", "name": "n.G", "size": 4}, "", "version 1, BACKWARD, at /: NAME_MISMATCH", "fixed n.G of 4 bytes", "fixed F of 4 bytes", "The writer's name, F, is neither the reader's, n.G, nor one of its aliases."),
    ("union", ["null", "int"], "", "version 1, BACKWARD, at /writer:2: MISSING_UNION_BRANCH", "null | int", "branch 2: record R", "The writer may write record R, and no branch of the reader's union takes it."),
    ("union", ["null", record("R", field("x", "string")), "long"], "", "version 1, BACKWARD, at /writer:2/reader:1/field:x: TYPE_MISMATCH", "x: string", "x: int", "The writer writes int, and the reader can't read that as string."),
    ("wide", record("Wide", *WIDE["fields"][:650], field("f650", "string")), "", "version 1, BACKWARD, at /field:f650: TYPE_MISMATCH", "f650: string", "f650: int", "The writer writes int, and the reader can't read that as string."),
    ("list", record("Node", field("value", "int"), field("next", ["null", record("Other", field("value", "int"))])), "", "version 1, BACKWARD, at /field:next/writer:1: MISSING_UNION_BRANCH", "next: null | record Other", "branch 1: Node", "The writer may write Node, and no branch of the reader's union takes it."),
]

# Texts that are no schemas, and a part of the reason that the page finds.
FAULTS = [
    ("{", "This isn't JSON"), ("int", 'A type\'s name is written in quotes: "int"'), ('"Nothing"', 'The type "Nothing" is none of Avro\'s'),
    (record("R", field("a", "strng")), 'At fields[0] (a): the type "strng" is none of Avro\'s'), (record("R", field("a", "int", default="x")), 'the default "x" isn\'t a value of int'),
    (record("R", field("a", ["null", "int"], default=1)), "the union's first branch"), (record("R", field("a", "int"), field("a", "int")), "another field has the same name"),
    (record("1R"), 'The name "1R" isn\'t one'), ({"type": "record", "name": "R"}, 'has no list "fields"'), (["int", "int"], "The union has int twice"), ([["int"]], "a union holds another union"),
    ({"type": "enum", "name": "E", "symbols": ["A", "A"]}, 'The symbol "A" is there twice'), ({"type": "enum", "name": "E", "symbols": ["A"], "default": "B"}, "is none of its symbols"),
    ({"type": "fixed", "name": "F"}, 'has no "size"'), ({"type": "array"}, 'has no member "items"'), (record("R", field("a", "double", default=1.5)), "The number 1.5 has a fraction"), ({"name": "x"}, 'The member "type" is missing'),
    (record("R", field(EVIL, "int")), f"At fields[0] ({EVIL})"),
]


def first_lines(subjects):
    """Lines of a log with so many subjects."""
    def line(place):
        name = f"topic-{place:05}"
        key = {"keytype": "SCHEMA", "subject": name, "version": 1, "magic": 1}
        value = {"subject": name, "version": 1, "id": 1, "schema": '"string"', "deleted": False}
        return "\t".join([str(place), json.dumps(key, separators=(",", ":")), json.dumps(value, separators=(",", ":"))]) + "\n"
    return [line(place) for place in range(subjects)]


def fill(stand):
    for schema in ORDERS:
        stand.register("orders", schema)
    stand.ask("PUT", "/config/orders", {"compatibility": "BACKWARD_TRANSITIVE"})
    stand.ask("DELETE", "/subjects/orders/versions/1")
    stand.register(EVIL, record("X", field("a", "int", doc="</bdi>" + EVIL), field("b", {"type": "int", EVIL: EVIL}), doc="<script>document.title='run'</script>"))
    stand.register(EVIL, record("X", field("a", "int", doc=EVIL + "</td>"), field("b", {"type": "int", EVIL: EVIL}), doc="<script>document.title='run'</script>"))
    stand.register("a/b%2F?#c", "int")
    stand.register("gone", "int")
    stand.ask("DELETE", "/subjects/gone")
    stand.ask("PUT", "/mode/list", {"mode": "READONLY"})
    stand.ask("PUT", "/mode/list", {"mode": "READWRITE"})
    stand.register("list", record("Node", field("value", "int"), field("next", ["null", "Node"])))
    stand.register("wide", WIDE)
    stand.register("fixed", {"type": "fixed", "name": "F", "size": 4})
    stand.register("enum", {"type": "enum", "name": "E", "symbols": ["A", "B"]})
    stand.register("union", ["null", "int", record("R", field("x", "int"))])
    stand.register("ahead", record("A", field("kept", "int")))
    stand.ask("PUT", "/config/ahead", {"compatibility": "FORWARD"})
    for place in range(MANY):
        stand.register("many", record("Many", field("a", "int", doc=f"The {place}th text")))
    stand.await_follower("/subjects/many/versions", list(range(1, MANY + 1)))
