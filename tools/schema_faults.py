"""Why a text is no schema, and where: the faults of docs/FORMATS.md, each with its place in the text.

`registryd sketch` names a fault as the registry does; the place is found here. Without that program the name is found here, too."""
import re
import subprocess
from typing import NamedTuple, Optional

TEXT_LIMIT, DEPTH_LIMIT, NODES_LIMIT, SIZE_LIMIT = 1 << 20, 127, 65535, 2**31 - 1
PRIMITIVES = ("null", "boolean", "int", "long", "float", "double", "bytes", "string")
NAME = re.compile(r"[A-Za-z_][A-Za-z0-9_]*")
TOKEN = re.compile(r'([{}\[\],:])|("(?:[^"\\\x00-\x1f]|\\(?:["\\/bfnrt]|u[0-9a-fA-F]{4}))*")|(-?(?:0|[1-9]\d*)(?:\.\d+)?(?:[eE][+-]?\d+)?)|(true|false|null)',
                   re.ASCII)
BLANKS = re.compile(r"[ \t\r\n]*")
ESCAPE = re.compile(r'\\(?:u([0-9a-fA-F]{4})|(.))')
ESCAPES = {"b": "\b", "f": "\f", "n": "\n", "r": "\r", "t": "\t"}
DEFAULT = "BadDefault"   # `registryd sketch` checks no defaults


class Fault(NamedTuple):
    """A fault, and its place: the way from member to member (RFC 6901), and where that is in the text, from 1."""
    name: str
    path: Optional[str] = None
    line: Optional[int] = None
    column: Optional[int] = None

    def __str__(self):
        if self.line is None:
            return self.name
        way = f" at {self.path}," if self.path else " at"
        return f"{self.name}{way} line {self.line}, column {self.column}"


class Node(NamedTuple):
    """A JSON value, and where it begins. An object's value is its members, a number's its text."""
    kind: str
    value: object
    start: int


class BadJson(Exception):
    def __init__(self, start):
        super().__init__(start)
        self.start = start


def find_fault(text, program=None):
    """The fault for which a registry refuses a text, or None if none is found. With a program, it is the one that this names."""
    found = faults_in(text)
    if found and found[0].name == "NotJson":
        return found[0]
    name = name_by(program, text) if program else None
    if name:
        return next((fault for fault in found if fault.name == name), Fault(name))
    return next((fault for fault in found if name is None or fault.name == DEFAULT), None)


def name_by(program, text):
    """How `registryd sketch` names the fault; an empty name if it finds none, and None if it can't be asked."""
    line = text.replace("\r", " ").replace("\n", " ").encode("utf-8", "surrogatepass") + b"\n"
    try:
        done = subprocess.run([program, "sketch"], input=line + line, capture_output=True, check=False)
    except OSError:
        return None
    if done.returncode == 0:
        return ""
    told = re.fullmatch(rb"reader: (\w+)\n", done.stderr)
    return told[1].decode() if told and done.returncode == 2 else None


def faults_in(text):
    """All faults that are found, in the order of the text."""
    try:
        root = Reader(text).read()
    except BadJson as fault:
        return [placed("NotJson", "", fault.start, text)]
    walk = Walk()
    walk.numbers(root, "")
    walk.type(root, "", "")
    for node, path, kind in walk.defaults:
        if not is_value(node, kind):
            walk.tell(DEFAULT, path, node)
    faults = [placed(name, path, start, text) for name, path, start in sorted(walk.faults, key=lambda fault: fault[2])]
    return faults + [Fault("TooLong")] * (len(text.encode("utf-8", "surrogatepass")) > TEXT_LIMIT)


def placed(name, path, start, text):
    return Fault(name, path, text.count("\n", 0, start) + 1, start - text.rfind("\n", 0, start))


class Reader:
    """Reads JSON, with the place of each value."""

    def __init__(self, text):
        self.text, self.at = text, 0

    def read(self):
        value = self.value(0)
        if self.skip() < len(self.text):
            raise BadJson(self.at)
        return value

    def skip(self):
        self.at = BLANKS.match(self.text, self.at).end()
        return self.at

    def token(self, wanted=None):
        """The next token, which has to be one of those that are wanted."""
        match = TOKEN.match(self.text, self.skip())
        if not match or wanted and match[0] not in wanted:
            raise BadJson(self.at)
        self.at = match.end()
        return match

    def value(self, depth):
        match = self.token()
        start = match.start()
        if match[2]:
            return Node("string", self.string(match[2], start), start)
        if match[3]:
            if abs(float(match[3])) == float("inf"):
                raise BadJson(start)
            return Node("number", match[3], start)
        if match[4]:
            return Node(match[4], None, start)
        if match[1] not in "{[" or depth == DEPTH_LIMIT:
            raise BadJson(start)
        return Node("object", dict(self.members(depth)), start) if match[1] == "{" else Node("array", list(self.items(depth)), start)

    def string(self, literal, start):
        text = ESCAPE.sub(lambda it: chr(int(it[1], 16)) if it[1] else ESCAPES.get(it[2], it[2]), literal[1:-1])
        try:
            return text.encode("utf-16", "surrogatepass").decode("utf-16")
        except UnicodeDecodeError:
            raise BadJson(start) from None

    def items(self, depth):
        if self.closes("]"):
            return
        yield self.value(depth + 1)
        while self.token(",]")[0] == ",":
            yield self.value(depth + 1)

    def members(self, depth):
        if self.closes("}"):
            return
        while True:
            name = self.token()
            if not name[2]:
                raise BadJson(name.start())
            self.token(":")
            yield self.string(name[2], name.start()), self.value(depth + 1)
            if self.token(",}")[0] == "}":
                return

    def closes(self, end):
        """Takes the end of an array or an object, if it is next."""
        if self.text.startswith(end, self.skip()):
            self.at += 1
            return True
        return False


class Type(NamedTuple):
    """A type, as far as a default asks. The parts of a record are its fields: the name, the type, and whether it has a default."""
    kind: str
    name: Optional[str] = None
    parts: tuple = ()

    def sort(self):
        """What a union tells its types apart by."""
        return (self.name is not None, self.name or self.kind)


class Walk:
    """Goes over the types of a schema in their order, and collects faults."""

    def __init__(self):
        self.faults, self.defaults, self.names, self.nodes = [], [], {}, 0
        self.kinds = {"record": self.record, "enum": self.enum, "fixed": self.fixed, "array": self.collection, "map": self.collection}

    def tell(self, name, path, node):
        self.faults.append((name, path, node.start))

    def numbers(self, node, path):
        """Tells the numbers that aren't whole, or too large."""
        if node.kind == "number" and not (re.fullmatch(r"-?\d+", node.value) and node.value != "-0" and -2**63 <= int(node.value) < 2**64):
            self.tell("FloatNumber", path, node)
        inside = node.value.items() if node.kind == "object" else enumerate(node.value) if node.kind == "array" else ()
        for name, value in inside:
            self.numbers(value, f"{path}/{step(name)}")

    def type(self, node, path, space):
        """Goes over a type in a namespace, and returns it; None if it is none."""
        if node.kind == "string":
            return self.use(node, path, space)
        if node.kind == "array":
            return self.union(node, path, space)
        word = node.value.get("type") if node.kind == "object" else None
        if word is None or word.kind == "string" and word.value == "error":
            return self.tell("BadForm", path, node)
        if word.kind != "string":
            return self.type(word, f"{path}/type", space)
        kind = self.kinds.get(word.value)
        return kind(node, path, space) if kind else self.use(word, f"{path}/type", space)

    def open(self, node, path):
        self.nodes += 1
        if self.nodes == NODES_LIMIT + 1:
            self.tell("TooManyNodes", path, node)

    def use(self, node, path, space):
        name = node.value
        if name in PRIMITIVES:
            self.open(node, path)
            return Type(name)
        found = self.names.get(name if "." in name or not space else f"{space}.{name}") or self.names.get(name)
        return found or self.tell("Unknown", path, node)

    def union(self, node, path, space):
        self.open(node, path)
        branches = []
        for number, item in enumerate(node.value):
            branch = self.type(item, f"{path}/{number}", space)
            if branch and (branch.kind == "union" or branch.sort() in {it.sort() for it in branches if it}):
                self.tell("BadUnion", f"{path}/{number}", item)
            branches.append(branch)
        return Type("union", None, tuple(branches))

    def collection(self, node, path, space):
        kind = node.value["type"].value
        member = "items" if kind == "array" else "values"
        self.open(node, path)
        if member not in node.value:
            return self.tell("BadForm", path, node)
        return Type(kind, None, (self.type(node.value[member], f"{path}/{member}", space),))

    def heading(self, node, path, space):
        """The full name that a type defines, and the namespace inside it."""
        self.open(node, path)
        name, written = node.value.get("name"), node.value.get("namespace")
        self.aliases(node, path, is_full_name)
        if name is None or name.kind != "string":
            self.tell("BadForm", path, node)
            return None, space
        if not is_full_name(name.value) or name.value.rpartition(".")[2] in PRIMITIVES:
            self.tell("BadName", f"{path}/name", name)
        space = written.value if written and written.kind == "string" else space
        full = name.value if "." in name.value or not space else f"{space}.{name.value}"
        if full in self.names:
            self.tell("Redefined", f"{path}/name", name)
        return full, full.rpartition(".")[0]

    def aliases(self, node, path, is_right):
        aliases = node.value.get("aliases")
        if aliases is None:
            return
        if aliases.kind != "array" or any(it.kind != "string" for it in aliases.value):
            self.tell("BadForm", f"{path}/aliases", aliases)
            return
        for number, alias in enumerate(aliases.value):
            if not is_right(alias.value):
                self.tell("BadName", f"{path}/aliases/{number}", alias)

    def record(self, node, path, space):
        full, space = self.heading(node, path, space)
        fields, parts, names = node.value.get("fields"), [], set()
        whole = Type("record", full, parts)
        self.names.setdefault(full, whole)
        if fields is None or fields.kind != "array":
            self.tell("BadForm", path, node)
            return whole
        for number, field in enumerate(fields.value):
            place = f"{path}/fields/{number}"
            if field.kind != "object" or "type" not in field.value:
                self.tell("BadForm", place, field)
                continue
            self.field(field, place, space, parts, names)
        return whole

    def field(self, field, path, space, parts, names):
        name = field.value.get("name")
        if name is None or name.kind != "string" or not NAME.fullmatch(name.value) or name.value in names:
            self.tell("BadForm", f"{path}/name" if name else path, name or field)
        else:
            names.add(name.value)
        self.aliases(field, path, NAME.fullmatch)
        kind = self.type(field.value["type"], f"{path}/type", space)
        default = field.value.get("default")
        if default and kind:
            self.defaults.append((default, f"{path}/default", kind))
        parts.append((name.value if name else None, kind, default is not None))

    def enum(self, node, path, space):
        full, _ = self.heading(node, path, space)
        self.names.setdefault(full, Type("enum", full))
        symbols, default, seen = node.value.get("symbols"), node.value.get("default"), set()
        if symbols is None or symbols.kind != "array" or any(it.kind != "string" for it in symbols.value):
            self.tell("BadForm", f"{path}/symbols" if symbols else path, symbols or node)
            return self.names[full]
        for number, symbol in enumerate(symbols.value):
            if not NAME.fullmatch(symbol.value) or symbol.value in seen:
                self.tell("BadEnum", f"{path}/symbols/{number}", symbol)
            seen.add(symbol.value)
        if default and (default.kind != "string" or default.value not in seen):
            self.tell("BadEnum", f"{path}/default", default)
        return self.names[full]

    def fixed(self, node, path, space):
        full, _ = self.heading(node, path, space)
        self.names.setdefault(full, Type("fixed", full))
        size = node.value.get("size")
        if size is None or size.kind != "number":
            self.tell("BadForm", f"{path}/size" if size else path, size or node)
        elif not re.fullmatch(r"\d+", size.value) or int(size.value) > SIZE_LIMIT:
            self.tell("BadFixed", f"{path}/size", size)
        return self.names[full]


def step(name):
    """A member's name or an item's number as one step of a way."""
    return str(name).replace("~", "~0").replace("/", "~1")


def is_full_name(text):
    return all(NAME.fullmatch(it) for it in text.split("."))


def is_value(node, kind):
    """The value may be a default of that type. What isn't known of the type is taken as right."""
    if kind is None:
        return True
    if kind.kind in ("int", "long"):
        bound = 2**31 if kind.kind == "int" else 2**63
        return node.kind == "number" and bool(re.fullmatch(r"-?\d+", node.value)) and -bound <= int(node.value) < bound
    if kind.kind == "array":
        return node.kind == "array" and all(is_value(it, kind.parts[0]) for it in node.value)
    if kind.kind == "map":
        return node.kind == "object" and all(is_value(it, kind.parts[0]) for it in node.value.values())
    if kind.kind == "union":
        return bool(kind.parts) and is_value(node, kind.parts[0])
    if kind.kind == "record":
        return node.kind == "object" and all(is_value(node.value[name], part) if name in node.value else may_lack
                                             for name, part, may_lack in kind.parts)
    kinds = {"null": ("null",), "boolean": ("true", "false"), "float": ("number",), "double": ("number",)}
    return node.kind in kinds.get(kind.kind, ("string",))
