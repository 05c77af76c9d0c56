"""A log as a base has it: docs/FORMATS.md says the lines."""
import collections
import json

from faults import Broken

# next: the offset behind it; records: how many lines it has, but for its floor's; text: its lines, each with its LF, without the empty
# line at its end.
Log = collections.namedtuple("Log", "next records text")

LONGEST = 2097152
MOST_LINES = 1000000
GREATEST_OFFSET = 2**63 - 1
GREATEST_NUMBER = 2**31 - 1
MARK = ("ID_MARK",)


def offset_of(field):
    """The offset that a line's field spells, or none."""
    if not field.isdigit() or len(field) > 19 or (field[:1] == b"0" and len(field) > 1) or int(field) > GREATEST_OFFSET:
        return None
    return int(field)


def fault_in(lines, first, following):
    """What is wrong with a batch's lines, where they aren't a log's of the offsets from the first one up to before the following one."""
    if not is_utf8(lines):
        return "it isn't UTF-8"
    rows = lines.split(b"\n")
    if rows.pop() != b"":
        return "its last line is cut"
    if not rows or len(rows) != following - first:
        return "it has %d lines, and its offsets are from %d up to %d" % (len(rows), first, following - 1)
    for offset, row in enumerate(rows, first):
        if not row.startswith(b"%d\t" % offset) or row.count(b"\t") != 2 or len(row) > LONGEST or offset > GREATEST_OFFSET:
            return "its line %d isn't one of offset %d" % (offset - first + 1, offset)
    return None


def check_base(pieces, following):
    """Has a base in a store be lines of a log that end before the following offset."""
    text = b"".join(pieces)
    rows = text.split(b"\n")
    if rows.pop() != b"" or not is_utf8(text) or len(rows) > MOST_LINES:
        raise Broken("the base in the store isn't a log")
    if max((end_of(row, number) for number, row in enumerate(rows)), default=0) > following:
        raise Broken("the base in the store ends behind offset %d" % following)


def is_utf8(text):
    try:
        text.decode()
    except UnicodeDecodeError:
        return False
    return True


def end_line(records, following):
    """What stands behind a whole log: an empty line, and one that says where the log ends."""
    return b"\nend %d %d\n" % (records, following)


def read_whole(text):
    """The log that these bytes are, where a line behind it says that nothing of it is missing."""
    lines, mark, said = text.rpartition(b"\nend ")
    if not mark or lines[-1:] not in (b"", b"\n"):
        raise Broken("no line behind the log says where it ends: write it with registrylog compact --whole, registrylog base --whole or "
                     "dump --whole")
    log = read_log(lines)
    right = end_line(log.records, log.next)
    if mark + said != right:
        raise Broken("the line behind the log isn't `%s`: a part is missing, or was added" % right.decode().strip())
    return log


def has_floor(text):
    """Whether the first line of a log says its floor."""
    return text.startswith(b"floor\t")


def read_log(text):
    """The log that these lines are. An empty line is refused, and so is a log that owes a mark of ids, since no process would begin with
    it."""
    if not is_utf8(text):
        raise Broken("the log isn't UTF-8")
    lines = text.split(b"\n")
    if lines.pop() != b"":
        raise Broken("the log's last line is cut")
    if len(lines) > MOST_LINES:
        raise Broken("the log has more than %d lines" % MOST_LINES)
    behind = 0
    for number, line in enumerate(lines):
        behind = max(behind, end_of(line, number))
    if owes_mark(lines):
        raise Broken("the log owes a mark of ids: start and stop `registrylog keep` over it for an init, before anything compacts it; a "
                     "rebase has to end where none is due (README.md, A smaller base)")
    return Log(behind, len(lines) - has_floor(text), text)


def end_of(line, number):
    """The offset behind a line, or a floor."""
    fields = line.split(b"\t")
    is_floor = number == 0 and fields[0] == b"floor" and len(fields) == 2
    offset = offset_of(fields[1] if is_floor else fields[0])
    if offset is None or len(line) > LONGEST or not (is_floor or len(fields) == 3):
        raise Broken("line %d isn't a line of a log" % (number + 1))
    return offset if is_floor else offset + 1


def json_of(text):
    try:
        return json.loads(text)
    except ValueError:
        return None


def number_of(value, name):
    """A member that is a number of an id or of a version, else 0."""
    number = value.get(name) if isinstance(value, dict) else None
    return number if type(number) is int and 1 <= number <= GREATEST_NUMBER else 0


def owes_mark(lines):
    """Whether a version has an id above the last mark, or, where the log has no mark, any line of a version names an id, superseded or not.
    Of each key the record of the greatest offset counts. Lines that a compaction dropped aren't here: it wrote the mark of their ids."""
    last, names_any = {}, False
    for line in lines:
        if b"SCHEMA" in line or b"ID_MARK" in line:
            offset, key, value = line.split(b"\t")
            name = key_with_id(json_of(key))
            if name:
                last[name] = max(last.get(name, (-1, b"")), (int(offset), value))
                names_any = names_any or number_of(json_of(value), "id") > 0
    if MARK not in last:
        return names_any
    mark = number_of(json_of(last.pop(MARK)[1]), "id")
    return any(number_of(json_of(value), "id") > mark for _, value in last.values())


def key_with_id(key):
    """What tells a version's key, or the mark's, from others, or none for a key of another kind."""
    kind = key.get("keytype") if isinstance(key, dict) else None
    if kind == "SCHEMA" and isinstance(key.get("subject"), str) and number_of(key, "version"):
        return kind, key["subject"], key["version"]
    return MARK if kind == "ID_MARK" else None


def pieces_of(text, size):
    return [text[at:at + size] for at in range(0, len(text), size)]
