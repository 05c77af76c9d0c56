"""What inputs cost that stand within the limits and were made to be dear: dear.py PROGRAM [--quick] [CASE..].

Each case is a log and a request for which a plain way to the answer takes time or memory by the square of the input, or by all
that a registry holds where little of it is asked for. It is folded by a process of its own, `PROGRAM fold`, which may take 8 GB
of addresses and 120 seconds of a processor. Once the log is read and a small request after it is answered, the dear request is
sent, and then one more small one, so that what it takes is known apart from the log and from the end of the process. Shown are

    bytes         of the whole input
    seconds       of the processor, for the dear request alone: for one of them, where it is sent several times; and for the whole
                  run, from start to end, where the log's lines are what is dear
    before, peak  the most memory in MB that was taken before the dear request, and in the whole run
    !             where the seconds are more than 1, or the dear request brought the peak up by more than 1 GB
    answer        right, or what came in place of the right one, or how the run was cut off

With --quick the inputs are small, and all of it takes a minute or less; without it they stand at a limit, or are so large that a
way by their square takes from a second to minutes. Without PROGRAM the cases are told, a line each. It ends with status 1 where
an answer is wrong or a run was cut off. It wants Linux, for its /proc."""
import collections, contextlib, json, os, resource, signal, subprocess, sys, tempfile
from itertools import chain
from types import SimpleNamespace

MEMORY, SECONDS = 8_000_000_000, 120
BODY, TEXT, LINE = 1_048_576, 1_048_576, 2_097_152
KEPT = 4_000    # bytes of a body's front and of its end that are looked at
TIMES = 10      # how often a request is sent where one may take too little to be seen

# Texts of schemas, as short as they can be.
LETTERS = "ABCDEFGHIJKLMNOPQRSTUVWXYZ"
CHARACTERS = LETTERS + LETTERS.lower() + "_0123456789"


def name(i):
    """One of 103,194 names of three characters."""
    return LETTERS[i // 63 // 63] + CHARACTERS[i // 63 % 63] + CHARACTERS[i % 63]


def use(full_name):
    return '"%s"' % full_name


def aliases(names):
    return ',"aliases":[%s]' % ",".join(map(use, names))


def namespace(length):
    return ',"namespace":"%s"' % ("n" * length)


def fixed(own_name, more=""):
    return '{"type":"fixed","name":"%s","size":1%s}' % (own_name, more)


def union(branches):
    return "[%s]" % ",".join(branches)


def array(items):
    return '{"type":"array","items":%s}' % items


def field(own_name, of_type, more=""):
    return '{"name":"%s","type":%s%s}' % (own_name, of_type, more)


def with_default(own_name):
    return field(own_name, use("int"), ',"default":0')


def record(own_name, *fields, more=""):
    return '{"type":"record","name":"%s","fields":[%s]%s}' % (own_name, ",".join(fields), more)


NESTED = '{"":' * 110 + "0" + "}" * 110


def small(i):
    return fixed("F%d" % i)


# Lines of a log, requests and answers.
def within(text, limit):
    if len(text) > limit:
        sys.exit("an input past a limit: %d bytes, and not %d" % (len(text), limit))
    return text


def line(offset, key, value):
    return within("%d\t%s\t%s" % (offset, key, value), LINE) + "\n"


def version(offset, subject, number, id, text):
    return line(offset, '{"keytype":"SCHEMA","subject":"%s","version":%d,"magic":1}' % (subject, number),
                '{"subject":"%s","version":%d,"id":%d,"schema":%s,"deleted":false}'
                % (subject, number, id, json.dumps(within(text, TEXT))))


def soft_delete(offset, subject, number, more=""):
    return line(offset, '{"keytype":"DELETE_SUBJECT","subject":"%s","magic":0}' % subject,
                '{"subject":"%s","version":%d%s}' % (subject, number, more))


def level(offset, its_name):
    return line(offset, '{"keytype":"CONFIG","subject":null,"magic":0}', '{"compatibilityLevel":"%s"}' % its_name)


def request(method, path, body=""):
    length = "Content-Length: %d\r\n" % len(body) if body else ""
    return "%s %s HTTP/1.1\r\nHost: a\r\n%s\r\n%s" % (method, path, length, within(body, BODY))


def posted(path, text):
    return request("POST", path, '{"schema":%s}' % json.dumps(within(text, TEXT)))


# An answer is a status and a body, or a status with the front and the end of a long body.
Answer = collections.namedtuple("Answer", "status front end", defaults=[None])

FIRST, FIRST_ANSWER = request("GET", "/config"), Answer(200, '{"compatibilityLevel":"', '"}')
LAST, LAST_ANSWER = request("GET", "/mode"), Answer(200, '{"mode":"READWRITE"}')
CHECK_ALL = "/compatibility/subjects/s/versions?verbose=true"
COMPATIBLE = Answer(200, '{"is_compatible":true,"messages":[]}')
TYPE_MISMATCH, MISSING_BRANCH = (
    Answer(200, '{"is_compatible":false,"messages":["version 1, FORWARD, at /field:', ': %s"]}' % kind)
    for kind in ("TYPE_MISMATCH", "MISSING_UNION_BRANCH"))
NO_SUBJECT = Answer(404, '{"error_code":40401,"message":"Subject not found"}')
NO_VERSION = Answer(404, '{"error_code":40402,"message":"Version not found"}')


# A log's lines, the dear request, its answer, and how often it is sent; or, with `lines_are_dear`, dear lines, and a request
# whose answer shows that they were read as they should be.
Input = collections.namedtuple("Input", "log dear answer times lines_are_dear", defaults=[1, False])


def looked_up(text):
    """A schema that is only read, as every request with a schema reads it: there is no subject to find it in."""
    return Input([], posted("/subjects/s", text), NO_SUBJECT)


def compared(reader, writer, answer=COMPATIBLE):
    """A stored schema that has to read what a new one writes. The new one is in the request, where each quote is written as two
    bytes, so the reader's text may be the longer one."""
    return Input([level(1, "FORWARD"), version(2, "s", 1, 1, reader)],
                 posted("/compatibility/subjects/s/versions/1?verbose=true", writer), answer)


# Schemas that are dear to read.
def types_in_namespace(size):
    types = union(fixed(name(i)) for i in range(size // 2 // 52))
    return record("R", field("u", types), more=namespace(size - size // 2))


def namespace_uses(size):
    fields = [field(name(i), use("R")) for i in range(size // 2 // 34)]
    return looked_up(record("R", *fields, more=namespace(size - size // 2)))


def namespace_uses_sought(size):
    types = field("t", array(union(fixed("T" + name(i)) for i in range(60))))
    fields = [field(name(i), union([use("T" + name(i % 60))])) for i in range((size // 2 - 5_000) // 40)]
    return looked_up(record("R", types, *fields, more=namespace(size - size // 2)))


def default_items(size):
    items = record("R", *[with_default(name(i)) for i in range(size // 2 // 54)])
    default = ',"default":[%s]' % ",".join(["{}"] * (size // 2 // 3))
    return Input([], posted(CHECK_ALL, record("Q", field("r", array(items), default))), COMPATIBLE)


# Two schemas that are dear to compare. Types of two full names match where the last parts of these are the same, as R and AAA.R.
def union_union(size, more=""):
    reader = union([fixed(name(i), more) for i in range(size)] + [fixed("Z")])
    return compared(reader, union(fixed(name(i) + ".Z") for i in range(size)))


def union_primitives(size):
    reader = record("R", field("x", union([fixed(name(i)) for i in range(size)] + [use("int")])))
    return compared(reader, union(record(name(i) + ".R", field("x", use("int"))) for i in range(min(size, 11_800))))


def unions_in_turn(size):
    def twice(made, used):
        return record("R", field("u", union(made)), field("v", union(used)))
    reader = [name(i) for i in range(size)] + ["Z"]
    writer = [name(i) + ".Z" for i in range(size)]
    return compared(twice(map(fixed, reader), map(use, reader)), twice(map(fixed, writer), map(use, writer)))


def alias_list(size):
    reader = union([fixed("R", aliases(["a"] * size)), fixed("Z")])
    return compared(reader, union(fixed(name(i) + ".Z") for i in range(min(size, 18_000))))


def alias_namespace(size):
    def whole(types):
        return record("Q", field("u", union(types)), more=namespace(500))
    types = [fixed("W" + name(i)) for i in range(size)]
    return compared(whole([fixed("R", aliases(["a"] * (4 * size)))] + types), whole(types))


def beside_empty_records(size, fields):
    """A record of the reader's, which reads each of the writer's, without fields."""
    return compared(record("R", *fields), union(record(name(i) + ".R") for i in range(min(size, 16_000))))


def field_obligations(size):
    def made_once(i, full_name):
        return use(full_name) if i else fixed(full_name)
    reader = record("R", *[field(name(i), made_once(i, "T"), aliases("a")) for i in range(size)])
    return compared(reader, union(record(name(i) + ".R", field("a", made_once(i, "T.T"))) for i in range(min(size, 11_000))))


def pairs(size):
    def one(i, next):
        return record(name(i) + ".R", field("x", use(name(next) + ".R")))
    reader = [one(i, max(i - 1, 0)) for i in range(size)]
    return compared(union([array(union(reader[:-1])), reader[-1]]), union(one(i, i) for i in range(size)))


def circle(count, hidden, hop="x", more="", end=use("r.R"), last=""):
    """Records in a circle, each of which leads to the one before by its field `hop`. The first, r.R, makes the others in a field
    `hidden` that the other side hasn't. The second leads to `end` and has the field `last`, if there is one."""
    made = [record(name(1) + ".R", field(hop, end, more), *([last] if last else []))]
    made += [record(name(i) + ".R", field(hop, use(name(i - 1) + ".R"), more)) for i in range(2, count)]
    inside = field(hidden, array(union(made)), ',"default":[]')
    return record("r.R", inside, field(hop, use(name(count - 1) + ".R"), more))


def circles(reader, writer, **more):
    """Two circles that clash where both are at the second record: where their lengths have no divisor in common, that is the last
    of all pairs, and the way to it leads through all others."""
    return compared(circle(reader, "d", last=with_default("y"), **more),
                    circle(writer, "e", last=field("y", use("string"))), TYPE_MISMATCH)


def beside_chain(size, answer, *fields):
    """A record of the reader's, which reads each of a chain of the writer's, but not the int at its end."""
    return compared(record("R", *fields), circle(size, "e", end=use("int")), answer)


def trail_fields(size):
    return beside_chain(size, TYPE_MISMATCH, *[with_default(name(i)) for i in range(size)], field("x", use("R")))


def trail_union(size):
    return beside_chain(size, MISSING_BRANCH, field("x", union([fixed(name(i)) for i in range(size)] + [use("R")])))


# Registries that grew large.
def many_versions(size, offset=1):
    return (version(offset + i, "s", i + 1, i + 1, small(i)) for i in range(size))


def of_one_id(size, offset=1):
    return (version(offset + i, "s%d" % i, 1, 1, use("int")) for i in range(size))


def check_beside(versions):
    return Input(chain([level(1, "NONE")], versions), posted(CHECK_ALL, use("int")), COMPATIBLE)


def check_big_versions(size):
    big = field("a", use("int"), ',"default":[%s]' % ",".join([NESTED] * 1_360))
    return check_beside(version(i + 2, "s", i + 1, i + 1, record("R%d" % i, big)) for i in range(size))


def register_transitive(size):
    fields = [with_default(name(i)) for i in range(300)]

    def text(i):
        return record("R", *fields, with_default("V%d" % i))
    log = (version(i + 2, "s", i + 1, i + 1, text(i)) for i in range(size))
    return Input(chain([level(1, "FULL_TRANSITIVE")], log),
                 posted("/subjects/s/versions", text(size)), Answer(200, '{"id":%d}' % (size + 1)))


def delete_for_good(size):
    return Input(chain(many_versions(size), [soft_delete(size + 1, "s", size)]),
                 request("DELETE", "/subjects/s?permanent=true"), Answer(200, "[1,2,3,", ",%d]" % size))


def delete_two_for_good(size):
    log = (version(i + 1, "s%d" % i, 1, i + 1, small(i)) for i in range(size))
    last = [version(size + 1, "t", 1, 1, small(0)), version(size + 2, "t", 2, 1, small(0)), soft_delete(size + 3, "t", 2)]
    return Input(chain(log, last), request("DELETE", "/subjects/t?permanent=true"), Answer(200, "[1,2]"))


def id_versions(size):
    last = max("s%d" % i for i in range(size))
    return Input(of_one_id(size), request("GET", "/schemas/ids/1/versions"),
                 Answer(200, '[{"subject":"s0","version":1},', ',{"subject":"%s","version":1}]' % last), TIMES)


def command_after(log):
    body = '{"compatibility":"FULL"}'
    return Input(log, request("PUT", "/config", body), Answer(200, body), TIMES)


def suspects(size):
    return command_after(version(2 * i + more, "s%d" % i, 1, i + 1, text)
                         for i in range(size) for more, text in ((1, use("int")), (2, use("long"))))


def suspect_entries(size):
    return command_after(chain([version(1, "t", 1, 1, use("long"))], of_one_id(size - 2, 2),
                                             [version(size, "t", 1, 1, use("int"))]))


# Logs whose lines are dear.
def delete_lines(size):
    log = chain(many_versions(size), (soft_delete(size + i + 1, "s", 1) for i in range(size)))
    return Input(log, request("GET", "/subjects/s/versions/1"), NO_VERSION, lines_are_dear=True)


def delete_lines_in_turn(size):
    log = chain(many_versions(size), (soft_delete(size + i + 1, "s", 1 if i % 2 else size) for i in range(size)))
    return Input(log, request("GET", "/subjects/s/versions/1"), NO_VERSION, lines_are_dear=True)


def delete_value(size):
    ignored = ',"x":[%s]' % ",".join(["{}"] * 690_000)
    log = chain([soft_delete(1, "s", 1, ignored)], many_versions(size, 2))
    return Input(log, request("GET", "/subjects/s/versions/1/schema"), Answer(200, small(0)), lines_are_dear=True)


def log_namespace(size):
    return Input([version(1, "s", 1, 1, types_in_namespace(size))], request("GET", "/subjects"), Answer(200, '["s"]'),
                 lines_are_dear=True)


# The cases: name, what the input is, its size, the small one of --quick, and what makes it.
CASES = [
    ("namespace_types", "half of the text is a namespace, half are types in it: each could keep the namespace anew",
     1_000_000, 65_536, lambda size: looked_up(types_in_namespace(size))),
    ("namespace_aliases", "the same with the aliases of one type in place of the types",
     1_000_000, 32_768, lambda size: looked_up(fixed("R", aliases(["a"] * (size // 12)) + namespace(size - size // 2)))),
    ("namespace_uses", "the same with fields that name a type of the namespace: its full name could be made for each",
     1_000_000, 262_144, namespace_uses),
    ("namespace_uses_sought", "the same with 60 types, each named in a union: names are sought whose fronts are long and equal",
     1_000_000, 262_144, namespace_uses_sought),
    ("default_items", "half of the text is a record whose fields have defaults, half a default that lists empty ones of it",
     1_000_000, 262_144, default_items),
    ("union_union", "the last of the reader's union of so many types reads each of the writer's, which has as many",
     18_000, 4_500, union_union),
    ("union_union_aliases", "the same with an alias on each of the reader's types",
     18_000, 4_500, lambda size: union_union(size, aliases("b"))),
    ("union_primitives", "the last of the reader's union of so many types is int, which reads the int in each of 11,800 records",
     16_000, 4_000, union_primitives),
    ("unions_in_turn", "two such unions of so many types, one after the other: each is sought for each of the writer's types",
     12_000, 2_000, unions_in_turn),
    ("alias_list", "a type with so many aliases stands before the one that reads each of 18,000 types of the writer's",
     250_000, 4_000, alias_list),
    ("alias_namespace", "a type with four times so many aliases before so many types, all in a namespace of 500 characters",
     15_000, 500, alias_namespace),
    ("field_aliases", "a field with so many aliases, in a record that reads each of 16,000 records without fields",
     250_000, 4_000, lambda size: beside_empty_records(size, [field("x", use("int"), ',"default":0' + aliases(["a"] * size))])),
    ("fields_defaults", "so many fields with defaults, in a record that reads each of 16,000 records without fields",
     18_000, 4_000, lambda size: beside_empty_records(size, [with_default(name(i)) for i in range(size)])),
    ("field_obligations", "so many fields, each of which reads the one field of each of 11,000 records: few pairs, met often",
     18_000, 4_000, field_obligations),
    ("pairs", "so many records, each of which has to read each of as many of the writer's: all these pairs are met",
     11_500, 500, pairs),
    ("cycles_trail", "a circle of so many records against one longer by one: the answer is a way through all their pairs",
     4_000, 500, lambda size: circles(size, size + 1)),
    ("trail_text", "two records with fields of 100,000 characters against so many: the answer names these fields at each step",
     3_001, 251, lambda size: circles(2, size | 1, hop="f" * 100_000, more=aliases("x"))),
    ("trail_fields", "a record of so many fields and one of itself, against a chain of as many records that ends in a clash",
     11_000, 2_000, trail_fields),
    ("trail_union", "the same with a union of so many types and the record itself in place of the fields",
     11_000, 2_000, trail_union),
    ("check_big_versions", "so many versions with 150,000 nested objects each; a check under NONE, which asks for none of them",
     12, 3, check_big_versions),
    ("check_many_versions", "the same beside so many versions of 40 bytes",
     999_000, 20_000, lambda size: check_beside(many_versions(size, 2))),
    ("register_transitive", "a record of 301 fields is registered beside so many like it under FULL_TRANSITIVE",
     2_000, 200, register_transitive),
    ("delete_for_good", "a subject of so many versions that was soft-deleted is deleted for good",
     500_000, 20_000, delete_for_good),
    ("delete_two_for_good", "one subject of two versions is deleted for good beside so many other subjects",
     500_000, 20_000, delete_two_for_good),
    ("id_versions", "so many versions of one id, which are listed",
     999_000, 20_000, id_versions),
    ("delete_lines", "so many versions of a subject, then as many soft deletes of it: each could mark each version anew",
     10_000, 1_000, delete_lines),
    ("delete_lines_in_turn", "the same, whose deletes are of all versions and of one in turn: each could mark all of them and take the marks back",
     10_000, 1_000, delete_lines_in_turn),
    ("delete_value", "a soft delete of 2 MB, then so many versions of its subject: each could read the delete anew",
     1_000, 50, delete_value),
    ("suspects", "so many versions, each written over with another schema under its id; a command, for which no id may have two",
     499_000, 20_000, suspects),
    ("suspect_entries", "so many versions of one id, which had two schemas up to the last line; a command likewise",
     999_000, 20_000, suspect_entries),
    ("log_namespace", "one line, a version with the schema of namespace_types",
     1_000_000, 65_536, log_namespace),
]

# Running.
def response(stream):
    """The next response: its status, and the front and the end of its body, which are the body where that is short."""
    head = [stream.readline()]
    while head[-1] not in (b"\r\n", b""):
        head.append(stream.readline())
    fields = dict(line.lower().split(b": ", 1) for line in head[1:-1] if b": " in line)
    left, front, end = int(fields.get(b"content-length", 0)), b"", b""
    while left:
        piece = stream.read(min(left, 1 << 20))
        if not piece:
            break
        left -= len(piece)
        front, end = (front + piece[:KEPT])[:KEPT], (end + piece)[-KEPT:]
    if left or head[-1] != b"\r\n" or not head[0].startswith(b"HTTP/1.1 "):
        raise EOFError
    return Answer(int(head[0].split()[1]), front.decode("utf-8", "replace"), end.decode("utf-8", "replace"))


def is_answer(came, wanted):
    if wanted.end is None:
        return came == (wanted.status, wanted.front, wanted.front)
    return came.status == wanted.status and came.front.startswith(wanted.front) and came.end.endswith(wanted.end)


def taken(child):
    """The processor seconds and the peak memory in MB of a process that still runs."""
    with open("/proc/%d/schedstat" % child.pid) as f:
        seconds = int(f.read().split()[0]) / 1e9
    with open("/proc/%d/status" % child.pid) as f:
        peaks = [int(found.split()[1]) for found in f if found.startswith("VmHWM:")]
    return seconds, peaks[0] * 1024 / 1e6 if peaks else 0.0


def talk(child, given, run):
    """Each part is sent whole before its answers are read: a fold writes nothing before it has read the log, and an answer stands
    after its request."""
    def ask(parts, answers):
        for part in parts:
            child.stdin.write(part.encode())
            run.bytes += len(part)
        child.stdin.flush()
        for wanted in answers:
            came = response(child.stdout)
            if run.is_right and not is_answer(came, wanted):
                run.is_right, run.told = False, "wrong: %d %s" % (came.status, came.front[:80])
    if not given.lines_are_dear:
        ask(chain(given.log, ["\n", FIRST]), [FIRST_ANSWER])
        run.seconds_before, run.before = taken(child)
        ask([given.dear] * given.times + [LAST], [given.answer] * given.times + [LAST_ANSWER])
    else:
        ask(chain(given.log, ["\n", given.dear]), [given.answer])
    after, run.peak = taken(child)
    run.seconds = (after - run.seconds_before) / given.times


def fold(program, given):
    """What a run came to: the bytes of its input, the processor seconds before what is dear and for it, the memory in MB before
    it and at the peak, whether all was right, and what is said of it."""
    run = SimpleNamespace(bytes=0, seconds_before=0.0, seconds=0.0, before=0.0, peak=0.0, is_right=True, told="right")
    is_whole = False
    with tempfile.TemporaryFile() as errors:
        child = subprocess.Popen([program, "fold"], stdin=subprocess.PIPE, stdout=subprocess.PIPE, stderr=errors)
        for limit, most in (resource.RLIMIT_AS, MEMORY), (resource.RLIMIT_CPU, SECONDS), (resource.RLIMIT_CORE, 0):
            resource.prlimit(child.pid, limit, (most, most + 1 if most else 0))
        with contextlib.suppress(BrokenPipeError, EOFError):
            talk(child, given, run)
            is_whole = True
        with contextlib.suppress(BrokenPipeError):
            child.stdin.close()
        child.stdout.close()
        _, status, used = os.wait4(child.pid, 0)
        child.returncode = os.waitstatus_to_exitcode(status)
        if given.lines_are_dear or not is_whole:
            run.seconds = used.ru_utime + used.ru_stime - run.seconds_before
        if not is_whole or child.returncode:
            errors.seek(0)
            run.peak = max(run.peak, used.ru_maxrss * 1024 / 1e6)
            ended = "status %d" % child.returncode if child.returncode >= 0 else signal.Signals(-child.returncode).name
            told = ("cut off: %s %s" % (ended, errors.readline().decode("utf-8", "replace"))).strip()
            run.is_right, run.told = False, told if run.is_right else run.told + ", then " + told
    return run


def main():
    words = [word for word in sys.argv[1:] if word != "--quick"]
    if not words:
        print(__doc__ + "\n")
        for case, what, size, quick, _ in CASES:
            print("%-21s  %9s  %7s  %s" % (case, "{:,}".format(size), "{:,}".format(quick), what))
        return 2
    unknown = set(words[1:]) - {row[0] for row in CASES}
    if unknown:
        sys.exit("no such case: %s" % ", ".join(sorted(unknown)))
    are_right = True
    print("%-21s  %11s  %9s  %7s  %7s  %1s  %s" % ("case", "bytes", "seconds", "before", "peak", "!", "answer"))
    for case, _, size, quick, make in CASES:
        if words[1:] and case not in words[1:]:
            continue
        run = fold(words[0], make(quick if "--quick" in sys.argv else size))
        are_right = are_right and run.is_right
        mark = "!" if run.seconds > 1 or run.peak - run.before > 1_000 else ""
        print("%-21s  %11s  %9.3f  %7.1f  %7.1f  %1s  %s" % (
            case, "{:,}".format(run.bytes), run.seconds, run.before, run.peak, mark, run.told), flush=True)
    return 0 if are_right else 1


if __name__ == "__main__":
    sys.exit(main())
