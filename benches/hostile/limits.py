"""What inputs cost that stand at each limit, and one past it: limits.py PROGRAM. Each is the input of one `PROGRAM fold`; shown are
its exit status, what it told (the first line of the last response, and its body's end, or what it wrote on standard error), its
processor time and its peak memory."""
import json, os, subprocess, sys, tempfile

PROGRAM = sys.argv[1]
GET = b"GET /subjects HTTP/1.1\r\nHost: a\r\n\r\n"


def schema_record(offset, subject, text):
    key = '{"keytype":"SCHEMA","subject":"%s","version":1,"magic":1}' % subject
    value = '{"subject":"%s","version":1,"id":1,"schema":%s,"deleted":false}' % (subject, json.dumps(text))
    return ("%d\t%s\t%s\n" % (offset, key, value)).encode()


def register(text):
    body = json.dumps({"schema": text}).encode()
    return post(body)


def post(body):
    return (b"POST /subjects/s/versions HTTP/1.1\r\nHost: a\r\nContent-Type: application/json\r\nContent-Length: %d\r\n\r\n" % len(body)) + body


def line_of(size):
    """A record line of so many bytes without its LF, whose value's other member is long."""
    front = b'1\t{"keytype":"NOOP","magic":0}\t"'
    return front + b"x" * (size - len(front) - 1) + b'"\n\n' + GET


def log_of(lines):
    return b"".join(b'%d\t{"keytype":"CONFIG","subject":"s","magic":0}\t{"compatibilityLevel":"FULL"}\n' % n for n in range(lines)) + b"\n" + GET


def head_of(size):
    front = b"GET /subjects HTTP/1.1\r\nX: "
    return b"\n" + front + b"y" * (size - len(front) - 4) + b"\r\n\r\n"


def body_of(size):
    front, end = b'{"schema":"\\"string\\"","x":"', b'"}'
    return b"\n" + post(front + b"y" * (size - len(front) - len(end)) + end)


def text_of(size):
    """A schema of so many bytes, most of them a doc, in a log."""
    front, end = '{"type":"fixed","name":"F","size":1,"doc":"', '"}'
    return schema_record(1, "s", front + "y" * (size - len(front) - len(end)) + end) + b"\n" + GET


ALL = '["null","boolean","int","long","float","double","bytes","string"]'


def nodes_of(count):
    """A record of fields, of which each but the last is a union of the eight primitives: nine nodes."""
    full, rest = divmod(count - 1, 9)
    types = [ALL] * full
    if rest:
        types.append("[%s]" % ",".join(json.loads(ALL) and ['"%s"' % p for p in json.loads(ALL)[:rest - 1]]))
    fields = ",".join('{"name":"f%d","type":%s}' % (n, t) for n, t in enumerate(types))
    return schema_record(1, "s", '{"type":"record","name":"R","fields":[%s]}' % fields) + b"\n" + GET


def nested(depth):
    """A schema whose JSON is nested so deep."""
    return b"\n" + register('{"type":"array","items":' * depth + '"int"' + "}" * depth)


def requests(count):
    return b"\n" + GET * count


ROWS = [
    ("line of 2,097,152 bytes", line_of, 2_097_152), ("log of 1,000,000 lines", log_of, 1_000_000), ("head of 8,192 bytes", head_of, 8_192),
    ("body of 1,048,576 bytes", body_of, 1_048_576), ("schema text of 1,048,576 bytes", text_of, 1_048_576), ("schema of 65,535 nodes", nodes_of, 65_535),
    ("JSON nested 127 deep", nested, 127), ("65,536 requests", requests, 65_536),
]


def run(text):
    with tempfile.TemporaryFile() as given, tempfile.TemporaryFile() as out, tempfile.TemporaryFile() as err:
        given.write(text)
        given.seek(0)
        p = subprocess.Popen([PROGRAM, "fold"], stdin=given, stdout=out, stderr=err)
        _, status, used = os.wait4(p.pid, 0)
        out.seek(0)
        err.seek(0)
        return os.waitstatus_to_exitcode(status), out.read(), err.read(), used.ru_utime + used.ru_stime, used.ru_maxrss


for name, make, limit in ROWS:
    for more in (0, 1):
        status, out, err, spent, memory = run(make(limit + more))
        last = out[out.rfind(b"HTTP/1.1"):] if out else b""
        told = err.split(b"\n")[0] if err else last.split(b"\r\n")[0][9:] + b" .. " + last[-46:]
        print("%-32s %-9s status %d  %6.3f s  %7.1f MB  %d responses  %s" % (
            name, "one past" if more else "at it", status, spent, memory / 1024, out.count(b"HTTP/1.1 "), told.decode("utf-8", "replace")), flush=True)
