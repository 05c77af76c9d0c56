"""Memory of schemas of 1 kB: texts.py PROGRAM [SCHEMAS].

Registers SCHEMAS schemas of some 1,000 bytes, 20,000 if no number stands there, each in a subject of its own, at one of
three nodes of PROGRAM serve, until the other two have them all, and shows the memory of the process beside the bytes of the
log that holds these versions. Then PROGRAM fold reads that log, and the same log where each schema stands as a client would
write it, its members in another order than in the normal text, with the peak of the process beside the bytes of its input."""
import http.client, json, os, signal, subprocess, sys, tempfile, time

PROGRAM = sys.argv[1]
SCHEMAS = int(sys.argv[2]) if len(sys.argv) > 2 else 20000
PORT = 18210
REQUEST = b"\nGET /schemas/ids/1 HTTP/1.1\r\nHost: a\r\n\r\n"


def fields(length):
    found = []
    while len(json.dumps(found, separators=(",", ":"))) < length - 50:
        found.append({"name": "field_%d" % len(found), "type": "long"})
    return found


FIELDS = fields(1000)


def schema(number, is_normal):
    name = ("name", "Record_%d" % number)
    kind, inside = ("type", "record"), ("fields", FIELDS)
    members = [inside, name, kind] if is_normal else [kind, name, inside]
    return json.dumps(dict(members), separators=(",", ":"))


def line(number, is_normal):
    subject = "subject-%d" % number
    key = json.dumps({"keytype": "SCHEMA", "subject": subject, "version": 1, "magic": 1}, separators=(",", ":"))
    value = {"subject": subject, "version": 1, "id": number, "schema": schema(number, is_normal), "deleted": False}
    return "%d\t%s\t%s\n" % (number - 1, key, json.dumps(value, separators=(",", ":")))


def memory(pid, name):
    for found in open("/proc/%d/status" % pid):
        if found.startswith(name):
            return int(found.split()[1]) * 1024


def serve(size):
    child = subprocess.Popen([PROGRAM, "serve", str(PORT), "3", "2"], stdout=subprocess.PIPE)
    child.stdout.readline()
    at_start = memory(child.pid, "VmRSS")
    client = http.client.HTTPConnection("127.0.0.1", PORT)
    for number in range(1, SCHEMAS + 1):
        body = json.dumps({"schema": schema(number, True)})
        client.request("POST", "/subjects/subject-%d/versions" % number, body, {"Content-Type": "application/json"})
        answer = client.getresponse().read()
        if answer != b'{"id":%d}' % number:
            sys.exit("schema %d was answered %r" % (number, answer))
    for node in range(3):
        other = http.client.HTTPConnection("127.0.0.1", PORT + node)
        for _ in range(100):
            other.request("GET", "/schemas/ids/%d" % SCHEMAS)
            answer = other.getresponse()
            answer.read()
            if answer.status == 200:
                break
            time.sleep(0.1)
        else:
            sys.exit("node %d doesn't have them all" % node)
    peak = memory(child.pid, "VmHWM")
    print("three nodes of serve:        peak %.1f MB, %.2f times the log; %.1f MB at the start" % (peak / 1e6, peak / size, at_start / 1e6))
    child.send_signal(signal.SIGTERM)
    child.wait()


def fold(is_normal, words):
    with tempfile.TemporaryFile() as log:
        for number in range(1, SCHEMAS + 1):
            log.write(line(number, is_normal).encode())
        size = log.tell()
        log.write(REQUEST)
        log.seek(0)
        child = subprocess.Popen([PROGRAM, "fold"], stdin=log, stdout=subprocess.DEVNULL)
        _, status, used = os.wait4(child.pid, 0)
        child.returncode = os.waitstatus_to_exitcode(status)
    peak = used.ru_maxrss * 1024
    print("%s peak %.1f MB, %.2f times the log of %.1f MB" % (words, peak / 1e6, peak / size, size / 1e6))


size = sum(len(line(number, True)) for number in range(1, SCHEMAS + 1))
serve(size)
fold(True, "fold, normal texts:         ")
fold(False, "fold, members in their order:")
