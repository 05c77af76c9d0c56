"""What a node of PROGRAM serve holds after subjects were registered and deleted for good: deletes.py PROGRAM [LIVE [SUBJECTS]].

A node first registers so many subjects that stay (1,000 where none is said), and then, each in its turn, a tenth of SUBJECTS
others (100,000), and in another process SUBJECTS of them: each with a schema of its own, whose version is deleted softly and
then for good. Some changes of one level follow, so that the topic is compacted again. It shows the memory of the process
before and after, and the processor time of a subject. As the floor of what is kept rises over the deletes, the memory
should be that of the subjects that stay and of some thousands of deletes, however many came. (A soft delete of a whole
subject would leave a record of its own, which stays.)"""
import json, os, socket, subprocess, sys

PROGRAM = sys.argv[1]
LIVE, SUBJECTS = (int((sys.argv + [""] * 2)[k] or given) for k, given in ((2, 1000), (3, 100000)))
PORT, AT_ONCE, CHANGES = 19510, 64, 1024


def request(method, path, body=None):
    text = "" if body is None else json.dumps(body)
    length = "" if body is None else "Content-Length: %d\r\n" % len(text)
    return ("%s %s HTTP/1.1\r\nHost: a\r\n%s\r\n%s" % (method, path, length, text)).encode()


def register(name, number):
    schema = '{"name":"F%d","size":%d,"type":"fixed"}' % (number, number)
    return request("POST", "/subjects/%s-%d/versions" % (name, number), {"schema": schema})


def deleted(number):
    path = "/subjects/gone-%d/versions/1" % number
    return [register("gone", number), request("DELETE", path), request("DELETE", path + "?permanent=true")]


class Node:
    def __init__(self):
        self.process = subprocess.Popen([PROGRAM, "serve", str(PORT), "1", "1"], stdout=subprocess.PIPE)
        self.process.stdout.readline()
        self.socket = socket.create_connection(("127.0.0.1", PORT))
        self.reader = self.socket.makefile("rb")

    def used(self):
        """Seconds of processor time."""
        fields = open("/proc/%d/stat" % self.process.pid).read().rsplit(")", 1)[1].split()
        return (int(fields[11]) + int(fields[12])) / os.sysconf("SC_CLK_TCK")

    def megabytes(self):
        rows = open("/proc/%d/status" % self.process.pid).read().splitlines()
        return next(int(row.split()[1]) / 1000 for row in rows if row.startswith("VmRSS"))

    def response(self):
        status = int(self.reader.readline().split()[1])
        length = 0
        for line in iter(self.reader.readline, b"\r\n"):
            if line.lower().startswith(b"content-length:"):
                length = int(line.split(b":")[1])
        return status, self.reader.read(length)

    def ask(self, requests):
        """Sends the requests, some at once, and wants each to be answered 200."""
        for start in range(0, len(requests), AT_ONCE):
            part = requests[start:start + AT_ONCE]
            self.socket.sendall(b"".join(part))
            for _ in part:
                status, body = self.response()
                if status != 200:
                    sys.exit("%d %s" % (status, body.decode()))

    def end(self):
        self.process.kill()
        self.process.wait()


def round_of(subjects):
    node = Node()
    try:
        node.ask([register("live", number) for number in range(1, LIVE + 1)])
        before, used = node.megabytes(), node.used()
        for number in range(LIVE + 1, LIVE + subjects + 1):
            node.ask(deleted(number))
        took = node.used() - used
        node.ask([request("PUT", "/config", {"compatibility": level}) for level in ("FULL", "NONE") * (CHANGES // 2)])
        node.socket.sendall(request("GET", "/subjects?deleted=true"))
        if len(json.loads(node.response()[1])) != LIVE:
            sys.exit("other subjects are left than those that stay")
        print("%9d subjects deleted for good: %6.1f MB before, %6.1f MB after, %6.1f us each" % (subjects, before, node.megabytes(), took / subjects * 1e6))
    finally:
        node.end()


for subjects in (SUBJECTS // 10, SUBJECTS):
    round_of(subjects)
