"""What commands cost at a node of PROGRAM serve, beside the same ones in PROGRAM fold: commands.py PROGRAM [RECORDS [COMMANDS [CHANGES]]].

Both begin with so many records, each a subject of its own with a schema of its own; `fold` reads them as a log, the node
registers them. Then come so many commands of a kind, each of another subject: the level of a subject, a soft delete of a
version, a new schema in a new subject. Of the node it is the processor time of the whole process over these commands, of
`fold` that of the run less that of a run without them; all of it is shown, and that outside the kernel (a node writes each
response to a socket, and `fold` many at once). The least of three turns is shown.

Last, the memory of a node after 1,000 changes of one subject's level, and after CHANGES of them."""
import json, os, socket, subprocess, sys, tempfile

PROGRAM = sys.argv[1]
RECORDS, COMMANDS, CHANGES = (int((sys.argv + [""] * 3)[k] or given) for k, given in ((2, 100000), (3, 30000), (4, 1000000)))
PORT, TURNS, AT_ONCE = 19500, 3, 64


def request(method, path, body=None):
    text = "" if body is None else json.dumps(body)
    length = "" if body is None else "Content-Length: %d\r\n" % len(text)
    return ("%s %s HTTP/1.1\r\nHost: a\r\n%s\r\n%s" % (method, path, length, text)).encode()


def schema(number):
    return '{"name":"F%d","size":%d,"type":"fixed"}' % (number, number)


def register(number):
    return request("POST", "/subjects/subject-%d/versions" % number, {"schema": schema(number)})


KINDS = {
    "level of a subject": lambda turn, k: request("PUT", "/config/subject-%d" % k, {"compatibility": "FULL"}),
    "soft delete of a version": lambda turn, k: request("DELETE", "/subjects/subject-%d/versions/1" % (turn * COMMANDS + k)),
    "registration": lambda turn, k: register(RECORDS + turn * COMMANDS + k),
}


def log_line(number):
    key = '{"keytype":"SCHEMA","subject":"subject-%d","version":1,"magic":1}' % number
    value = '{"subject":"subject-%d","version":1,"id":%d,"schema":%s,"deleted":false}' % (number, number, json.dumps(schema(number)))
    return ("%d\t%s\t%s\n" % (number - 1, key, value)).encode()


class Node:
    def __init__(self):
        self.process = subprocess.Popen([PROGRAM, "serve", str(PORT), "1", "1"], stdout=subprocess.PIPE)
        self.process.stdout.readline()
        self.socket = socket.create_connection(("127.0.0.1", PORT))
        self.reader = self.socket.makefile("rb")

    def used(self):
        """Seconds of processor time outside the kernel, and in all."""
        fields = open("/proc/%d/stat" % self.process.pid).read().rsplit(")", 1)[1].split()
        user, system = (int(fields[k]) / os.sysconf("SC_CLK_TCK") for k in (11, 12))
        return user, user + system

    def megabytes(self):
        rows = open("/proc/%d/status" % self.process.pid).read().splitlines()
        return next(int(row.split()[1]) / 1000 for row in rows if row.startswith("VmRSS"))

    def ask(self, requests):
        """Sends some requests at a time, and reads their responses, none of which may be a refusal."""
        waiting = []
        for one in requests:
            waiting.append(one)
            if len(waiting) == AT_ONCE:
                self.exchange(waiting)
                waiting = []
        self.exchange(waiting)

    def exchange(self, requests):
        self.socket.sendall(b"".join(requests))
        for _ in requests:
            status = self.reader.readline()
            length = 0
            while True:
                row = self.reader.readline()
                if row in (b"\r\n", b""):
                    break
                if row.startswith(b"Content-Length: "):
                    length = int(row[16:])
            body = self.reader.read(length)
            if b" 200 " not in status:
                sys.exit("refused: %r %r" % (status, body))

    def stop(self):
        self.process.kill()
        self.process.wait()


def fold_used(requests):
    with tempfile.TemporaryFile() as source:
        for number in range(1, RECORDS + 1):
            source.write(log_line(number))
        source.write(b"\n")
        source.writelines(requests)
        source.seek(0)
        child = subprocess.Popen([PROGRAM, "fold"], stdin=source, stdout=subprocess.DEVNULL)
        _, status, used = os.wait4(child.pid, 0)
        child.returncode = status
        if status != 0:
            sys.exit("fold ended with %d" % status)
    return used.ru_utime, used.ru_utime + used.ru_stime


def row(*cells):
    print("| %s |" % " | ".join(cells), flush=True)


def main():
    node = Node()
    node.ask(register(number) for number in range(1, RECORDS + 1))
    nothing = [fold_used([]) for _ in range(2 * TURNS)]
    without = [min(turn[k] for turn in nothing) for k in (0, 1)]
    row("command", "node", "`fold`", "ratio", "outside the kernel: node", "`fold`", "ratio")
    row(*["---"] * 7)
    for name, make in KINDS.items():
        at_node, in_fold = [], []
        for turn in range(TURNS):
            requests = [make(turn, k) for k in range(1, COMMANDS + 1)]
            before = node.used()
            node.ask(requests)
            after = node.used()
            at_node.append([after[k] - before[k] for k in (0, 1)])
            used = fold_used(requests)
            in_fold.append([used[k] - without[k] for k in (0, 1)])
        cells = []
        for k in (1, 0):
            a, b = (min(turn[k] for turn in side) / COMMANDS * 1e6 for side in (at_node, in_fold))
            cells += ["%.1f us" % a, "%.1f us" % b, "%.2f" % (a / b)]
        row(name, *cells)
    node.stop()
    node, sizes, done = Node(), [], 0
    for count in (1000, CHANGES):
        node.ask(request("PUT", "/config/s", {"compatibility": ("FULL", "NONE")[k % 2]}) for k in range(done, count))
        done = count
        sizes.append(node.megabytes())
    node.stop()
    print("\nMemory after 1,000 changes of one level %.1f MB, after %d changes %.1f MB." % (sizes[0], CHANGES, sizes[1]))


if __name__ == "__main__":
    main()
