"""What the scripts of this folder share: logs, the programs that read them, and what these took. KEEP and REGD in the environment name
other programs than `out/registrylog` and `out/registryd`, START_FOLDER another folder for logs than that of shared memory."""
import atexit, json, os, shutil, socket, subprocess, sys, tempfile, time

KEEP = os.path.abspath(os.environ.get("KEEP", "out/registrylog"))
REGD = os.path.abspath(os.environ.get("REGD", "out/registryd"))
FOLDER = tempfile.mkdtemp(dir=os.environ.get("START_FOLDER", "/dev/shm"))
TICK = os.sysconf("SC_CLK_TCK")
atexit.register(shutil.rmtree, FOLDER, ignore_errors=True)


def schema(kind, number):
    """`short`: some 50 bytes; `normal`: the same, as its normal text; `kb`: about 1 kB."""
    if kind == "normal":
        return '{"fields":[],"name":"R%d","type":"record"}' % number
    count = {"short": 0, "kb": 15}[kind]
    fields = [{"name": "field_number_%02d" % k, "type": ["null", "string"], "default": None} for k in range(count)]
    return json.dumps({"type": "record", "name": "R%d" % number, "fields": fields}, separators=(",", ":"))


def version(offset, subject, number, version, text):
    """The line of a version with that id."""
    key = {"keytype": "SCHEMA", "subject": subject, "version": version, "magic": 1}
    value = {"subject": subject, "version": version, "id": number, "schema": text, "deleted": False}
    return "%d\t%s\t%s\n" % (offset, json.dumps(key, separators=(",", ":")), json.dumps(value, separators=(",", ":")))


def write_log(kind, records):
    """A log of versions, each with a subject and a schema of its own, and its path."""
    path = "%s/%s-%d" % (FOLDER, kind, records)
    with open(path, "w") as log:
        for n in range(1, records + 1):
            log.write(version(n - 1, "s%d" % n, n, 1, schema(kind, n)))
        log.write("\n")
    return path


def request(method, path, body=None):
    text = "" if body is None else json.dumps(body)
    length = "" if body is None else "Content-Length: %d\r\n" % len(text)
    return ("%s %s HTTP/1.1\r\nHost: a\r\n%s\r\n%s" % (method, path, length, text)).encode()


# Kinds of commands: the k-th of each, over a log of so many records.
KINDS = {
    "level of a subject": lambda records, k: request("PUT", "/config/s%d" % k, {"compatibility": "FULL"}),
    "soft delete of a version": lambda records, k: request("DELETE", "/subjects/s%d/versions/1" % k),
    "registration": lambda records, k: request("POST", "/subjects/n%d/versions" % k, {"schema": schema("normal", records + k)}),
}


def fold(log, requests, under=()):
    """User and system seconds of a fold of the log and the requests, and its peak memory in bytes. `under` are the words of a program
    that runs it."""
    with open(FOLDER + "/in", "wb") as given:
        with open(log, "rb") as lines:
            shutil.copyfileobj(lines, given)
        given.writelines(requests)
    with open(FOLDER + "/in", "rb") as given:
        child = subprocess.Popen([*under, REGD, "fold"], stdin=given, stdout=subprocess.DEVNULL)
    _, status, used = os.wait4(child.pid, 0)
    child.returncode = status
    if status != 0:
        sys.exit("fold ended with %d" % status)
    return used.ru_utime, used.ru_stime, used.ru_maxrss * 1024


class Kept:
    """`registrylog keep` on a copy of a log, from the moment on at which each node gives the schema of an id."""
    port = 19900

    def __init__(self, log, nodes, last, workers=4, under=()):
        Kept.port += 4
        self.port, self.errors = Kept.port, tempfile.TemporaryFile()
        shutil.copyfile(log, FOLDER + "/kept")
        words = [*under, KEEP, "keep", "--quiet", "--listen", "127.0.0.1:%d" % self.port, "--nodes", str(nodes), "--workers", str(workers), FOLDER + "/kept"]
        begun = time.time()
        self.process = subprocess.Popen(words, stderr=self.errors)
        atexit.register(self.end)
        for node in range(nodes):
            self.wait(node, request("GET", "/schemas/ids/%d" % last))
        self.ready = time.time() - begun
        self.client = socket.create_connection(("127.0.0.1", self.port))
        self.client.setsockopt(socket.IPPROTO_TCP, socket.TCP_NODELAY, 1)
        self.reader = self.client.makefile("rb")

    def wait(self, node, asked):
        while self.process.poll() is None:
            try:
                with socket.create_connection(("127.0.0.1", self.port + node)) as there, there.makefile("rb") as reader:
                    there.sendall(asked)
                    if read_response(reader)[0] == 200:
                        return
            except OSError:
                pass
            time.sleep(0.005)
        self.errors.seek(0)
        sys.exit("it ended: %r" % self.errors.read())

    def used(self):
        """User and system seconds of all its threads, those too that ended."""
        with open("/proc/%d/stat" % self.process.pid) as it:
            parts = it.read().rsplit(")", 1)[1].split()
        return int(parts[11]) / TICK, int(parts[12]) / TICK

    def ran(self):
        """Seconds of all its threads, in and outside the kernel, in nanoseconds where `used` has ticks."""
        # The number of the clock of a process, as clock_getcpuclockid(3) makes it.
        return time.clock_gettime(~self.process.pid << 3 | 2)

    def memory(self):
        """What it has now, and what it had at its peak, in bytes."""
        with open("/proc/%d/status" % self.process.pid) as it:
            rows = dict(row.split(":", 1) for row in it)
        return tuple(int(rows[name].split()[0]) * 1024 for name in ("VmRSS", "VmHWM"))

    def settle(self):
        """Waits until it does nothing any more: other nodes may be at a command still."""
        while True:
            before = sum(self.used())
            time.sleep(0.5)
            if sum(self.used()) - before < 0.03:
                return

    def ask_all(self, requests, at_once):
        """Sends so many requests at a time to the first node, and reads their responses, none of which may be a refusal."""
        for k in range(0, len(requests), at_once):
            part = requests[k:k + at_once]
            self.client.sendall(b"".join(part))
            for _ in part:
                status, body = read_response(self.reader)
                if status != 200:
                    sys.exit("refused: %d %r" % (status, body))

    def ask(self, asked):
        """Seconds until the first node answered."""
        begun = time.time()
        self.ask_all([asked], 1)
        return time.time() - begun

    def end(self):
        self.process.kill()
        self.process.wait()


def read_response(reader):
    """The status, and the body; 0 where there is none."""
    first, length = reader.readline().split(), 0
    while True:
        row = reader.readline()
        if row in (b"\r\n", b""):
            break
        if row.lower().startswith(b"content-length:"):
            length = int(row.split(b":")[1])
    return int(first[1]) if len(first) > 1 else 0, reader.read(length)


def row(*cells):
    print("| %s |" % " | ".join(cells), flush=True)


def head(*cells):
    row(*cells)
    row(*["---"] * len(cells))
