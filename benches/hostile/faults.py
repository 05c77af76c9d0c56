"""Faults from outside, on the program as it was built: faults.py PROGRAM [NAME..]. It builds a small library (faults.c) that
refuses allocations and shortens the calls of sockets, and starts `PROGRAM serve` with it.

`pieces`   300 connections send 100,000 requests in random pieces, and read each answer; then again with sockets that give and
           take 1 to 7 bytes at a time and are interrupted
`memory`   four clients register and look up while one allocation in so many is refused; then none is, and all that was
           acknowledged has to be there
`fold`     each allocation of `PROGRAM fold` over three runs, of registrations and of imports among them, is refused in turn
`pipelined` each allocation of a node is refused in turn while one client sends commands and long lookups at once: each response that
           comes is whole, and each command whose response doesn't come, or says that memory was refused, did nothing
`late`     a client reads late what it asked for, while each large allocation of the node for a request behind it is refused in turn:
           each response is whole

Each ends with status 1 where an answer isn't right."""
import http.client, json, mmap, os, random, select, socket, struct, subprocess, sys, tempfile, threading, time

PROGRAM, NAMES = sys.argv[1], sys.argv[2:] or ["pieces", "memory", "fold", "pipelined", "late"]
HERE, PORT = os.path.dirname(os.path.abspath(__file__)), 19600
FOLDER = tempfile.mkdtemp()
SHIM, STEER = FOLDER + "/faults.so", FOLDER + "/steer"
subprocess.run(["cc", "-shared", "-fPIC", "-O2", "-o", SHIM, HERE + "/faults.c", "-ldl"], check=True)
with open(STEER, "wb") as f:
    f.write(bytes(40))
steering = open(STEER, "r+b")
shared = mmap.mmap(steering.fileno(), 40)
wrong = 0


def steer(period=0, short=0, only=0, least=0):
    shared[0:8] = struct.pack("Q", period)
    shared[16:24] = struct.pack("Q", short)
    shared[24:40] = struct.pack("QQ", only, least)


def allocations():
    return struct.unpack("Q", shared[8:16])[0]


def bad(words):
    global wrong
    wrong += 1
    if wrong <= 10:
        print("WRONG", words)


class Node:
    def __init__(self, workers=4):
        global PORT
        PORT += 1
        steer()
        self.port = PORT
        self.process = subprocess.Popen([PROGRAM, "serve", str(PORT), "1", str(workers)], stdout=subprocess.DEVNULL,
                                        env=dict(os.environ, LD_PRELOAD=SHIM, FAULTS=STEER))
        for _ in range(400):
            try:
                c = http.client.HTTPConnection("127.0.0.1", PORT, timeout=5)
                ask(c, "GET", "/config")
                c.close()
                return
            except OSError:
                time.sleep(0.05)
        raise SystemExit("nothing listens")

    def threads(self):
        return len(os.listdir("/proc/%d/task" % self.process.pid))

    def stop(self):
        self.process.terminate()
        self.process.wait()


def ask(c, method, path, body=None):
    c.request(method, path, None if body is None else json.dumps(body), {"Content-Type": "application/json"} if body is not None else {})
    r = c.getresponse()
    return r.status, json.loads(r.read())


SCHEMAS = 200


def text(n):
    return json.dumps({"type": "record", "name": "R%d" % n, "fields": [{"name": "f%d" % (n % 7), "type": "string"}]}, separators=(",", ":"))


def request(rng):
    """A request, and its answer's status and body."""
    n = rng.randrange(SCHEMAS)
    what = rng.randrange(4)
    if what == 0:
        body = json.dumps({"schema": text(n)}).encode()
        return (b"POST /subjects/s%d HTTP/1.1\r\nHost: a\r\nContent-Type: application/json\r\nContent-Length: %d\r\n\r\n" % (n, len(body)) + body,
                (200, {"subject": "s%d" % n, "id": n + 1, "version": 1, "schema": text(n)}))
    if what == 1:
        return b"GET /subjects/s%d/versions HTTP/1.1\r\nHost: a\r\n\r\n" % n, (200, [1])
    if what == 2:
        return b"GET /schemas/ids/%d HTTP/1.1\r\nHost: a\r\n\r\n" % (n + 1), (200, {"schema": text(n)})
    return b"GET /nothing HTTP/1.1\r\nHost: a\r\n\r\n", (404, None)


def same(got, wanted):
    def plain(v):
        if isinstance(v, dict) and "schema" in v:
            return dict(v, schema=json.loads(v["schema"]))
        return v
    return got[0] == wanted[0] and (wanted[1] is None or plain(got[1]) == plain(wanted[1]))


class Client:
    """One connection: what is to be sent, what came, and what is awaited."""
    def __init__(self, port, rng):
        self.rng, self.port = rng, port
        self.open()

    def open(self):
        self.s = socket.create_connection(("127.0.0.1", self.port), timeout=30)
        self.s.setblocking(False)
        self.out, self.come, self.wanted, self.next = b"", b"", [], 0

    def send(self):
        """Sends a random piece of up to three requests."""
        now = time.time()
        if now < self.next:
            return
        if not self.out and len(self.wanted) < 3:
            for _ in range(self.rng.choice([1, 1, 1, 2, 3])):
                data, wanted = request(self.rng)
                self.out += data
                self.wanted.append(wanted)
                if wanted[0] == 404:
                    break
        if self.out:
            try:
                n = self.s.send(self.out[:self.rng.choice([1, 3, 10, 40, 100, 1000])])
                self.out = self.out[n:]
            except BlockingIOError:
                pass
            self.next = now + self.rng.choice([0, 0, 0, 0.001, 0.003])

    def take(self):
        """Reads what is there; how many answers were whole."""
        try:
            data = self.s.recv(65536)
        except BlockingIOError:
            return 0
        self.come += data
        count = 0
        while True:
            head, found, rest = self.come.partition(b"\r\n\r\n")
            if not found:
                break
            length = [int(l.split(b":")[1]) for l in head.lower().split(b"\r\n") if l.startswith(b"content-length")][0]
            if len(rest) < length:
                break
            self.come = rest[length:]
            got = int(head.split()[1]), json.loads(rest[:length])
            wanted = self.wanted.pop(0)
            if not same(got, wanted):
                bad((got, wanted))
            count += 1
            if wanted[0] == 404:
                # it closes after this answer
                self.s.close()
                self.open()
                return count
        if not data:
            bad("a connection was closed, %d answers were awaited" % len(self.wanted))
            self.s.close()
            self.open()
        return count


def pieces():
    for short, count in ((0, 100000), (1, 30000)):
        node = Node()
        c = http.client.HTTPConnection("127.0.0.1", node.port)
        for n in range(SCHEMAS):
            if ask(c, "POST", "/subjects/s%d/versions" % n, {"schema": text(n)}) != (200, {"id": n + 1}):
                bad("registering %d" % n)
        c.close()
        steer(short=short)
        rng = random.Random(7 + short)
        clients = [Client(node.port, rng) for _ in range(300)]
        begun, made = time.time(), 0
        while made < count and time.time() - begun < 300:
            for client in clients:
                client.send()
            ready, _, _ = select.select([x.s for x in clients], [], [], 0.0005)
            fds = {s.fileno() for s in ready}
            for client in clients:
                if client.s.fileno() in fds:
                    made += client.take()
        if made < count:
            bad("only %d answers came" % made)
        print("%s %d requests in pieces on 300 connections in %.1f s" % ("short calls:" if short else "plain calls:", made, time.time() - begun))
        steer()
        node.stop()


def memory():
    for period in (1000, 101, 29, 7):
        node = Node()
        threads = node.threads()
        known, counts, lock = {}, {}, threading.Lock()
        steer(period=period)
        until = time.time() + 8

        def client(k):
            rng, n = random.Random(k), 0
            c = http.client.HTTPConnection("127.0.0.1", node.port, timeout=20)
            while time.time() < until:
                n += 1
                try:
                    subject = "m%d_%d" % (k, n)
                    got = ask(c, "POST", "/subjects/%s/versions" % subject, {"schema": text(n)})
                    if got[0] == 200:
                        with lock:
                            known[subject] = got[1]["id"]
                    got2 = ask(c, "GET", "/subjects/%s/versions/1" % subject)
                    for g in (got, got2):
                        word = g[1].get("message", "200") if isinstance(g[1], dict) else "200"
                        with lock:
                            counts[word] = counts.get(word, 0) + 1
                    if got[0] == 200 and got2[0] == 200 and got2[1]["id"] != got[1]["id"]:
                        bad((got, got2))
                    if got[0] == 200 and got2[0] == 404 :
                        with lock:
                            counts["a write not read back"] = counts.get("a write not read back", 0) + 1
                except (OSError, http.client.HTTPException):
                    c.close()
                    c = http.client.HTTPConnection("127.0.0.1", node.port, timeout=20)
                    with lock:
                        counts["closed"] = counts.get("closed", 0) + 1

        work = [threading.Thread(target=client, args=(k,)) for k in range(4)]
        [t.start() for t in work]
        [t.join() for t in work]
        steer()
        c = http.client.HTTPConnection("127.0.0.1", node.port, timeout=20)
        got = ask(c, "PUT", "/config", {"compatibility": "FULL"})
        if got[0] != 200:
            bad(("after the refusals", got))
        time.sleep(0.2)
        ids = {}
        for subject, id in known.items():
            got = ask(c, "GET", "/subjects/%s/versions/1" % subject)
            if got[0] != 200 or got[1]["id"] != id:
                bad((subject, id, got))
            elif ids.setdefault(id, got[1]["schema"]) != got[1]["schema"]:
                bad(("two schemas", id))
        lost = threads - node.threads()
        if lost:
            bad("%d threads less" % lost)
        print("one allocation in %d refused: %d acknowledged, answers %s" % (period, len(known), dict(sorted(counts.items()))))
        node.stop()


def line(offset, key, value):
    compact = lambda data: json.dumps(data, separators=(",", ":")).encode()
    return b"%d\t%s\t%s\n" % (offset, compact(key), compact(value))


def version(offset, subject, number, id, schema):
    return line(offset, {"keytype": "SCHEMA", "subject": subject, "version": number, "magic": 1},
                {"subject": subject, "version": number, "id": id, "schema": schema, "deleted": False})


def level(offset, name):
    return line(offset, {"keytype": "CONFIG", "subject": None, "magic": 0}, {"compatibilityLevel": name})


def record(*fields):
    return json.dumps({"type": "record", "name": "R", "fields": fields}, separators=(",", ":"))


A, B = {"name": "a", "type": "int"}, {"name": "b", "type": "int"}

# Of each run its name, the lines of its log, and its requests: method, path and body.
RUNS = [
    ("a little of each", version(1, "s", 1, 1, '"int"') + level(2, "NONE"),
     [("GET", "/subjects", None), ("POST", "/subjects/s/versions", {"schema": '"long"'}), ("GET", "/subjects/s/versions", None),
      ("POST", "/subjects/t/versions", {"schema": text(3)}), ("DELETE", "/subjects/s", None), ("GET", "/schemas/ids/1", None),
      ("PUT", "/mode", {"mode": "READONLY"}), ("POST", "/subjects/u/versions", {"schema": '"int"'})]),
    ("registrations", version(1, "s", 1, 1, record(A)) + level(2, "FULL"),
     [("POST", "/subjects/s/versions", {"schema": record(A, B)}),
      ("POST", "/subjects/s/versions", {"schema": record(A, dict(B, default=0))}), ("GET", "/subjects/s/versions/2", None)]),
    ("imports", b"",
     [("PUT", "/mode", {"mode": "IMPORT"}), ("POST", "/subjects/s/versions", {"schema": '"int"', "id": 7}),
      ("POST", "/subjects/s/versions", {"schema": '"long"', "id": 7}), ("POST", "/subjects/s/versions", {"schema": '"long"'}),
      ("POST", "/subjects/s/versions", {"schema": '"long"', "id": 2147483647}), ("PUT", "/mode", {"mode": "READWRITE"}),
      ("POST", "/subjects/t/versions", {"schema": '"bytes"'}), ("GET", "/subjects/s/versions", None)]),
]

NO_MEMORY = (b"HTTP/1.1 500 Internal Server Error\r\nContent-Type: application/vnd.schemaregistry.v1+json\r\nContent-Length: 52\r\n\r\n"
             b'{"error_code":50001,"message":"Store error: memory"}')


def bytes_of(request):
    method, path, body = request
    body = b"" if body is None else json.dumps(body).encode()
    kind = b"Content-Type: application/json\r\n" if body else b""
    return b"%s %s HTTP/1.1\r\nHost: a\r\n%sContent-Length: %d\r\n\r\n" % (method.encode(), path.encode(), kind, len(body)) + body


def folded(log, requests, at=0):
    """A fold in which the allocation of that number alone is refused."""
    shared[8:16] = struct.pack("Q", 0)
    steer(only=at)
    done = subprocess.run([PROGRAM, "fold"], input=log + b"\n" + b"".join(map(bytes_of, requests)), capture_output=True, timeout=60,
                          env=dict(os.environ, LD_PRELOAD=SHIM, FAULTS=STEER))
    steer()
    return done


def responses(out):
    """The responses in a text; None where it isn't made of whole ones."""
    found = []
    while out:
        head, sep, rest = out.partition(b"\r\n\r\n")
        length = [int(l.split(b":")[1]) for l in head.lower().split(b"\r\n") if l.startswith(b"content-length")]
        if not sep or not length or len(rest) < length[0]:
            return None
        found.append(head + sep + rest[:length[0]])
        out = rest[length[0]:]
    return found


def fold():
    """Nothing is written and the fold ends with OutOfMemory, or one request is answered 50001 `memory` and the others as if it
    hadn't been sent, or all are answered as ever."""
    for name, log, requests in RUNS:
        whole = responses(folded(log, requests).stdout)
        total = allocations()
        if whole is None or len(whole) != len(requests) or NO_MEMORY in whole:
            bad((name, whole))
            continue
        without = [responses(folded(log, requests[:k] + requests[k + 1:]).stdout) for k in range(len(requests))]
        ended = told = 0
        for at in range(1, total + 1):
            done = folded(log, requests, at)
            got = responses(done.stdout)
            if done.returncode:
                ended += 1
                if done.returncode != 1 or done.stdout or b"OutOfMemory" not in done.stderr:
                    bad((name, at, done.returncode, done.stderr[:80], done.stdout[:80]))
            elif got is not None and NO_MEMORY in got:
                told += 1
                k = got.index(NO_MEMORY)
                if got[:k] + got[k + 1:] != without[k]:
                    bad((name, at, k, got))
            elif got != whole:
                bad((name, at, done.stdout[-100:]))
        print("fold of %s: %d allocations, each refused in turn: %d ended with OutOfMemory, %d were answered 50001 memory, with the command undone"
              % (name, total, ended, told))


# A schema of some 30,000 bytes, so that a few answers with it are more than what a worker gathers.
LONG = json.dumps({"type": "enum", "name": "Long", "symbols": ["S%05d" % n for n in range(3000)]}, separators=(",", ":"))


def run_of(turn):
    """The requests of one run: method, path, body and, of a command, the subject that it is about and whether that is there after it."""
    a, b = "p%da" % turn, "p%db" % turn
    long = ("GET", "/subjects/long/versions/1", None, None, None)
    return [long, ("POST", "/subjects/%s/versions" % a, {"schema": text(1)}, a, True), long, long, long,
            ("GET", "/subjects/%s/versions" % a, None, None, None), ("POST", "/subjects/%s/versions" % b, {"schema": text(2)}, b, True), long, long,
            ("DELETE", "/subjects/%s" % a, None, a, False), ("POST", "/subjects/long", {"schema": LONG}, None, None),
            ("PUT", "/config/%s" % b, {"compatibility": "FULL"}, None, None), long]


def exchange(port, run, small):
    """The whole responses that come to requests which are sent at once, and what stands behind them."""
    data = b""
    for at, (method, path, body, _, _) in enumerate(run):
        body = b"" if body is None else json.dumps(body).encode()
        last = b"Connection: close\r\n" if at + 1 == len(run) else b""
        data += b"%s %s HTTP/1.1\r\nHost: a\r\n%sContent-Length: %d\r\n\r\n" % (method.encode(), path.encode(), last, len(body)) + body
    s = socket.socket()
    if small:
        # Not so small that the responses take longer than the 10 seconds that a client may take for them.
        s.setsockopt(socket.SOL_SOCKET, socket.SO_RCVBUF, 32768)
    s.settimeout(30)
    come = b""
    try:
        s.connect(("127.0.0.1", port))
        s.sendall(data)
        if small:
            time.sleep(0.02)
        while True:
            piece = s.recv(65536)
            if not piece:
                break
            come += piece
    except ConnectionError:
        pass
    s.close()
    found = []
    while come:
        head, sep, rest = come.partition(b"\r\n\r\n")
        length = [int(l.split(b":")[1]) for l in head.lower().split(b"\r\n") if l.startswith(b"content-length")]
        if not sep or not length or len(rest) < length[0]:
            break
        found.append((int(head.split()[1]), json.loads(rest[:length[0]])))
        come = rest[length[0]:]
    return found, come


def is_there(c, subject):
    return ask(c, "GET", "/subjects/%s/versions" % subject)[0] == 200


def pipelined():
    for small in (False, True):
        node = Node(workers=2)
        c = http.client.HTTPConnection("127.0.0.1", node.port, timeout=30)
        if ask(c, "POST", "/subjects/long/versions", {"schema": LONG})[0] != 200:
            bad("registering the long schema")
        first = run_of(0)
        shared[8:16] = struct.pack("Q", 0)
        found, rest = exchange(node.port, first, small)
        if len(found) != len(first) or rest or any(status != 200 for status, _ in found):
            bad(("without a refusal", [status for status, _ in found], rest[:80]))
        # Other threads of the node take memory meanwhile, so a run more or less may be short of the last one.
        total, closed, told = allocations() * 5 // 4, 0, 0
        for turn in range(1, total + 1):
            run = run_of(turn)
            shared[8:16] = struct.pack("Q", 0)
            steer(only=turn)
            found, rest = exchange(node.port, run, small)
            steer()
            if rest:
                bad((turn, "a response is cut", rest[:80]))
            closed += len(found) < len(run)
            # A command of the client's own, so that its later answers are fresh.
            for _ in range(3):
                if ask(c, "PUT", "/config/fresh", {"compatibility": "FULL"})[0] == 200:
                    break
            known = {}
            for at, (_, _, _, subject, there) in enumerate(run):
                if subject is None:
                    continue
                answer = found[at] if at < len(found) else None
                if answer is not None and answer[0] == 200:
                    known[subject] = there
                elif answer is not None and "memory" not in answer[1].get("message", "") and answer[0] == 500:
                    known[subject] = None
                else:
                    told += answer is not None
                    known.setdefault(subject, False)
            for subject, there in known.items():
                if there is not None and is_there(c, subject) != there:
                    bad((turn, subject, there, len(found), [status for status, _ in found]))
        print("a pipelined run%s: %d allocations, each refused in turn: %d connections closed early, %d commands told of it"
              % (" that is read late" if small else "", total, closed, told))
        node.stop()


def read_late(port, at):
    """What a client gets that asks three times for a long schema, sends a long body and then reads, while one large allocation for that
    body is refused; and how many there were."""
    s = socket.socket()
    s.setsockopt(socket.SOL_SOCKET, socket.SO_RCVBUF, 4096)
    s.settimeout(30)
    s.connect(("127.0.0.1", port))
    s.sendall(b"GET /subjects/long/versions/1 HTTP/1.1\r\nHost: a\r\n\r\n" * 3)
    time.sleep(0.3)
    shared[8:16] = struct.pack("Q", 0)
    steer(only=at, least=65536)
    come = b""
    try:
        s.sendall(b"POST /subjects/late/versions HTTP/1.1\r\nHost: a\r\nConnection: close\r\nContent-Length: 900000\r\n\r\n" + b"x" * 900000)
        time.sleep(0.3)
        while True:
            piece = s.recv(65536)
            if not piece:
                break
            come += piece
    except ConnectionError:
        pass
    steer()
    s.close()
    return come, allocations()


def late():
    node = Node(workers=2)
    c = http.client.HTTPConnection("127.0.0.1", node.port, timeout=30)
    if ask(c, "POST", "/subjects/long/versions", {"schema": LONG})[0] != 200:
        bad("registering the long schema")
    _, total = read_late(node.port, 0)
    lacking = 0
    for at in range(1, total + 1):
        come, _ = read_late(node.port, at)
        found = responses(come)
        lacking += found is not None and len(found) < 4
        if found is None or len(found) < 3:
            bad((at, "a response is cut", len(come), come[:80]))
    print("read late: %d large allocations, each refused in turn: %d requests behind not answered" % (total, lacking))
    node.stop()


for name in NAMES:
    globals()[name]()
print("all as it should be" if not wrong else "%d WRONG" % wrong)
sys.exit(1 if wrong else 0)
