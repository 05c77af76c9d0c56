"""Hostile clients against a node that serves on loopback: clients.py PORT WORKERS NAME..

The names are those of the functions below; with none, all but `emfile` run, in their order. PID in the
environment names the server, whose memory and threads are then shown. Each probe ends by itself, and prints
what it did, and whether the node answered a plain request afterwards."""
import os, resource, socket, struct, sys, threading, time

PORT, WORKERS = int(sys.argv[1]), int(sys.argv[2])
GET = b"GET /subjects HTTP/1.1\r\nHost: a\r\n\r\n"
CLOSE = b"GET /subjects HTTP/1.1\r\nHost: a\r\nConnection: close\r\n\r\n"


def connect(timeout=60):
    return socket.create_connection(("127.0.0.1", PORT), timeout=timeout)


def read_all(s, limit=60):
    s.settimeout(limit)
    out, begun = b"", time.time()
    try:
        while True:
            piece = s.recv(65536)
            if not piece:
                return out, "end", time.time() - begun
            out += piece
    except ConnectionResetError:
        return out, "RESET", time.time() - begun
    except socket.timeout:
        return out, "still open", time.time() - begun


def read_one(s, limit=60):
    """One response with a Content-Length."""
    s.settimeout(limit)
    out = b""
    while b"\r\n\r\n" not in out:
        piece = s.recv(65536)
        if not piece:
            return out
        out += piece
    head, body = out.split(b"\r\n\r\n", 1)
    want = int([l for l in head.lower().split(b"\r\n") if l.startswith(b"content-length:")][0].split(b":")[1])
    while len(body) < want:
        body += s.recv(65536)
    return head + b"\r\n\r\n" + body


def reset(s):
    s.setsockopt(socket.SOL_SOCKET, socket.SO_LINGER, struct.pack("ii", 1, 0))
    s.close()


def alive(limit=60):
    """Seconds until a new client was answered; as many at once as there are workers."""
    begun, slowest, bad = time.time(), 0, 0
    def one():
        nonlocal slowest, bad
        try:
            s = connect(limit)
            s.sendall(CLOSE)
            out, how, _ = read_all(s, limit)
            if not out.startswith(b"HTTP/1.1 200") or how != "end":
                bad += 1
        except OSError:
            bad += 1
        slowest = max(slowest, time.time() - begun)
    ts = [threading.Thread(target=one) for _ in range(WORKERS)]
    [t.start() for t in ts]
    [t.join() for t in ts]
    return "afterwards %d of %d workers answered, the last after %.2f s" % (WORKERS - bad, WORKERS, slowest)


def state():
    pid = os.environ.get("PID")
    if not pid:
        return ""
    lines = open("/proc/%s/status" % pid).read().split("\n")
    keep = [l.replace("\t", " ") for l in lines if l.startswith(("VmRSS", "VmHWM", "Threads"))]
    return "; ".join(keep) + "; files %d" % len(os.listdir("/proc/%s/fd" % pid))


def show(name, text):
    print("%-12s %s" % (name, text), flush=True)


def first(out):
    return out.split(b"\r\n")[0].decode("latin1"), len(out)


def half_closed():
    s = connect()
    s.sendall(GET)
    s.shutdown(socket.SHUT_WR)
    out, how, t = read_all(s)
    return "a client that ended its side: %s, then %s after %.3f s" % (first(out), how, t)


def silent():
    s = connect()
    out, how, t = read_all(s, 75)
    s2 = connect()
    s2.sendall(GET)
    read_one(s2)
    out2, how2, t2 = read_all(s2, 75)
    return "sent nothing: %s after %.2f s; silent after a response: %s after %.2f s" % (how, t, how2, t2)


def drip():
    """A byte each 200 ms."""
    s, begun, n = connect(), time.time(), 0
    try:
        for b in (b"GET /subjects HTTP/1.1\r\n" + b"X-Pad: " + b"y" * 4000):
            s.send(bytes([b]))
            n += 1
            time.sleep(0.2)
            if time.time() - begun > 60:
                return "STILL OPEN after 60 s"
    except OSError as e:
        return "closed after %.2f s and %d bytes (%s)" % (time.time() - begun, n, e.__class__.__name__)


def drip_body():
    s, begun, n = connect(), time.time(), 0
    s.sendall(b"POST /subjects/s/versions HTTP/1.1\r\nHost: a\r\nContent-Type: application/json\r\nContent-Length: 100000\r\n\r\n")
    try:
        while time.time() - begun < 60:
            s.send(b"x")
            n += 1
            time.sleep(0.2)
        return "STILL OPEN after 60 s"
    except OSError as e:
        return "closed after %.2f s and %d bytes of the body (%s)" % (time.time() - begun, n, e.__class__.__name__)


def drip_between():
    """Answered requests with 5 s between them must not be closed; each takes 2 s to come."""
    s, begun = connect(), time.time()
    for _ in range(4):
        for part in (GET[:10], GET[10:20], GET[20:]):
            s.sendall(part)
            time.sleep(0.7)
        if not read_one(s).startswith(b"HTTP/1.1 200"):
            return "WRONG: not answered"
        time.sleep(5)
    return "4 slow but fair requests were answered over %.1f s" % (time.time() - begun)


def drip_all():
    """As many dripping clients as workers: when is the next client answered?"""
    stop = []
    def one():
        s = connect()
        try:
            for b in GET[:-4] + b"\r\nX: " + b"y" * 1000:
                if stop:
                    return
                s.send(bytes([b]))
                time.sleep(0.2)
        except OSError:
            pass
    ts = [threading.Thread(target=one) for _ in range(WORKERS)]
    [t.start() for t in ts]
    time.sleep(0.5)
    begun = time.time()
    s = connect()
    s.sendall(GET)
    out = read_one(s)
    t = time.time() - begun
    stop.append(1)
    [t.join() for t in ts]
    return "with %d dripping clients the next one waited %.2f s: %s" % (WORKERS, t, first(out))


def never_reads():
    """Requests whose answers are never read."""
    s, begun, sent = connect(), time.time(), 0
    s.setsockopt(socket.SOL_SOCKET, socket.SO_RCVBUF, 4096)
    s.settimeout(60)
    try:
        while time.time() - begun < 60:
            sent += s.send(GET * 1000)
        return "STILL OPEN after 60 s"
    except OSError as e:
        return "closed after %.2f s, %d bytes of requests sent (%s)" % (time.time() - begun, sent, e.__class__.__name__)


def reads_slowly():
    """Answers that are read at 1,000 bytes a second."""
    s, begun = connect(), time.time()
    s.setsockopt(socket.SOL_SOCKET, socket.SO_RCVBUF, 2048)
    def feed():
        try:
            s.sendall(GET * 200000)
        except OSError:
            pass
    t = threading.Thread(target=feed)
    t.start()
    got = 0
    how = "STILL OPEN after 60 s"
    try:
        while time.time() - begun < 60:
            piece = s.recv(200)
            if not piece:
                how = "end after %.2f s" % (time.time() - begun)
                break
            got += len(piece)
            time.sleep(0.2)
    except OSError as e:
        how = "closed after %.2f s (%s)" % (time.time() - begun, e.__class__.__name__)
    reset(s)
    t.join()
    return how + ", %d bytes read" % got


def resets():
    """Resets in each phase: at once, in a head, in a body, while the answer is written."""
    def at_once(s): reset(s)
    def in_head(s): s.sendall(GET[:20]); reset(s)
    def in_body(s): s.sendall(b"POST /subjects/s/versions HTTP/1.1\r\nHost: a\r\nContent-Length: 1000\r\n\r\nxx"); reset(s)
    def unread(s): s.sendall(GET * 500); reset(s)
    def in_answer(s): s.sendall(GET * 500); s.recv(10); reset(s)
    out = []
    for what in (at_once, in_head, in_body, unread, in_answer):
        begun = time.time()
        for _ in range(200):
            what(connect())
        out.append("%s %.2f s" % (what.__name__, time.time() - begun))
    return "200 each: " + ", ".join(out)


def refused_413():
    results = []
    for _ in range(5):
        s, n = connect(), 20_000_000
        s.sendall(b"POST /subjects/s/versions HTTP/1.1\r\nHost: a\r\nContent-Length: %d\r\n\r\n" % n)
        sent, error = 0, None
        try:
            while sent < n:
                sent += s.send(b"x" * min(65536, n - sent))
        except OSError as e:
            error = e.__class__.__name__
        out, how, t = read_all(s, 20)
        results.append("%s %d bytes, %s, sent %.2f MB (%s)" % (*first(out), how, sent / 1e6, error))
    return " | ".join(results)


def refused_411():
    results = []
    for rest in (0, 3000, 100_000, 1_000_000):
        s = connect()
        s.sendall(b"POST /subjects/s/versions HTTP/1.1\r\nHost: a\r\nTransfer-Encoding: chunked\r\n\r\n")
        error = None
        try:
            s.sendall(b"x" * rest)
        except OSError as e:
            error = e.__class__.__name__
        out, how, t = read_all(s, 20)
        results.append("%d bytes unread: %s, %s after %.3f s (%s)" % (rest, first(out), how, t, error))
    return " | ".join(results)


def refused_quietly():
    """A refused client that neither sends nor closes: how long is its connection held?"""
    s = connect()
    s.sendall(b"POST /subjects/s/versions HTTP/1.1\r\nHost: a\r\nTransfer-Encoding: chunked\r\n\r\n")
    out, how, t = read_all(s, 20)
    time.sleep(4)
    begun = time.time()
    try:
        for _ in range(20):
            s.send(b"x")
            time.sleep(0.2)
        held = "STILL OPEN 4 s after it"
    except OSError as e:
        held = "gone (%s)" % e.__class__.__name__
    return "%s, %s; 4 s later the socket is %s" % (first(out), how, held)


def refused_drips():
    """A refused client that goes on with a byte each 100 ms."""
    s, begun, n = connect(), time.time(), 0
    s.sendall(b"POST /subjects/s/versions HTTP/1.1\r\nHost: a\r\nTransfer-Encoding: chunked\r\n\r\n")
    try:
        while time.time() - begun < 20:
            s.send(b"x")
            n += 1
            time.sleep(0.1)
        return "STILL OPEN after 20 s"
    except OSError as e:
        return "closed %.2f s after the refusal, %d bytes (%s)" % (time.time() - begun, n, e.__class__.__name__)


def endless_head():
    s, begun = connect(), time.time()
    s.sendall(b"GET / HTTP/1.1\r\nX: " + b"y" * 20000)
    out, how, t = read_all(s, 20)
    return "20,000 bytes of head: %s, %s after %.3f s" % (first(out), how, t)


def pipelined():
    s, begun = connect(), time.time()
    n = 1000
    def feed(): s.sendall(GET * (n - 1) + CLOSE)
    t = threading.Thread(target=feed)
    t.start()
    out, how, _ = read_all(s, 60)
    t.join()
    return "%d requests at once: %d responses, %d bytes, %s after %.3f s" % (n, out.count(b"HTTP/1.1 200"), len(out), how, time.time() - begun)


def many_requests():
    """More than 65,536 requests on one connection."""
    s, begun, n, batch = connect(), time.time(), 0, 512
    one = None
    while n < 66_048:
        s.sendall(GET * batch)
        if one is None:
            one = 0
        want, got = batch, b""
        while got.count(b"HTTP/1.1 200") < want or not got.endswith(b"[]"):
            piece = s.recv(1 << 20)
            if not piece:
                return "ENDED after %d requests" % (n + got.count(b"HTTP/1.1 200"))
            got += piece
        n += batch
    s.close()
    return "%d requests on one connection in %.2f s" % (n, time.time() - begun)


def idle_thousand():
    """1,000 connections that say nothing, and a client behind them."""
    soft, hard = resource.getrlimit(resource.RLIMIT_NOFILE)
    resource.setrlimit(resource.RLIMIT_NOFILE, (min(hard, 4096), hard))
    socks, refused = [], 0
    for _ in range(1000):
        s = socket.socket()
        s.setblocking(False)
        try:
            s.connect(("127.0.0.1", PORT))
        except BlockingIOError:
            pass
        except OSError:
            refused += 1
        socks.append(s)
    time.sleep(2)
    before = state()
    up = 0
    for s in socks:
        try:
            s.getpeername()
            up += 1
        except OSError:
            pass
    begun = time.time()
    for s in socks:
        s.close()
    closed = time.time() - begun
    line = alive(90)
    return "%d of 1,000 connected, %d refused; %s; closed in %.2f s" % (up, refused, before, closed) + "; " + line


def emfile():
    """Needs a server under a low limit of files (prlimit): more clients than files."""
    socks = []
    for _ in range(WORKERS):
        s = connect()
        s.sendall(GET)
        s.settimeout(3)
        try:
            s.recv(65536)
            socks.append((s, True))
        except (socket.timeout, OSError):
            socks.append((s, False))
    served = sum(1 for _, ok in socks if ok)
    pid = os.environ["PID"]
    def cpu():
        f = open("/proc/%s/stat" % pid).read().rsplit(")", 1)[1].split()
        return (int(f[11]) + int(f[12])) / os.sysconf("SC_CLK_TCK")
    c, t = cpu(), time.time()
    time.sleep(5)
    spent = (cpu() - c) / (time.time() - t)
    for s, _ in socks:
        s.close()
    time.sleep(1)
    return "%d of %d clients served at the limit; %.2f%% of a core meanwhile" % (served, WORKERS, 100 * spent)


NAMES = ["half_closed", "pipelined", "many_requests", "refused_411", "refused_413", "refused_quietly", "refused_drips", "endless_head", "resets",
         "drip", "drip_body", "drip_between", "drip_all", "never_reads", "reads_slowly", "silent", "idle_thousand"]

for name in sys.argv[3:] or NAMES:
    try:
        text = globals()[name]()
    except Exception as e:
        text = "PROBE FAILED %r" % e
    show(name, "%s; %s; %s" % (text, alive(), state()))
