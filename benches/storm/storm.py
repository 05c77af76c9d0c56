"""A storm: storm.py PROGRAM [REQUESTS]. 16 clients at one node with four workers, half of them hostile, until the honest ones
have made 100,000 requests (or REQUESTS) in all. Then every acknowledged write has to be there, no id names two schemas, each
honest client's longest wait is at most a second, the memory is within 1.5 times that of a fresh node of the same records,
no worker is lost and no descriptor is left. It ends by itself, with status 1 where one of these isn't so."""
import http.client, json, multiprocessing, os, random, signal, socket, struct, subprocess, sys, time

PROGRAM, REQUESTS = sys.argv[1], int((sys.argv + ["100000"])[2])
PORT, WORKERS, HONEST = 19500, 4, 8
JSON = {"Content-Type": "application/json"}


def wait_for(port):
    for _ in range(200):
        try:
            return socket.create_connection(("127.0.0.1", port), timeout=1).close()
        except OSError:
            time.sleep(0.05)
    raise SystemExit("nothing listens on %d" % port)


def start(port):
    p = subprocess.Popen([PROGRAM, "serve", str(port), "1", str(WORKERS)], stdout=subprocess.DEVNULL)
    wait_for(port)
    # Once it answers all its threads are there.
    c = http.client.HTTPConnection("127.0.0.1", port)
    ask(c, "GET", "/config")
    c.close()
    return p


def memory(pid):
    for line in open("/proc/%d/status" % pid):
        if line.startswith("VmRSS"):
            return int(line.split()[1])


def ask(c, method, path, body=None):
    c.request(method, path, None if body is None else json.dumps(body), JSON if body is not None else {})
    r = c.getresponse()
    return r.status, json.loads(r.read())


def schema(client, n):
    return json.dumps({"type": "record", "name": "R%d_%d" % (client, n), "fields": [{"name": "f", "type": "string"}]}, separators=(",", ":"))


def honest(client, count, out):
    """Registers, reads back, deletes and sets levels on one connection; what it then knows of its subjects."""
    rng, longest, wrong, known = random.Random(client), 0.0, 0, {}
    c = http.client.HTTPConnection("127.0.0.1", PORT)
    made = 0
    while made < count:
        n = made
        subject = "c%d-%d" % (client, rng.randrange(40))
        what = rng.randrange(10)
        begun = time.time()
        if what == 0:
            text = schema(client, n)
            status, got = ask(c, "POST", "/subjects/%s/versions" % subject, {"schema": text})
            if status == 200:
                known.setdefault(subject, []).append((got["id"], text))
            elif status != 409:
                wrong += 1
        elif what == 1:
            status, got = ask(c, "PUT", "/config/%s" % subject, {"compatibility": "NONE"})
            wrong += (status, got) != (200, {"compatibility": "NONE"})
        elif what == 2 and len(known.get(subject, [])) > 3:
            status, got = ask(c, "DELETE", "/subjects/%s" % subject)
            wrong += status != 200
            status, got = ask(c, "DELETE", "/subjects/%s?permanent=true" % subject)
            wrong += status != 200
            made += 1
            known.pop(subject)
        elif known.get(subject):
            id, text = rng.choice(known[subject])
            # A version of each of these ids stands.
            status, got = ask(c, "GET", "/schemas/ids/%d" % id)
            wrong += status != 200 or got["schema"] != json.dumps(json.loads(text), sort_keys=True, separators=(",", ":"))
        else:
            status, got = ask(c, "GET", "/subjects/%s/versions" % subject)
            wrong += status != 404
        longest = max(longest, time.time() - begun)
        made += 1
    out.put((client, made, longest, wrong, known))


GET = b"GET /subjects HTTP/1.1\r\nHost: a\r\n\r\n"
POST = b"POST /subjects/h/versions HTTP/1.1\r\nHost: a\r\nContent-Type: application/json\r\nContent-Length: 100000\r\n\r\n"


def reset(s):
    s.setsockopt(socket.SOL_SOCKET, socket.SO_LINGER, struct.pack("ii", 1, 0))
    s.close()


def hostile(kind, until):
    """One kind of mischief after the other, on new connections, until it is told to end."""
    rng, held = random.Random(kind), []
    while not until.is_set():
        try:
            s = socket.create_connection(("127.0.0.1", PORT), timeout=5)
            s.settimeout(5)
            if kind == 0:
                # reset in each phase
                s.sendall(GET[:rng.randrange(len(GET))])
                reset(s)
            elif kind == 1:
                s.sendall(GET * rng.randrange(1, 50))
                reset(s)
            elif kind == 2:
                s.sendall(GET)
                s.shutdown(socket.SHUT_WR)
                while s.recv(65536):
                    pass
                s.close()
            elif kind == 3:
                # asks, and never reads
                s.setblocking(False)
                try:
                    while True:
                        s.send(GET * 100)
                except BlockingIOError:
                    pass
                held.append(s)
            elif kind == 4:
                s.sendall(POST + b"x" * rng.randrange(100000))
                held.append(s)
            elif kind == 5:
                s.sendall(b"GET /subjects HTTP/1.1\r\n" + b"X: y\r\n" * rng.randrange(3000))
                held.append(s)
            elif kind == 6:
                s.sendall(bytes(rng.randrange(256) for _ in range(rng.randrange(1, 3000))))
                held.append(s)
            else:
                # silent
                held.append(s)
            while len(held) > 60:
                held.pop(0).close()
        except OSError:
            pass
        if kind >= 3:
            time.sleep(0.005)


def main():
    server = start(PORT)
    files = len(os.listdir("/proc/%d/fd" % server.pid))
    threads = len(os.listdir("/proc/%d/task" % server.pid))
    out, until = multiprocessing.Queue(), multiprocessing.Event()
    mischief = [multiprocessing.Process(target=hostile, args=(k, until)) for k in range(8)]
    work = [multiprocessing.Process(target=honest, args=(k, REQUESTS // HONEST, out)) for k in range(HONEST)]
    begun = time.time()
    [p.start() for p in mischief + work]
    told = [out.get() for _ in work]
    spent = time.time() - begun
    until.set()
    [p.join() for p in work + mischief]
    made, longest, wrong = sum(t[1] for t in told), max(t[2] for t in told), sum(t[3] for t in told)
    # Every acknowledged write is there, and ids name one schema each.
    c = http.client.HTTPConnection("127.0.0.1", PORT)
    missing, names, records = 0, {}, []
    for client, _, _, _, known in told:
        for subject, versions in known.items():
            status, ids = ask(c, "GET", "/subjects/%s/versions" % subject)
            have = set()
            for v in ids if status == 200 else []:
                status, got = ask(c, "GET", "/subjects/%s/versions/%d" % (subject, v))
                have.add(got["id"])
                records.append((subject, got["schema"]))
                if names.setdefault(got["id"], got["schema"]) != got["schema"]:
                    wrong += 1
            missing += sum(1 for id, _ in versions if id not in have)
    c.close()
    time.sleep(13)
    used = memory(server.pid)
    left = len(os.listdir("/proc/%d/fd" % server.pid)) - files
    lost = threads - len(os.listdir("/proc/%d/task" % server.pid))
    server.send_signal(signal.SIGTERM)
    server.wait()
    fresh = start(PORT + 1)
    c = http.client.HTTPConnection("127.0.0.1", PORT + 1)
    ask(c, "PUT", "/config", {"compatibility": "NONE"})
    for subject, text in records:
        ask(c, "POST", "/subjects/%s/versions" % subject, {"schema": text})
    c.close()
    alone = memory(fresh.pid)
    fresh.send_signal(signal.SIGTERM)
    fresh.wait()
    print("%d requests of %d honest clients beside 8 hostile ones in %.1f s, the longest %.3f s" % (made, HONEST, spent, longest))
    print("%d wrong, %d of %d acknowledged versions missing; memory %d kB, of a fresh node %d kB (%.2f); %d files more, %d threads less" % (
        wrong, missing, len(records), used, alone, used / alone, left, lost))
    fine = wrong == 0 and missing == 0 and longest <= 1 and used <= 1.5 * alone and left <= 0 and lost == 0
    print("the storm is weathered" if fine else "THE STORM ISN'T WEATHERED")
    sys.exit(0 if fine else 1)


main()
