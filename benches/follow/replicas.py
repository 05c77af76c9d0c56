"""Three followers behind nginx, fed by one kept log: replicas.py REGISTRYLOG [LOOKUPS]. It ends by itself; the status is 1 where
something isn't as it should be.

`registrylog keep` writes a log, three times `registrylog tail | registrylog follow` serve it, and nginx (examples/nginx.conf without
TLS and passwords) has reads go to the followers and writes to the writer. While one client registers and eight look up what was
acknowledged, 100,000 times by default, a follower is killed with its tail and started again, then the writer is, and then all
tails are, each follower being started anew as examples/follow-loop.sh does. Each lookup has to give what was registered. At the end
each follower has to answer every request as the writer does, byte for byte."""
import http.client, json, os, random, re, signal, subprocess, sys, tempfile, threading, time

PROGRAM, LOOKUPS = os.path.abspath(sys.argv[1]), int(sys.argv[2]) if len(sys.argv) > 2 else 100_000
HERE = os.path.dirname(os.path.abspath(__file__))
FOLDER = tempfile.mkdtemp(dir=os.environ.get("FOLLOW_FOLDER", "."))
FOLDER = os.path.abspath(FOLDER)
LOG, WRITER, FRONT, FOLLOWERS = f"{FOLDER}/log", 19810, 19800, [19821, 19822, 19823]
TYPE = {"Content-Type": "application/vnd.schemaregistry.v1+json"}
wrong, lock = [], threading.Lock()
known, stop = [], threading.Event()


def bad(*words):
    with lock:
        wrong.append(words)
        if len(wrong) <= 20:
            print("WRONG", *words, flush=True)


def ask(port, method, path, body=None, connection=None):
    c = connection or http.client.HTTPConnection("127.0.0.1", port, timeout=30)
    c.request(method, path, None if body is None else json.dumps(body), TYPE if body is not None else {})
    r = c.getresponse()
    return r.status, r.read()


def writer():
    new = [] if os.path.exists(LOG) else ["--new"]
    p = subprocess.Popen([PROGRAM, "keep", *new, "--listen", f"127.0.0.1:{WRITER}", LOG], stderr=open(f"{FOLDER}/writer.err", "ab"))
    for _ in range(500):
        try:
            ask(WRITER, "GET", "/mode")
            return p
        except OSError:
            time.sleep(0.02)
    bad("the writer doesn't listen")
    return p


class Follower:
    """A tail and the follower that it feeds."""
    def __init__(self, port):
        self.port = port
        self.start()

    def start(self):
        self.tail = subprocess.Popen([PROGRAM, "tail", LOG], stdout=subprocess.PIPE)
        self.follow = subprocess.Popen([PROGRAM, "follow", "--listen", f"127.0.0.1:{self.port}"], stdin=self.tail.stdout, stderr=open(f"{FOLDER}/{self.port}.err", "ab"))
        self.tail.stdout.close()

    def end(self):
        for p in (self.tail, self.follow):
            p.send_signal(signal.SIGKILL)
            p.wait()

    def listens(self):
        for _ in range(1000):
            try:
                return ask(self.port, "GET", "/mode")[0] == 200
            except OSError:
                time.sleep(0.02)
        return False


def nginx():
    text = open(f"{HERE}/../../examples/nginx.conf").read()
    text = text.replace("server 127.0.0.1:8081;", f"server 127.0.0.1:{WRITER};", 1)
    text = text.replace("server 127.0.0.1:8081;", "".join(f"server 127.0.0.1:{p}; " for p in FOLLOWERS), 1)
    text = text.replace("listen 443 ssl http2;", f"listen 127.0.0.1:{FRONT};")
    text = re.sub(r" *(ssl_certificate|ssl_certificate_key|ssl_protocols|auth_basic|auth_basic_user_file|user|pid) .*\n", "", text)
    text = text.replace("http {", f"http {{\n    access_log off;\n    client_body_temp_path {FOLDER}/body;\n    proxy_temp_path {FOLDER}/proxy;\n    fastcgi_temp_path {FOLDER}/f;\n    uwsgi_temp_path {FOLDER}/u;\n    scgi_temp_path {FOLDER}/s;", 1)
    with open(f"{FOLDER}/nginx.conf", "w") as it:
        it.write(f"daemon off;\npid {FOLDER}/nginx.pid;\nerror_log {FOLDER}/nginx.err;\nuser root;\n" + text)
    return subprocess.Popen(["nginx", "-c", f"{FOLDER}/nginx.conf"], stderr=open(f"{FOLDER}/nginx.out", "ab"))


def register():
    """Registers, and remembers what was acknowledged."""
    n = 0
    while not stop.is_set():
        subject, text = f"s{random.randrange(200)}", json.dumps({"type": "record", "name": f"R{n}", "fields": [{"name": "f", "type": "int", "default": n}]}, separators=(",", ":"))
        n += 1
        try:
            status, body = ask(FRONT, "POST", f"/subjects/{subject}/versions", {"schema": text})
        except (OSError, http.client.HTTPException):
            continue
        if status == 200:
            with lock:
                known.append((json.loads(body)["id"], text, subject))
        elif status not in (500, 502, 503, 504):
            bad("register", status, body)
        time.sleep(0.002)


def look_up(share, counts, place):
    """Looks up what was acknowledged, in one way or another."""
    chance, c = random.Random(place), None
    while counts[place] < share:
        with lock:
            it = chance.choice(known) if known else None
        if it is None:
            time.sleep(0.01)
            continue
        number, text, subject = it
        try:
            if c is None:
                c = http.client.HTTPConnection("127.0.0.1", FRONT, timeout=30)
            if chance.random() < 0.8:
                status, body = ask(FRONT, "GET", f"/schemas/ids/{number}", connection=c)
                found = json.loads(body).get("schema")
            else:
                status, body = ask(FRONT, "POST", f"/subjects/{subject}", {"schema": text}, connection=c)
                found = json.loads(body).get("schema")
                if status == 200 and json.loads(body)["id"] != number:
                    bad("lookup of", subject, number, body)
        except (OSError, http.client.HTTPException, ValueError):
            c = None
            continue
        if status in (500, 502, 503, 504):
            continue
        if status != 200 or json.loads(found) != json.loads(text):
            bad("lookup", number, status, body)
        counts[place] += 1


def all_answers(port):
    """What a node answers to every request about what is there."""
    c = http.client.HTTPConnection("127.0.0.1", port, timeout=60)
    answers = {}
    for path in ["/subjects", "/config", "/mode", "/subjects?deleted=true"]:
        answers[path] = ask(port, "GET", path, connection=c)
    for subject in json.loads(answers["/subjects"][1]):
        path = f"/subjects/{subject}/versions"
        answers[path] = ask(port, "GET", path, connection=c)
        for version in json.loads(answers[path][1]):
            answers[f"{path}/{version}"] = ask(port, "GET", f"{path}/{version}", connection=c)
    for number, _, _ in known:
        answers[f"/schemas/ids/{number}"] = ask(port, "GET", f"/schemas/ids/{number}", connection=c)
    return answers


def main():
    begun = time.time()
    kept, followers, front = writer(), [Follower(p) for p in FOLLOWERS], nginx()
    ask(WRITER, "PUT", "/config", {"compatibility": "NONE"})
    if not all(f.listens() for f in followers):
        bad("a follower doesn't listen")
    threads, counts = [threading.Thread(target=register)], [0] * 8
    threads += [threading.Thread(target=look_up, args=(LOOKUPS // 8, counts, k)) for k in range(8)]
    for t in threads:
        t.start()

    def at(part):
        while sum(counts) < LOOKUPS * part and any(t.is_alive() for t in threads[1:]):
            time.sleep(0.02)

    at(0.2)
    followers[0].end()
    followers[0].start()
    at(0.45)
    kept.send_signal(signal.SIGKILL)
    kept.wait()
    time.sleep(0.5)
    kept = writer()
    at(0.7)
    for f in followers:
        f.end()
        f.start()
        f.listens()
    for t in threads[1:]:
        t.join()
    stop.set()
    threads[0].join()
    taken = time.time() - begun
    wanted = all_answers(WRITER)
    for f in followers:
        for _ in range(100):
            if ask(f.port, "GET", "/subjects") == wanted["/subjects"] and all_answers(f.port) == wanted:
                break
            time.sleep(0.1)
        else:
            bad("follower", f.port, "answers otherwise")
        status, body = ask(f.port, "POST", "/subjects/s/versions", {"schema": '"int"'})
        if (status, json.loads(body)["error_code"]) != (500, 50003):
            bad("a command at a follower", status, body)
    for p in [front, kept]:
        p.terminate()
    for f in followers:
        f.end()
    print(f"{sum(counts)} lookups and {len(known)} registrations in {taken:.1f} s; {len(wanted)} answers of each follower are the writer's; wrong: {len(wrong)}")
    return 1 if wrong else 0


sys.exit(main())
