"""Requests a second of a node that serves on loopback, beside nginx with the same bytes: rates.py PROGRAM [SECONDS [ROUNDS]].

For 1, 8, 64 and 256 connections with keep-alive: PROGRAM serve PORT 1 WORKERS, one more than there are connections but at most 16,
and nginx with as many workers, which answers the same head and body from memory (`return 200`). Each round runs the one and then the
other under wrk. The medians of the rounds are shown, then the same of a latest version whose schema has 10 kB beside nginx, which
sends that body as a file, then the node while a writer registers schemas. wrk and nginx have to be there."""
import http.client, json, os, re, shutil, signal, socket, statistics, subprocess, sys, tempfile, threading, time

PROGRAM, SECONDS, ROUNDS = sys.argv[1], int((sys.argv + ["5"])[2]), int((sys.argv + ["5", "3"])[3])
PORT, NGINX = 19300, 19390
LATEST = "/subjects/large/versions/latest"


def schema(n, count=16):
    fields = [{"name": "f%02d" % k, "type": "string", "doc": "the field of number %02d" % k} for k in range(count)]
    text = json.dumps({"type": "record", "name": "R%d" % n, "fields": fields}, separators=(",", ":"))
    return text


def wait_for(port):
    for _ in range(100):
        try:
            return socket.create_connection(("127.0.0.1", port), timeout=1).close()
        except OSError:
            time.sleep(0.05)
    raise SystemExit("nothing listens on %d" % port)


def register(port, subject, text):
    c = http.client.HTTPConnection("127.0.0.1", port)
    c.request("POST", "/subjects/%s/versions" % subject, json.dumps({"schema": text}), {"Content-Type": "application/json"})
    answer = c.getresponse().read()
    c.close()
    return answer


def raw_response(port, target):
    s = socket.create_connection(("127.0.0.1", port))
    s.sendall(b"GET " + target + b" HTTP/1.1\r\nHost: a\r\nConnection: close\r\n\r\n")
    out = b""
    while True:
        piece = s.recv(65536)
        if not piece:
            return out
        out += piece


def start_nginx(workers, body, content_type, file):
    folder = tempfile.mkdtemp()
    os.chmod(folder, 0o755)
    open(folder + "/latest", "wb").write(file)
    quoted = body.decode().replace("\\", "\\\\").replace("'", "\\'")
    open(folder + "/nginx.conf", "w").write("""
worker_processes %d; daemon off; pid %s/pid; error_log stderr crit;
events { worker_connections 512; }
http { access_log off; keepalive_requests 100000000; keepalive_timeout 600; server_tokens off; tcp_nodelay on;
client_body_temp_path %s/a; proxy_temp_path %s/b; fastcgi_temp_path %s/c; uwsgi_temp_path %s/d; scgi_temp_path %s/e;
server { listen 127.0.0.1:%d reuseport; location = /schemas/ids/1 { default_type '%s'; return 200 '%s'; }
location = %s { default_type '%s'; alias %s/latest; } } }
""" % (workers, folder, folder, folder, folder, folder, folder, NGINX, content_type, quoted, LATEST, content_type, folder))
    p = subprocess.Popen(["nginx", "-p", folder, "-c", folder + "/nginx.conf"], stderr=subprocess.DEVNULL)
    wait_for(NGINX)
    return p, folder


def cpu_of(pid):
    total = 0
    pids = [str(pid)] + open("/proc/%d/task/%d/children" % (pid, pid)).read().split()
    for p in pids:
        f = open("/proc/%s/stat" % p).read().rsplit(")", 1)[1].split()
        total += int(f[11]) + int(f[12])
    return total / os.sysconf("SC_CLK_TCK")


def wrk(port, connections, pid, target="/schemas/ids/1"):
    threads = min(connections, 2)
    before = cpu_of(pid)
    out = subprocess.run(["wrk", "-t%d" % threads, "-c%d" % connections, "-d%ds" % SECONDS, "--latency",
                          "http://127.0.0.1:%d%s" % (port, target)], capture_output=True, text=True).stdout
    spent = cpu_of(pid) - before
    rate = float(re.search(r"Requests/sec:\s+([\d.]+)", out).group(1))
    def span(word):
        m = re.search(r"%s\s+([\d.]+)(us|ms|s)" % word, out)
        return float(m.group(1)) * {"us": 1, "ms": 1e3, "s": 1e6}[m.group(2)]
    errors = re.findall(r"(Socket errors.*|Non-2xx.*)", out)
    return rate, span("50%"), span("99%"), 1e6 * spent / (rate * SECONDS), errors


def show(name, runs):
    col = [statistics.median(r[k] for r in runs) for k in range(4)]
    print("  %-34s %8.0f req/s  p50 %6.0f us  p99 %7.0f us  %5.1f us of its cpu each  %s" % (name, *col, runs[0][4] or ""), flush=True)
    return col[0]


class Writer(threading.Thread):
    def __init__(self):
        super().__init__()
        self.stop, self.n = False, 0
    def run(self):
        c = http.client.HTTPConnection("127.0.0.1", PORT)
        while not self.stop:
            self.n += 1
            c.request("POST", "/subjects/s%d/versions" % self.n, json.dumps({"schema": schema(self.n)}), {"Content-Type": "application/json"})
            c.getresponse().read()
        c.close()


for connections in (1, 8, 64, 256):
    workers = min(connections + 1, 16)
    server = subprocess.Popen([PROGRAM, "serve", str(PORT), "1", str(workers)], stdout=subprocess.DEVNULL)
    wait_for(PORT)
    register(PORT, "s", schema(0))
    register(PORT, "large", schema(1_000_000, 155))
    response = raw_response(PORT, b"/schemas/ids/1")
    head, body = response.split(b"\r\n\r\n", 1)
    latest = raw_response(PORT, LATEST.encode()).split(b"\r\n\r\n", 1)[1]
    content_type = re.search(rb"(?i)content-type: ([^\r]*)", head).group(1).decode()
    nginx, folder = start_nginx(workers, body, content_type, latest)
    assert raw_response(NGINX, b"/schemas/ids/1").split(b"\r\n\r\n", 1)[1] == body
    assert raw_response(NGINX, LATEST.encode()).split(b"\r\n\r\n", 1)[1] == latest
    print("%d connections, %d workers; a schema of %d bytes, a response of %d; a latest version of %d" % (
        connections, workers, len(schema(0)), len(response), len(latest)))
    for target, peer in (("/schemas/ids/1", "nginx from memory"), (LATEST, "nginx with that file")):
        ours, theirs = [], []
        for _ in range(ROUNDS):
            ours.append(wrk(PORT, connections, server.pid, target))
            theirs.append(wrk(NGINX, connections, nginx.pid, target))
        a, b = show("the node, " + target[:20], ours), show(peer, theirs)
        if target != LATEST:
            small = a
        print("  the node is at %.2f of nginx, by its processor time for each at %.2f" % (
            a / b, statistics.median(r[3] for r in theirs) / statistics.median(r[3] for r in ours)), flush=True)
    busy = []
    writer = Writer()
    writer.start()
    for _ in range(ROUNDS):
        busy.append(wrk(PORT, connections, server.pid))
    writer.stop = True
    writer.join()
    c = show("the node, while %d are registered" % writer.n, busy)
    print("  at %.2f of itself under writes" % (c / small), flush=True)
    for p in (server, nginx):
        p.send_signal(signal.SIGTERM)
        p.wait()
    shutil.rmtree(folder)
    time.sleep(0.5)
