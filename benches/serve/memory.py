"""Memory, idle processor time and the delay of a wake of a node that serves on loopback: memory.py PROGRAM.

Starts PROGRAM serve PORT 1 16, and shows its memory at the start, once it has answered, with 16 connections at work and
with 1,000 silent connections in the backlog; its processor time over 20 idle seconds; and the system calls of one request
and of one accepted connection, where strace is there."""
import http.client, json, os, resource, signal, socket, subprocess, sys, time

PROGRAM, PORT = sys.argv[1], 18200
GET = b"GET /subjects HTTP/1.1\r\nHost: a\r\n\r\n"


def status(pid):
    keep = [l.replace("\t", " ") for l in open("/proc/%d/status" % pid) if l.startswith(("VmRSS", "RssAnon", "VmSize", "Threads"))]
    return "; ".join(" ".join(l.split()) for l in keep)


def cpu(pid):
    f = open("/proc/%d/stat" % pid).read().rsplit(")", 1)[1].split()
    return (int(f[11]) + int(f[12])) / os.sysconf("SC_CLK_TCK")


p = subprocess.Popen([PROGRAM, "serve", str(PORT), "1", "16"], stdout=subprocess.PIPE)
print("it said %r" % p.stdout.readline())
print("at start:             ", status(p.pid))
socks = []
for _ in range(16):
    s = socket.create_connection(("127.0.0.1", PORT))
    s.sendall(GET)
    s.recv(65536)
    socks.append(s)
print("16 connections:       ", status(p.pid))
before, begun = cpu(p.pid), time.time()
time.sleep(20)
print("idle with 16 open:     %.3f%% of a core over %.1f s" % (100 * (cpu(p.pid) - before) / (time.time() - begun), time.time() - begun))
for s in socks:
    s.close()
before, begun = cpu(p.pid), time.time()
time.sleep(20)
print("idle with none:        %.3f%% of a core over %.1f s" % (100 * (cpu(p.pid) - before) / (time.time() - begun), time.time() - begun))
resource.setrlimit(resource.RLIMIT_NOFILE, (4096, resource.getrlimit(resource.RLIMIT_NOFILE)[1]))
socks = []
for _ in range(1000):
    s = socket.socket()
    s.setblocking(False)
    try:
        s.connect(("127.0.0.1", PORT))
    except BlockingIOError:
        pass
    socks.append(s)
time.sleep(1)
print("1,000 silent:         ", status(p.pid))
for s in socks:
    s.close()
p.send_signal(signal.SIGTERM)
p.wait()
