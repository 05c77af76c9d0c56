"""How long a new client waits: crowd.py PROGRAM. PROGRAM serve PORT 1 4, alone, and with 1,000 silent connections and 1,000 that send
a byte a second open. 200 clients one after the other connect, ask, and read the whole answer."""
import resource, socket, subprocess, sys, threading, time

PROGRAM, PORT = sys.argv[1], 19600
LAST = b"GET /subjects HTTP/1.1\r\nHost: a\r\nConnection: close\r\n\r\n"


def connect():
    return socket.create_connection(("127.0.0.1", PORT), timeout=10)


def ask():
    begun = time.time()
    with connect() as s:
        s.sendall(LAST)
        out = b""
        while True:
            piece = s.recv(65536)
            if not piece:
                break
            out += piece
    assert out.startswith(b"HTTP/1.1 200"), out
    return 1e3 * (time.time() - begun)


def show(name):
    waits = sorted(ask() for _ in range(200))
    print("%-40s median %6.2f ms, slowest %7.2f ms" % (name, waits[100], waits[-1]), flush=True)


soft, hard = resource.getrlimit(resource.RLIMIT_NOFILE)
resource.setrlimit(resource.RLIMIT_NOFILE, (hard, hard))
server = subprocess.Popen([PROGRAM, "serve", str(PORT), "1", "4"], stdout=subprocess.DEVNULL)
for _ in range(100):
    try:
        connect().close()
        break
    except OSError:
        time.sleep(0.05)
show("alone")
silent = [connect() for _ in range(1000)]
slow, ends = [connect() for _ in range(1000)], []


def drip():
    n = 0
    while not ends:
        for s in slow:
            try:
                s.send(b"GET /subjects HTTP/1.1\r\nX: "[n:n + 1] or b"y")
            except OSError:
                pass
        n += 1
        time.sleep(1)


dripping = threading.Thread(target=drip)
dripping.start()
time.sleep(2)
show("beside 1,000 silent and 1,000 slow ones")
ends.append(1)
dripping.join()
server.terminate()
server.wait()
