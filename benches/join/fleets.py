#!/usr/bin/python3
"""A fleet of producers that starts: 32 clients, in four processes, register at one joined process what is live there, for some seconds; then the
adapter is stopped for 15 s, and ten clients go on. fleets.py REGISTRYLOG [SECONDS [ADAPTER WORD..]]

The adapter is by_file.py; another one is given with its own words, after which `serve -- registrylog join ..` follows. It prints how many were
answered a second, and how many while the adapter was stopped. The status is 1 where an answer isn't the id, or where ten clients had fewer than
2,000 answers in the 15 s."""
import multiprocessing

from sick import *

SECONDS = float(sys.argv[2]) if len(sys.argv) > 2 else 5.0
WORDS = sys.argv[3:] or [sys.executable, str(BY_FILE), new_log()]


def served():
    """The process of the adapter, and the port of the process that it serves."""
    port = free_port()
    words = [*WORDS, "serve", "--", REGISTRYLOG, "join", "--listen", f"127.0.0.1:{port}", "--workers", "16"]
    process = subprocess.Popen(words, stderr=subprocess.DEVNULL)
    for _ in range(400):
        try:
            ask(port, "GET", "/subjects")
            return process, port
        except OSError:
            time.sleep(0.05)
    sys.exit("a joined process doesn't listen")


def register_again(port, ids, clients, until, counts):
    """So many clients register what is live until a moment; how many answers came, and how many weren't the id."""
    good, bad = [0] * clients, [0] * clients

    def go_on(k):
        line = http.client.HTTPConnection("127.0.0.1", port, timeout=90)
        while time.time() < until:
            name = (k + good[k]) % len(ids)
            status, text, _seconds = register(port, f"live{name}", fixed(name + 1), line)
            if status == 200 and json.loads(text) == {"id": ids[name]}:
                good[k] += 1
            else:
                bad[k] += 1

    threads = [threading.Thread(target=go_on, args=(k,)) for k in range(clients)]
    for it in threads:
        it.start()
    for it in threads:
        it.join()
    counts.put((sum(good), sum(bad)))


def fleet(port, ids, processes, clients, seconds):
    """So many processes with so many clients each; answers, and those that weren't the id."""
    counts, until = multiprocessing.Queue(), time.time() + seconds
    all = [multiprocessing.Process(target=register_again, args=(port, ids, clients, until, counts)) for _ in range(processes)]
    for it in all:
        it.start()
    found = [counts.get() for _ in all]
    for it in all:
        it.join()
    return sum(good for good, _ in found), sum(bad for _, bad in found)


process, port = served()
ids = [json.loads(register(port, f"live{k}", fixed(k + 1))[1])["id"] for k in range(8)]
for clients in (1, 2, 8):
    good, bad = fleet(port, ids, 4, clients, SECONDS)
    print(f"{4 * clients} clients: {good / SECONDS:.0f} a second, {bad} not the id", flush=True)
os.kill(process.pid, signal.SIGSTOP)
away, wrong = fleet(port, ids, 2, 5, 15)
os.kill(process.pid, signal.SIGCONT)
print(f"10 clients while the adapter was stopped for 15 s: {away} answers, {wrong} not the id", flush=True)
time.sleep(2)
print("a new schema behind it:", register(port, "new", fixed(999))[:2])
process.terminate()
sys.exit(bool(bad or wrong or away < 2_000))
