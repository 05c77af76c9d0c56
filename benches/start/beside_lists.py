"""How long a command waits beside lists of all subjects: beside_lists.py [SUBJECTS [SECONDS [LISTING]]], by default 200,000, 20 and 3. The
log, in a file of memory, has so many subjects. At one port of `registrylog keep`, and then at three, a client sets a subject's level over and
over, first alone and then while so many others ask for all subjects, each on a connection of its own, over the ports in turn.

`list` is the median of what a list takes when nobody else asks."""
import statistics, sys, threading, time
from kept import Kept, head, read_response, request, row, write_log
import socket

SUBJECTS, SECONDS, LISTING = (int((sys.argv + [""] * 3)[k] or given) for k, given in ((1, 200_000), (2, 20), (3, 3)))


class Client:
    def __init__(self, port):
        self.socket = socket.create_connection(("127.0.0.1", port))
        self.socket.setsockopt(socket.IPPROTO_TCP, socket.TCP_NODELAY, 1)
        self.reader = self.socket.makefile("rb")

    def ask(self, asked):
        begun = time.perf_counter()
        self.socket.sendall(asked)
        status = read_response(self.reader)[0]
        if status != 200:
            sys.exit("status %d" % status)
        return time.perf_counter() - begun


LEVELS = [request("PUT", "/config/s1", {"compatibility": level}) for level in ("FULL", "NONE")]
LIST = request("GET", "/subjects")


def commands(client, seconds):
    """What each of the commands took that were sent one after the other for so long."""
    took, until = [], time.perf_counter() + seconds
    while time.perf_counter() < until:
        took.append(client.ask(LEVELS[len(took) % 2]))
    return took


def listing(port, over, lists):
    client = Client(port)
    while not over.is_set():
        lists.append(client.ask(LIST))


log = write_log("short", SUBJECTS)
head("ports", "list", "command alone: median", "longest", "beside lists: median", "longest", "lists a second")
for ports in (1, 3):
    kept = Kept(log, ports, SUBJECTS, workers=8)
    client = Client(kept.port)
    client.ask(LEVELS[0])
    one = statistics.median(client.ask(LIST) for _ in range(5))
    alone = commands(client, SECONDS / 2)
    over, lists = threading.Event(), []
    others = [threading.Thread(target=listing, args=(kept.port + k % ports, over, lists)) for k in range(LISTING)]
    for other in others:
        other.start()
    time.sleep(1)
    del lists[:]
    beside = commands(client, SECONDS)
    rate = len(lists) / SECONDS
    over.set()
    for other in others:
        other.join()
    kept.end()
    ms = lambda seconds: "%.1f ms" % (seconds * 1e3)
    row(str(ports), ms(one), ms(statistics.median(alone)), ms(max(alone)), ms(statistics.median(beside)), ms(max(beside)), "%.0f" % rate)
