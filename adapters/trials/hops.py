#!/usr/bin/python3
"""Where the time of a write goes: hops.py [--store postgres] REGISTRYLOG [ROUNDS].

One client registers through a process and its adapter, in turns of 20 with a plain client that sends the same transactions to a log beside,
over one connection (21 rounds). Of each registration it is told when the client asked, when the adapter had the request, when it asked the
store, when it had that's answer, when the process had its own, and when the client had its answer: the medians of what lies between. What the
plain client takes, as a share of all, is the median of seven parts of the run. Behind it stands the processor time of each write."""
import argparse
import http.client
import json
import os
import shutil
import signal
import statistics
import subprocess
import sys
import tempfile
import threading
import time

HERE = os.path.dirname(os.path.realpath(__file__))
sys.path.insert(0, HERE)

from long_logs import line_of, process_time
from many_writers import used_by
from programs import CLASSES, load, store_of
from stores import free_ports
from trial import Trial

TURN, PARTS = 20, 7
HOPS = ("client to adapter, by the process", "adapter: until it asks the store", "store", "adapter: until the process is told",
        "to the client, by the process")


def serve(note, words):
    """An adapter that notes when it meets what. It runs in a process of its own."""
    program, times = load(words[0]), []
    joining = sys.modules["joining"]
    give = joining.Process.give

    class Queue(joining.queue.SimpleQueue):
        def put(self, event):
            if isinstance(event, list) and event:
                times.append([time.monotonic()])
            super().put(event)

    def noted(function):
        def call(*given):
            times[-1].append(time.monotonic())
            try:
                return function(*given)
            finally:
                times[-1].append(time.monotonic())
        return call

    def gives(process, data):
        met = times.pop() if data == joining.KEPT and times else None      # before the next request comes
        now = time.monotonic()
        give(process, data)
        if met:
            with open(note, "a", encoding="utf-8") as file:
                file.write(json.dumps([*met[:2], met[-1], now]) + "\n")
    joining.queue.SimpleQueue, joining.Process.give = Queue, gives
    store = next(getattr(program, name) for name in CLASSES.values() if hasattr(program, name))
    store.append_or_read = noted(store.append_or_read)
    sys.argv[:] = words
    program.run(program.make_parser(), store)


class Plain:
    """The same transactions, by a plain client over one connection."""

    def __init__(self, kind, words):
        self.store = store_of(kind, words)
        base = self.store.begin()
        self.at, self.token, self.batch = base.next, base.token, sys.modules["joining"].Batch
        self.kind, self.line = kind, None

    def append(self):
        batch = self.batch(self.at, self.at + 1, "plain-%d" % self.at, self.token, line_of(self.at))
        if self.kind == "etcd":
            sent = []
            self.store.post = lambda path, message: sent.append((path, json.dumps(message).encode())) or {"succeeded": True}
            self.store.append(batch)
            took = self.post(*sent[0])
        else:
            began = time.monotonic()
            if not self.store.append(batch):
                sys.exit("not appended")
            took = time.monotonic() - began
        self.at, self.token = batch.next, batch.token
        return took

    def post(self, path, data):
        url = self.store.urls[0]
        self.line = self.line or http.client.HTTPConnection(url.hostname, url.port)
        began = time.monotonic()
        self.line.request("POST", path, data, {"Content-Type": "application/json"})
        answer = self.line.getresponse().read()
        took = time.monotonic() - began
        if not json.loads(answer).get("succeeded"):
            sys.exit("not appended: %s" % answer)
        return took


def register(line, number):
    """When it was asked, and when answered."""
    schema = json.dumps({"type": "fixed", "name": "H%d" % number, "size": 4})
    asked = time.monotonic()
    line.request("POST", "/subjects/h%d/versions" % number, json.dumps({"schema": schema}), {"Content-Type": "application/json"})
    response = line.getresponse()
    answer = response.read()
    if response.status != 200:
        sys.exit("refused: %s" % answer)
    return asked, time.monotonic()


def measure(trial, options):
    logs = [trial.new_log(options.store) for _ in range(2)]
    words, plain_words = ([os.path.join(trial.adapters, log.words[0]), *log.words[1:]] for log in logs)
    port, note = free_ports(1)[0], os.path.join(trial.folder, "note")
    adapter = subprocess.Popen([sys.executable, os.path.realpath(__file__), "--note", note, *words, "serve", "--",
                                os.path.abspath(options.program), "join", "--listen", "127.0.0.1:%d" % port], stderr=subprocess.PIPE)
    trial.later(adapter.kill)
    for line in adapter.stderr:
        if b"joined, next offset" in line:
            break
    threading.Thread(target=adapter.stderr.read, daemon=True).start()
    plain, line = Plain(options.store, plain_words), http.client.HTTPConnection("127.0.0.1", port)
    bare, asked, own, used = [], [], 0, [used_by(adapter.pid), process_time(adapter.pid)]
    for turn in range(options.rounds):
        asked += [register(line, turn * TURN + number) for number in range(TURN)]
        before = time.process_time()
        bare += [plain.append() for _ in range(TURN)]
        own += time.process_time() - before
    used = [now - then for now, then in zip([used_by(adapter.pid), process_time(adapter.pid)], used)]
    with open(note, encoding="utf-8") as file:
        hops = [[first, *json.loads(one), last] for (first, last), one in zip(asked, file)]
    if len(hops) != len(asked):
        sys.exit("%d of %d were noted" % (len(hops), len(asked)))
    tell(options.store, hops, bare)
    print("processor time of a write: %.2f ms of the adapter, %.2f of the process, %.2f of the plain client" % tuple(
        1000 * seconds / len(hops) for seconds in (*used, own)))


def tell(store, hops, bare):
    all_of_it = [one[-1] - one[0] for one in hops]
    whole, alone = (1000 * statistics.median(times) for times in (all_of_it, bare))
    size = len(hops) // PARTS
    shares = [statistics.median(bare[at:at + size]) / statistics.median(all_of_it[at:at + size]) for at in range(0, PARTS * size, size)]
    print("%s, %d registrations, a median of %.2f ms; of a plain client %.2f ms; of %d parts it takes %.2f of that (%.2f to %.2f)" % (
        store, len(hops), whole, alone, PARTS, statistics.median(shares), min(shares), max(shares)))
    for number, name in enumerate(HOPS):
        print("%6.2f ms  %s" % (1000 * statistics.median(one[number + 1] - one[number] for one in hops), name))


def main():
    if sys.argv[1:2] == ["--note"]:
        serve(sys.argv[2], sys.argv[3:])
    parser = argparse.ArgumentParser(description=__doc__, formatter_class=argparse.RawDescriptionHelpFormatter)
    parser.add_argument("program", metavar="REGISTRYLOG")
    parser.add_argument("--store", choices=["etcd", "postgres"], default="etcd")
    parser.add_argument("rounds", nargs="?", type=int, default=21)
    options = parser.parse_args()
    signal.signal(signal.SIGTERM, lambda *_: sys.exit(143))
    folder = tempfile.mkdtemp(prefix="hops-")
    os.chmod(folder, 0o755)
    try:
        with Trial(folder, os.path.dirname(HERE)) as trial:
            trial.stores["trial"] = trial
            measure(trial, options)
    finally:
        shutil.rmtree(folder, ignore_errors=True)


if __name__ == "__main__":
    main()
