#!/usr/bin/python3
"""A rebase of a long log beside four writers: long_rebases.py [--store postgres] REGISTRYLOG [BATCHES].

A log of so many batches (100,000), in etcd or in PostgreSQL, has two processes. Four clients register at them all the time: first for ten
seconds, then while `rebase` runs. Told are how long that took, and the longest that a client waited before and meanwhile. It ends with status
1 where the rebase fails, a registration isn't done, or it isn't in what a dump gives in the end."""
import argparse
import http.client
import json
import os
import shutil
import signal
import subprocess
import sys
import tempfile
import threading
import time

HERE = os.path.dirname(os.path.realpath(__file__))
sys.path.insert(0, HERE)

from long_logs import FILL
from programs import store_of
from stores import free_ports
from trial import Trial

WRITERS, CALM = 4, 10


class Writer(threading.Thread):
    """Registers new schemas at one process. `waits` has when each was asked, and how long it took."""

    def __init__(self, number, port):
        super().__init__(daemon=True)
        self.number, self.port, self.waits, self.done, self.faults, self.is_over = number, port, [], [], [], False
        self.start()

    def run(self):
        line = http.client.HTTPConnection("127.0.0.1", self.port, timeout=60)
        while not self.is_over:
            name, began = "W%dx%d" % (self.number, len(self.waits)), time.monotonic()
            schema = json.dumps({"type": "fixed", "name": name, "size": 4})
            line.request("POST", "/subjects/%s/versions" % name, json.dumps({"schema": schema}), {"Content-Type": "application/json"})
            response = line.getresponse()
            answer = response.read()
            self.waits.append((began, time.monotonic() - began))
            (self.done if response.status == 200 else self.faults).append(name if response.status == 200 else answer)
            time.sleep(0.02)


def start(trial, words, program):
    """A process that serves the log, and its port."""
    port = free_ports(1)[0]
    adapter = subprocess.Popen([*words, "serve", "--", program, "join", "--workers", "8", "--listen", "127.0.0.1:%d" % port],
                               stderr=subprocess.PIPE)
    trial.later(adapter.kill)
    for line in adapter.stderr:
        if b"joined, next offset" in line:
            threading.Thread(target=adapter.stderr.read, daemon=True).start()
            return port
    sys.exit("a process ended with %d" % adapter.wait())


def try_rebase(trial, options):
    log = trial.new_log(options.store)
    words = [os.path.join(trial.adapters, log.words[0]), *log.words[1:]]
    store = store_of(options.store, words)
    FILL[options.store](store, 0, store.begin().token, options.batches)
    program = os.path.abspath(options.program)
    ports = [start(trial, words, program) for _ in range(2)]
    writers = [Writer(number, ports[number % 2]) for number in range(WRITERS)]
    time.sleep(CALM)
    began = time.monotonic()
    done = subprocess.run([*words, "rebase", "--registry", "http://127.0.0.1:%d" % ports[0], "--", program, "base", "--below", "{}"],
                          stderr=subprocess.PIPE, check=False)
    took = time.monotonic() - began
    for writer in writers:
        writer.is_over = True
        writer.join()
    waits = [wait for writer in writers for wait in writer.waits]
    print("%s, %d batches: rebased in %.1f s; the longest wait of four writers %.2f s before and %.2f s meanwhile, of %d registrations" % (
        options.store, options.batches, took, max(wait for at, wait in waits if at < began - 1),
        max(wait for at, wait in waits if at >= began - 1), len(waits)), flush=True)
    dumped = subprocess.run([*words, "dump"], stdout=subprocess.PIPE, check=True).stdout
    faults = [fault for writer in writers for fault in writer.faults]
    lost = [name for writer in writers for name in writer.done if b'\\"%s\\"' % name.encode() not in dumped]
    if done.returncode or faults or lost:
        sys.exit("WRONG: status %d %s, refused %s, lost %s" % (done.returncode, done.stderr.decode(), faults[:3], lost[:3]))
    print(done.stderr.decode().strip())


def main():
    parser = argparse.ArgumentParser(description=__doc__, formatter_class=argparse.RawDescriptionHelpFormatter)
    parser.add_argument("program", metavar="REGISTRYLOG")
    parser.add_argument("--store", choices=["etcd", "postgres"], default="etcd")
    parser.add_argument("batches", nargs="?", type=int, default=100000)
    options = parser.parse_args()
    signal.signal(signal.SIGTERM, lambda *_: sys.exit(143))
    folder = tempfile.mkdtemp(prefix="long-rebases-")
    os.chmod(folder, 0o755)
    try:
        with Trial(folder, os.path.dirname(HERE)) as trial:
            trial.stores["trial"] = trial
            try_rebase(trial, options)
    finally:
        shutil.rmtree(folder, ignore_errors=True)


if __name__ == "__main__":
    main()
