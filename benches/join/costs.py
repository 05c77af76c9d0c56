#!/usr/bin/python3
"""What a joined process costs beside a fold and beside `serve`: costs.py REGISTRYLOG REGISTRYD [BATCHES [SECONDS]].

- Replay: the processor time until the node listens, over an empty base and so many batches (100,000) of one registration each that are told
  before `ready`, beside that of `registryd fold` over the same lines.
- Lookups a second of one node, by wrk (the Debian package of that name) over eight connections, beside `registryd serve`: five turns each
  of so many seconds (3), one after the other."""
import os
import re
import shutil
import signal
import socket
import statistics
import subprocess
import sys
import threading
import time

sys.path.insert(0, os.path.join(os.path.dirname(os.path.realpath(__file__)), "..", "start"))

import kept
from registries import ask, free_port

WORKERS, CONNECTIONS, TURNS = 9, 8, 5


def spent(process):
    """User and system seconds of all its threads."""
    with open("/proc/%d/stat" % process.pid, encoding="utf-8") as file:
        fields = file.read().rsplit(")", 1)[1].split()
    return (int(fields[11]) + int(fields[12])) / kept.TICK


def wait_for(place, process):
    while process.poll() is None:
        try:
            return socket.create_connection(place).close()
        except OSError:
            time.sleep(0.01)
    sys.exit("it ended with %d" % process.returncode)


class Told:
    """`registrylog join`, which is told these bytes, and whose requests are all kept."""

    def __init__(self, program, data):
        self.place = ("127.0.0.1", free_port())
        words = [program, "join", "--listen", "%s:%d" % self.place, "--workers", str(WORKERS)]
        self.process = subprocess.Popen(words, stdin=subprocess.PIPE, stdout=subprocess.PIPE, stderr=subprocess.DEVNULL)
        threading.Thread(target=self.talk, args=(data,), daemon=True).start()

    def talk(self, data):
        self.process.stdin.write(data)
        self.process.stdin.flush()
        for line in self.process.stdout:
            if line == b"\n":
                self.process.stdin.write(b"kept\n")
                self.process.stdin.flush()

    def end(self):
        self.process.send_signal(signal.SIGTERM)
        self.process.wait()


def replay(program, batches):
    log = kept.write_log("normal", batches)
    folded = sum(kept.fold(log, [kept.request("GET", "/schemas/ids/%d" % batches)])[:2])
    with open(log, "rb") as file:
        lines = [line for line in file if line != b"\n"]
    joined = Told(program, b"\n" + b"".join(b"batch\n" + line + b"\n" for line in lines) + b"ready\n")
    wait_for(joined.place, joined.process)
    used = spent(joined.process)
    status, _ = ask(joined.place, "GET", "/schemas/ids/%d" % batches)
    joined.end()
    print("replay of %d batches: %.2f s, a fold %.2f s: %.2f times; the last id is answered with %d" % (batches, used, folded, used / folded, status))


def rate(place, seconds):
    words = ["wrk", "-t2", "-c%d" % CONNECTIONS, "-d%ds" % seconds, "http://%s:%d/schemas/ids/1" % place]
    said = subprocess.run(words, capture_output=True, text=True, check=True).stdout
    if "Non-2xx" in said:
        sys.exit(said)
    return float(re.search(r"Requests/sec:\s+([\d.]+)", said).group(1))


def lookups(program, registryd, seconds):
    joined = Told(program, b"\nready\n")
    place = ("127.0.0.1", free_port())
    served = subprocess.Popen([registryd, "serve", str(place[1]), "1", str(WORKERS)], stdout=subprocess.DEVNULL)
    rates = {joined.place: [], place: []}
    for one, process in ((joined.place, joined.process), (place, served)):
        wait_for(one, process)
        ask(one, "POST", "/subjects/s/versions", {"schema": kept.schema("kb", 1)})
    for _ in range(TURNS):
        for one, found in rates.items():
            found.append(rate(one, seconds))
    joined.end()
    served.send_signal(signal.SIGTERM)
    served.wait()
    mine, theirs = (statistics.median(found) for found in rates.values())
    print("lookups a second: %.0f, of serve %.0f: %.3f of that" % (mine, theirs, mine / theirs))


def main():
    if not 3 <= len(sys.argv) <= 5:
        print(__doc__)
        return 2
    program, registryd = map(os.path.abspath, sys.argv[1:3])
    kept.REGD = registryd
    replay(program, int(sys.argv[3]) if len(sys.argv) > 3 else 100_000)
    if shutil.which("wrk"):
        lookups(program, registryd, int(sys.argv[4]) if len(sys.argv) > 4 else 3)
    return 0


if __name__ == "__main__":
    sys.exit(main())
