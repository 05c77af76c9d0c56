#!/usr/bin/python3
"""Four processes of `registrylog join` over the mock brokers of librdkafka: joined_over_brokers.py REGISTRYLOG [SECONDS].

For ten minutes, or so many seconds, six clients register, delete, import, set levels and modes, and look up, while brokers are stopped or
answer late, leaders move, and adapters and processes are killed, stopped and continued. Then the log and all answers have to be lawful, and
all processes answer each GET with the same bytes (benches/join/lawful.py and registries.py); else it ends with status 1. Mock brokers
forget what is above 5 MB, so the clients take their time."""
import collections
import os
import random
import shutil
import signal
import subprocess
import sys
import tempfile
import threading
import time

HERE = os.path.dirname(os.path.realpath(__file__))
ADAPTERS = os.path.dirname(HERE)
sys.dont_write_bytecode = True
sys.path[:0] = [HERE, os.path.join(ADAPTERS, "..", "benches", "join")]

import cluster
import stores
import trial
from registries import Joined, Wrong, expect, free_port, strike

CLIENTS, PROCESSES = 6, 4
PAUSE = 0.6         # seconds at most between two requests of a client


class Store:
    """Three mock brokers, with a topic."""

    def __init__(self, folder, ends):
        outer = trial.Trial(folder, ADAPTERS)
        ends.append(outer.stack.close)
        self.brokers = stores.Brokers(outer)
        self.brokers.new_topic("registry")

    def words(self):
        words = self.brokers.words("registry")
        return [os.path.join(ADAPTERS, words[0]), *words[1:]]

    def strike(self, chance):
        """Does something to the brokers, and says what, and how it ends."""
        one = chance.randrange(1, 4)
        strikes = [("a broker stopped", lambda: self.brokers.stop(one), lambda: self.brokers.go_on(one)),
                   ("all brokers stopped", lambda: self.brokers.stop(1, 2, 3), lambda: self.brokers.go_on(1, 2, 3)),
                   ("answers late", lambda: self.brokers.answer_after(chance.choice([200, 1000, 4000])), lambda: self.brokers.answer_after(0)),
                   ("the leader moved", lambda: self.brokers.lead("registry", one), lambda: None)]
        name, do, mend = chance.choice(strikes)
        do()
        return name, mend


class Trial(cluster.Trial):
    def begin(self):
        self.store = Store(self.folder, self.ends)
        command = [self.program, "join"]
        subprocess.run([*self.store.words(), "init", "--empty", "--", *command], stdin=subprocess.DEVNULL, check=True)
        for number in range(PROCESSES):
            place = ("127.0.0.1", free_port())
            words = [*self.store.words(), "serve", "--", *command, "--listen", "%s:%d" % place]
            self.joined.append(Joined(words, place, os.path.join(self.folder, "joined%d" % number)))
            self.ends.append(self.joined[-1].end)
        for joined in self.joined:
            joined.listens()

    def ask_on(self, number, over):
        chance, made = random.Random(number), 0
        clients = [cluster.Client(self.history, joined.place) for joined in self.joined]
        while not over.wait(chance.uniform(0, PAUSE)):
            made += 1
            chance.choice(clients).ask(*cluster.random_request(chance, self.history, "%d_%d" % (number, made)))

    def storm(self):
        chance, until, struck = random.Random(), time.monotonic() + self.seconds, collections.Counter()
        while time.monotonic() < until:
            if chance.random() < 0.5:
                struck[strike(chance.choice(self.joined), chance, 5)] += 1
            else:
                name, mend = self.store.strike(chance)
                time.sleep(chance.choice([0.5, 2, 4, 15]))
                mend()
                struck[name] += 1
            time.sleep(chance.uniform(0.5, 4))
        return struck

    def run(self):
        self.begin()
        over = threading.Event()
        threads = [threading.Thread(target=self.ask_on, args=(number, over), daemon=True) for number in range(CLIENTS)]
        for thread in threads:
            thread.start()
        struck = self.storm()
        over.set()
        for thread in threads:
            thread.join(120)
        print("struck: %s" % dict(struck))
        counts = collections.Counter("%s %s" % (one["status"], cluster.code_of(one)) for one in self.history.requests)
        print("%d requests: %s" % (len(self.history.requests), dict(counts)), flush=True)
        expect(counts["200 "] > self.seconds, "few requests were answered")
        self.judge()


def main():
    if sys.argv[1:2] == ["--witness"]:
        return cluster.witness(sys.argv[2])
    if not 2 <= len(sys.argv) <= 3:
        print(__doc__)
        return 2
    signal.signal(signal.SIGTERM, lambda *_: sys.exit(143))
    folder = tempfile.mkdtemp(prefix="over-brokers-")
    one = Trial(os.path.abspath(sys.argv[1]), float(sys.argv[2]) if len(sys.argv) == 3 else 600, "kafka", folder)
    try:
        one.run()
    except Wrong as fault:
        one.bad(fault)
    finally:
        one.end()
    if one.wrong:
        print("what it was stays in %s" % folder)
        return 1
    shutil.rmtree(folder)
    print("nothing was wrong")
    return 0


if __name__ == "__main__":
    sys.exit(main())
