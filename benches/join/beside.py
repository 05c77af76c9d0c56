#!/usr/bin/python3
"""Two processes of `registrylog join` over one log, side by side: beside.py REGISTRYLOG [SECONDS]. It ends by itself, after a minute or
SECONDS; the status is 1 where something isn't as it should be.

The log is a file with an adapter of these trials' own (by_file.py), which now and then says `lost` or `declined`. Four clients register
schemas of their own at both processes; of some all four register the same one, in one subject, at about the same time. Meanwhile adapters
and processes are killed, and stopped and continued. At the end

- both processes answer each GET about what is there with the same bytes;
- each registration that was acknowledged stands in the log, under the id that was told, and once;
- no id names two schemas, and no schema has two ids;
- each schema that an id was told for is answered under that id."""
import json
import os
import random
import shutil
import signal
import sys
import tempfile
import threading
import time
from collections import Counter

import by_file
from registries import NOBODY, Joined, Wrong, agree, ask, expect, free_port, normal, strike

HERE = os.path.dirname(os.path.realpath(__file__))
CLIENTS, SUBJECTS, FAULTS = 4, 20, 0.03


def record(name):
    return normal({"type": "record", "name": name, "fields": [{"name": "f", "type": "int"}]})


class Trial:
    def __init__(self, program, seconds, folder):
        self.seconds, self.log = seconds, os.path.join(folder, "log")
        by_file.init(self.log, b"")
        self.joined = []
        for number in range(2):
            place = ("127.0.0.1", free_port())
            words = [sys.executable, os.path.join(HERE, "by_file.py"), "--faults", str(FAULTS), self.log, "serve", "--",
                     program, "join", "--listen", "%s:%d" % place]
            self.joined.append(Joined(words, place, os.path.join(folder, "joined%d" % number)))
        self.is_over, self.lock = threading.Event(), threading.Lock()
        self.told, self.refused, self.struck, self.unanswered = [], Counter(), Counter(), 0

    def ask_until(self, method, path, body):
        """What is answered in the end, however often a fault comes between. The same again does no harm here."""
        for number in range(1000):
            try:
                status, answer = ask(self.joined[number % 2].place, method, path, body)
                if status == 200:
                    return answer
            except NOBODY:
                pass
            time.sleep(0.05)
        raise Wrong("not done in 1,000 tries: %s %s" % (method, path))

    def register(self, client):
        """Registers schemas of its own, and such as all clients register."""
        chance, own = random.Random(client), 0
        while not self.is_over.is_set():
            own += 1
            if chance.random() < 0.3:
                name, subject = "All%d" % int(time.monotonic() * 10), "all"
            else:
                name, subject = "Own%dx%d" % (client, own), "s%d" % chance.randrange(SUBJECTS)
            schema = record(name)
            try:
                status, body = ask(chance.choice(self.joined).place, "POST", "/subjects/%s/versions" % subject, {"schema": schema})
            except NOBODY:
                self.unanswered += 1
                time.sleep(0.05)
                continue
            answer = json.loads(body)
            with self.lock:
                if status == 200:
                    self.told.append((subject, schema, answer["id"]))
                else:
                    self.refused[status, answer["error_code"], answer["message"]] += 1

    def disturb(self):
        chance = random.Random(7)
        while not self.is_over.wait(chance.uniform(0.5, 2)):
            self.struck[strike(chance.choice(self.joined), chance)] += 1

    def run(self):
        for joined in self.joined:
            joined.listens()
        self.ask_until("PUT", "/config", {"compatibility": "NONE"})
        threads = [threading.Thread(target=self.register, args=(client,)) for client in range(CLIENTS)]
        threads.append(threading.Thread(target=self.disturb))
        for thread in threads:
            thread.start()
        time.sleep(self.seconds)
        self.is_over.set()
        for thread in threads:
            thread.join()
        for joined in self.joined:
            joined.listens()
        count = agree([joined.place for joined in self.joined], sorted({number for _, _, number in self.told}))
        return count, self.check_log()

    def check_log(self):
        """That what was told stands, once; gives how many lines the log has."""
        base, batches = by_file.batches(self.log)
        lines, texts, ids, stands = base + [line for batch in batches for line in batch], {}, {}, Counter()
        for number, line in enumerate(lines):
            offset, key, value = line.rstrip("\n").split("\t")
            expect(int(offset) == number, "line", number, "has offset", offset)
            if json.loads(key)["keytype"] == "SCHEMA":
                version = json.loads(value)
                expect(texts.setdefault(version["id"], version["schema"]) == version["schema"], "an id names two schemas:", line)
                expect(ids.setdefault(version["schema"], version["id"]) == version["id"], "a schema has two ids:", line)
                stands[version["subject"], version["schema"], version["id"]] += 1
        for told in self.told:
            expect(stands[told] == 1, told, "was acknowledged, and stands", stands[told], "times")
        for told, count in stands.items():
            expect(count == 1, told, "stands", count, "times")
        for subject, schema, number in self.told[::max(1, len(self.told) // 500)]:
            for joined in self.joined:
                status, body = ask(joined.place, "GET", "/schemas/ids/%d" % number)
                expect(status == 200 and json.loads(body)["schema"] == schema, subject, number, "is answered by", status, body)
        codes = {code for _, code, _ in self.refused}
        expect(codes <= {50001, 50301, 50302}, "refused:", dict(self.refused))
        expect(not any(status == 2 for joined in self.joined for status in joined.statuses), "status 2:", self.joined[0].said(), self.joined[1].said())
        expect(len(self.told) > 2 * self.seconds, "few registrations:", len(self.told))
        return len(lines)


def main():
    if not 2 <= len(sys.argv) <= 3:
        print(__doc__)
        return 2
    signal.signal(signal.SIGTERM, lambda *_: sys.exit(143))        # what was begun is ended
    folder = tempfile.mkdtemp(prefix="beside-")
    trial = Trial(os.path.abspath(sys.argv[1]), float(sys.argv[2]) if len(sys.argv) == 3 else 60, folder)
    try:
        answers, lines = trial.run()
    except Wrong as fault:
        print("WRONG:", fault)
        return 1
    finally:
        trial.is_over.set()
        for joined in trial.joined:
            joined.end()
        shutil.rmtree(folder, ignore_errors=True)
    print("%d registrations were acknowledged, and stand once in a log of %d lines; %d weren't answered" % (len(trial.told), lines, trial.unanswered))
    for (status, code, message), count in sorted(trial.refused.items()):
        print("%6d times %d %d %s" % (count, status, code, message))
    print("faults: %s; %d starts" % (", ".join("%s %d times" % pair for pair in sorted(trial.struck.items(), key=str)),
                                     sum(len(joined.statuses) + 1 for joined in trial.joined)))
    print("both processes gave the same %d answers" % answers)
    return 0


if __name__ == "__main__":
    sys.exit(main())
