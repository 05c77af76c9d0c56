#!/usr/bin/python3
"""Four processes of `registrylog join` behind nginx, over a store that is struck: cluster.py REGISTRYLOG [--seconds N] [--store postgres].
It ends by itself, after ten minutes or so many seconds and some to look; the status is 1 where something isn't as it should be, and 2 where
a package is missing.

The store is three members of etcd; with `--store postgres` one PostgreSQL server, for two minutes. Where this machine makes network
namespaces for root, each member and each process has a network of its own, and is cut off too. Else it is stopped in place of that.

1. In calm: how long a registration takes with 1, 4 and 8 writers, and how many there are a second. What was registered at a process has to
   be there at another one at once. Then the store is taken away: what is live is looked up and registered all the same, and nothing new is.
2. Beside 4 writers: the leader is killed three times (or the server crashes), and so is a process; once where there are less than two
   minutes. The longest time without an acknowledged command is told.
3. Eight clients register, delete, import, set levels and modes, and look up, all in the same subjects, while members, leaders, adapters and
   processes are killed, stopped and continued, cut off, and the quorum is taken away.

Meanwhile one id is looked up at each process all the time, and through nginx. A process that wasn't struck has to answer, and nginx all but
one of a thousand. At the end the log and all that clients were answered have to be lawful (lawful.py), and all processes answer each GET
about what is there with the same bytes."""
import argparse
import collections
import http.client
import json
import os
import random
import shutil
import signal
import subprocess
import sys
import tempfile
import threading
import time
from urllib.parse import quote

HERE = os.path.dirname(os.path.realpath(__file__))
ADAPTERS = os.path.join(HERE, "..", "..", "adapters")
sys.dont_write_bytecode = True
sys.path.append(os.path.join(ADAPTERS, "trials"))

import lawful
from machines import Etcd, Net, Nginx, missing_packages
from registries import NOBODY, TYPE, Joined, Wrong, agree, ask, expect, free_port, normal, send

PROCESSES, CLIENTS = 4, 8
AFTER = 10          # seconds after a kill in which the longest silence is looked for
SOON = 20           # seconds after a strike in which a process may not answer lookups yet
SUBJECTS = ["s%d" % number for number in range(8)] + ["team/größe", "i0", "i1"]
COMMON = ['"int"', '"long"', '"string"', '"bytes"', '"double"']
LEVELS = ["NONE", "BACKWARD", "BACKWARD_TRANSITIVE", "FORWARD", "FULL", "FULL_TRANSITIVE"]


def now():
    return time.monotonic()


def code_of(said):
    return said["answer"].get("error_code", "") if isinstance(said["answer"], dict) else ""


def part(times, share):
    times = sorted(times)
    return times[min(len(times) - 1, int(len(times) * share))] * 1000 if times else float("nan")


# The stores, and how they are struck

class EtcdStore:
    def __init__(self, folder, ends):
        self.net = Net(True)
        ends.append(self.net.end)
        self.etcd = Etcd(self.net, folder)

    def words(self):
        return [os.path.join(ADAPTERS, self.etcd.words()[0]), *self.etcd.words()[1:]]

    def leader(self):
        leader = self.etcd.leader()
        return 0 if leader is None else leader

    def kill_leader(self):
        return self.etcd.kill(self.leader())

    def take_away(self):
        leader = self.leader()
        return self.etcd.stop(*(number for number in range(3) if number != leader))

    def await_calm(self):
        self.etcd.await_leader()

    def strikes(self, chance):
        """What may be done to the store: a name, and what does it and gives what ends it."""
        etcd, one, leader = self.etcd, chance.randrange(3), self.leader()
        others = [number for number in range(3) if number != leader]
        strikes = [("a member killed", lambda: etcd.kill(one)), ("the leader killed", lambda: etcd.kill(leader)),
                   ("a member stopped", lambda: etcd.stop(one)), ("the leader stopped", lambda: etcd.stop(leader)),
                   ("two members killed", lambda: etcd.kill(*others)), ("two members stopped", lambda: etcd.stop(*others)),
                   ("the quorum stopped", lambda: etcd.stop(leader, others[0])), ("all members killed", lambda: etcd.kill(0, 1, 2))]
        if self.net.is_real:
            strikes += [("a member cut off", self.etcd.machines[one].cut), ("the leader cut off", self.etcd.machines[leader].cut),
                        ("the leader cut off from the others", lambda: etcd.machines[leader].mute(*(etcd.machines[two] for two in others)))]
        return strikes

    def strikes_at(self, machine, chance):
        """What may be done to a process's way to the store."""
        if not self.net.is_real:
            return []
        one = chance.choice(self.etcd.machines)
        return [("a process cut off", machine.cut, True), ("a member's answers to a process lost", lambda: one.mute(machine), False),
                ("a process cut off from the store", lambda: machine.mute(*self.etcd.machines), False)]


class PostgresStore:
    def __init__(self, folder, ends):
        import stores
        import trial
        self.net, trial = Net(False), trial.Trial(folder, ADAPTERS)
        ends.append(trial.stack.close)
        self.server = stores.Postgres(trial)
        self.server.sql("CREATE SCHEMA registry")

    def words(self):
        words = self.server.words("registry")
        return [os.path.join(ADAPTERS, words[0]), *words[1:]]

    def kill_leader(self):
        self.server.crash()
        return self.server.start

    def await_calm(self):
        pass

    def stop(self):
        self.server.stop()
        return self.server.go_on

    take_away = stop

    def kill_backend(self):
        send(random.choice(self.server.processes()[:-1]), signal.SIGKILL)
        return lambda: None

    def strikes(self, _):
        return [("the server crashed", self.kill_leader), ("the server stopped", self.stop), ("a backend killed", self.kill_backend)]

    @staticmethod
    def strikes_at(*_):
        return []


# Clients

class History:
    """All that was asked, and what was answered."""

    def __init__(self):
        self.requests, self.lock, self.ids, self.live = [], threading.Lock(), {}, collections.deque(maxlen=200)

    def add(self, said):
        with self.lock:
            self.requests.append(said)
            if said["status"] == 200 and said["method"] == "POST":
                self.ids.setdefault(said["answer"]["id"], said["had"])
                self.live.append((said["path"], said["body"]))


class Client:
    """One connection to nginx, which is kept."""

    def __init__(self, history, place):
        self.history, self.place, self.line = history, place, None

    def ask(self, method, path, body=None):
        """Asks, and notes what came of it."""
        said = {"method": method, "path": path, "body": body, "asked": now(), "had": None, "status": None, "answer": None, "by": None}
        try:
            if self.line is None:
                self.line = http.client.HTTPConnection(*self.place, timeout=100)
            self.line.request(method, path, None if body is None else json.dumps(body), {} if body is None else TYPE)
            response = self.line.getresponse()
            text = response.read()
            said.update(status=response.status, by=response.headers["X-Registry"], had=now())
            try:
                said["answer"] = json.loads(text)
            except ValueError:
                said["answer"] = text.decode("utf-8", "replace")[:100]      # nginx's own
        except NOBODY:
            self.line.close()
            self.line = None
        self.history.add(said)
        if said["status"] is None or said["status"] >= 500:
            time.sleep(0.05)
        return said


def write_on(client, number, over):
    """Registers new schemas as fast as it can."""
    made = 0
    while not over.is_set():
        made += 1
        schema = normal({"type": "record", "name": "W", "fields": [{"name": "f%d_%d" % (number, made), "type": "int", "default": made}]})
        client.ask("POST", "/subjects/w%d/versions" % number, {"schema": schema})


def random_schema(chance, made):
    if chance.random() < 0.4:
        return chance.choice(COMMON)
    field = {"name": "f%s" % made, "type": chance.choice(["int", "long", "string"])}
    if chance.random() < 0.7:
        field["default"] = "" if field["type"] == "string" else 0
    return normal({"type": "record", "name": chance.choice(["R", "R", "R", "Q"]), "fields": [field, {"name": "a", "type": "int"}]})


def random_request(chance, history, made):
    subject = chance.choice(SUBJECTS)
    path, kind = "/subjects/" + quote(subject, safe=""), chance.random()
    scope, version = "/" + quote(subject, safe=""), chance.choice([1, 2, 3, 4, 5, "latest"])
    if kind < 0.2 and history.ids:
        return "GET", "/schemas/ids/%d" % chance.choice(list(history.ids)), None
    if kind < 0.28 and history.live:
        return ("POST", *chance.choice(history.live))
    if kind < 0.36 or (kind < 0.6 and subject[0] == "i"):
        number = chance.randrange(1, 400) if chance.random() < 0.3 else 1000000 + chance.randrange(100000)
        return "POST", "/subjects/i%d/versions" % chance.randrange(2), {"schema": random_schema(chance, made), "id": number,
                                                                       "version": chance.randrange(1, 8)}
    if kind < 0.68:
        return "POST", path + "/versions", {"schema": random_schema(chance, made)}
    if kind < 0.77:
        return "DELETE", "%s/versions/%s" % (path, version), None
    if kind < 0.83:
        return "DELETE", "%s/versions/%s?permanent=true" % (path, version), None
    if kind < 0.86:
        return "DELETE", path + chance.choice(["", "?permanent=true"]), None
    if kind < 0.93:
        return "PUT", "/config" + chance.choice([scope, scope, scope, ""]), {"compatibility": chance.choice(LEVELS)}
    if kind < 0.96:
        return "DELETE", "/config" + scope, None
    if kind < 0.98:
        mode = "IMPORT" if subject[0] == "i" else chance.choice(["READONLY", *["READWRITE"] * 5])
        return "PUT", "/mode%s?force=true" % scope, {"mode": mode}
    return "DELETE", "/mode" + ("/s0" if subject[0] == "i" else scope), None


def ask_on(client, seed, over):
    """All kinds of requests, at random."""
    chance, made = random.Random(seed), 0
    while not over.is_set():
        made += 1
        client.ask(*random_request(chance, client.history, "%d_%d" % (seed, made)))
        time.sleep(chance.uniform(0, 0.03))


class Watcher:
    """Looks one id up all the time, at one place."""

    def __init__(self, name, place, number, bad):
        self.name, self.place, self.number, self.bad = name, place, number, bad
        self.times, self.missed, self.over = [], [], False
        self.thread = threading.Thread(target=self.run, daemon=True)
        self.thread.start()

    def run(self):
        line, wanted = None, None
        while not self.over:
            began = now()
            try:
                line = line or http.client.HTTPConnection(*self.place, timeout=15)
                status, body = ask(self.place, "GET", "/schemas/ids/%d" % self.number, connection=line)
                if status == 200 and wanted not in (None, body):
                    self.bad("another answer at", self.name, body, wanted)
                if status == 200:
                    wanted = body
                    self.times.append((began, now() - began))
                else:
                    self.missed.append((began, "%d %s" % (status, body[:100])))
            except NOBODY as fault:
                line = None
                self.missed.append((began, repr(fault)))
            time.sleep(0.02)

    def end(self):
        self.over = True
        self.thread.join(20)


# The trial

class Trial:
    def __init__(self, program, seconds, kind, folder):
        self.program, self.seconds, self.folder, self.history = program, seconds, folder, History()
        self.ends, self.struck, self.watchers, self.wrong = [], [], [], []
        self.kind, self.joined, self.machines, self.kill_count = kind, [], [], 3 if seconds >= 120 else 1

    def bad(self, *words):
        self.wrong.append(" ".join(map(str, words)))
        print("WRONG", *words, flush=True)

    def begin(self):
        self.store = (EtcdStore if self.kind == "etcd" else PostgresStore)(self.folder, self.ends)
        print("%s, for %d s; machines with a network of their own: %s" % (self.kind, self.seconds, self.store.net.is_real), flush=True)
        command = [self.program, "join"]
        done = subprocess.run([*self.store.words(), "--patience", "30", "init", "--empty", "--", *command], input=b"", stderr=subprocess.PIPE, check=False)
        expect(done.returncode == 0, "init:", done.stderr.decode())
        for number in range(PROCESSES):
            machine = self.store.net.add("p%d" % number)
            place = (machine.address, 8081 if self.store.net.is_real else free_port())
            words = machine.words([*self.store.words(), "serve", "--", *command, "--listen", "%s:%d" % place])
            joined = Joined(words, place, os.path.join(self.folder, "joined%d" % number))
            self.ends.append(joined.end)
            self.joined.append(joined)
            self.machines.append(machine)
        for joined in self.joined:
            joined.listens()
        nginx = Nginx(self.folder, [joined.place for joined in self.joined])
        self.ends.append(nginx.end)
        self.place = nginx.place
        self.client = Client(self.history, self.place)
        for _ in range(100):
            if self.client.ask("POST", "/subjects/first/versions", {"schema": '"float"'})["status"] == 200:
                break
        expect(self.history.ids, "no first registration:", self.history.requests[-1], self.joined[0].said())
        self.first = min(self.history.ids)
        self.watchers = [Watcher("process %d" % number, joined.place, self.first, self.bad) for number, joined in enumerate(self.joined)]
        self.watchers.append(Watcher("nginx", self.place, self.first, self.bad))

    def beside(self, do, *threads):
        """Does something while clients ask."""
        over, running = threading.Event(), []
        for number, function in enumerate(threads):
            client = Client(self.history, self.place)
            running.append(threading.Thread(target=function, args=(client, number, over), daemon=True))
            running[-1].start()
        try:
            return do()
        finally:
            over.set()
            for thread in running:
                thread.join(120)

    # 1. Calm

    def measure(self, seconds):
        for writers in (1, 4, 8):
            began = len(self.history.requests)
            self.beside(lambda: time.sleep(seconds), *[write_on] * writers)
            times = [one["had"] - one["asked"] for one in self.history.requests[began:] if one["status"] == 200]
            others = [one for one in self.history.requests[began:] if one["status"] != 200]
            refused = collections.Counter("%s %s" % (one["status"], code_of(one)) for one in others)
            print("calm, %d writers: median %.1f ms, 99 of 100 within %.1f ms, %.0f commands a second%s" % (
                writers, part(times, 0.5), part(times, 0.99), len(times) / seconds, ", refused: %s" % dict(refused) if refused else ""), flush=True)
            if set(refused) - {"503 50301"}:        # overtaken is nobody's fault
                self.bad("refusals in calm:", others[:2])

    def look_elsewhere(self):
        """An id that was told at a process is looked up at another one at once."""
        clients, times, late = [Client(self.history, joined.place) for joined in self.joined], [], 0
        for number in range(200):
            schema = normal({"type": "fixed", "name": "F%d" % number, "size": 4})
            told = clients[number % PROCESSES].ask("POST", "/subjects/elsewhere%d/versions" % number, {"schema": schema})
            expect(told["status"] == 200, "in calm:", told)
            found = clients[(number + 1 + number // PROCESSES % (PROCESSES - 1)) % PROCESSES].ask("GET", "/schemas/ids/%d" % told["answer"]["id"])
            times.append(found["had"] - found["asked"] if found["had"] else float("inf"))
            late += found["status"] == 404 and times[-1] > 0.9
            if found["status"] != 200 and not (found["status"] == 404 and times[-1] > 0.9):
                self.bad("an id that was told elsewhere:", told, found)
        print("calm, an id at another process at once: median %.1f ms, 99 of 100 within %.1f ms; %d times the store took more than a second" % (
            part(times, 0.5), part(times, 0.99), late), flush=True)

    def do_without(self):
        """The store is away: what is live is registered and looked up all the same, and nothing else is done."""
        counts, mend = collections.Counter(), self.store.take_away()
        try:
            threads = [threading.Thread(target=self.ask_without, args=(number, counts)) for number in range(PROCESSES)]
            for thread in threads:
                thread.start()
            for thread in threads:
                thread.join()
        finally:
            mend()
        self.store.await_calm()
        print("without the store: " + ", ".join("%s %d times" % pair for pair in sorted(counts.items())), flush=True)
        for _ in range(600):
            if self.client.ask("POST", "/subjects/again/versions", {"schema": '"float"'})["status"] == 200:
                return
        self.bad("nothing is registered though the store is back")

    def ask_without(self, number, counts):
        client = Client(self.history, self.joined[number].place)
        live = "POST", "/subjects/first/versions", {"schema": '"float"'}
        new = "POST", "/subjects/without%d/versions" % number, {"schema": normal({"type": "fixed", "name": "N%d" % number, "size": 4})}
        for name, request, statuses, limit in (
                ("what is live", live, {200}, 10), ("an id", ("GET", "/schemas/ids/%d" % self.first), {200}, 2),
                ("an id that isn't there", ("GET", "/schemas/ids/2147483647"), {404}, 5), ("a new schema", new, {500, 503}, 45),
                ("what is live", live, {200}, 10)):
            said = client.ask(*request)
            counts["%s %s" % (name, said["status"])] += 1
            if said["status"] not in statuses or said["had"] - said["asked"] > limit:
                self.bad("without the store:", name, said)

    # 2. What one kill costs

    def silence(self, at):
        """The longest time without an acknowledged command, of those that end after `at`."""
        had = sorted(one["had"] for one in self.history.requests if one["had"] and one["status"] == 200 and one["method"] != "GET")
        had = [one for one in had if one >= at - 5]
        return max((after - before for before, after in zip(had, had[1:]) if after >= at and before <= at + AFTER), default=float("nan"))

    def kills(self):
        for name, strike in (("the leader" if isinstance(self.store, EtcdStore) else "the server", self.kill_leader), ("a process", self.kill_process)):
            times = []
            for _ in range(self.kill_count):
                time.sleep(4)
                at = now()
                strike()
                time.sleep(AFTER)
                times.append(self.silence(at))
            print("%s was killed: %s s without an acknowledged command" % (name, ", ".join("%.2f" % one for one in times)), flush=True)

    def kill_leader(self):
        mend = self.store.kill_leader()
        time.sleep(0 if isinstance(self.store, EtcdStore) else 0.5)
        threading.Timer(3 if isinstance(self.store, EtcdStore) else 0, mend).start()

    def kill_process(self):
        number = random.randrange(PROCESSES)
        self.note(number, "a process killed")
        child = self.joined[number].process()
        if child:
            send(child, signal.SIGKILL)

    def note(self, number, name):
        """A strike at a process, or at the store."""
        self.struck.append([now(), float("inf"), number, name])
        if number is not None:
            self.struck[-1][1] = now() + SOON
        return self.struck[-1]

    # 3. The storm

    def strike_process(self, chance):
        number = chance.randrange(PROCESSES)
        joined = self.joined[number]
        kinds = [("a process killed", None, True), ("an adapter killed", None, True), ("a process stopped", None, True),
                 ("an adapter stopped", None, False), *self.store.strikes_at(self.machines[number], chance)]
        name, do, hides = chance.choice(kinds)
        noted = self.note(number if hides else None, name)
        if do:
            mend = do()
        else:
            victim = joined.adapter.pid if "adapter" in name else joined.process()
            if victim is None:
                return
            send(victim, signal.SIGKILL if "killed" in name else signal.SIGSTOP)
            mend = (lambda: None) if "killed" in name else (lambda: send(victim, signal.SIGCONT))
        time.sleep(chance.choice([0.3, 1, 3, 8]))
        mend()
        noted[1] = now() + SOON

    def strike_store(self, chance):
        name, do = chance.choice(self.store.strikes(chance))
        noted = self.note(None, name)
        mend = do()
        time.sleep(chance.choice([0.5, 2, 4, 4, 15] if self.seconds > 60 else [0.5, 2, 4]))
        mend()
        noted[1] = now()
        self.store.await_calm()

    def storm(self, seconds):
        chance, until = random.Random(int.from_bytes(os.urandom(4), "big")), now() + seconds
        while now() < until:
            (self.strike_store if chance.random() < 0.5 else self.strike_process)(chance)
            time.sleep(chance.uniform(0.5, 4))

    # The end

    def run(self):
        self.begin()
        calm = max(2, self.seconds / 30)
        self.measure(calm)
        self.look_elsewhere()
        self.do_without()
        self.beside(self.kills, *[write_on] * 4)
        for number in range(2):
            for _ in range(100):
                if self.client.ask("PUT", "/mode/i%d?force=true" % number, {"mode": "IMPORT"})["status"] == 200:
                    break
        began = len(self.history.requests)
        self.beside(lambda: self.storm(max(10, self.seconds - 3 * calm - 2 * self.kill_count * (4 + AFTER) - 30)), *[ask_on] * CLIENTS)
        stormy = self.history.requests[began:]
        for watcher in self.watchers:
            watcher.end()
        self.say_storm(stormy)
        self.look_at_lookups()
        self.judge()

    def say_storm(self, stormy):
        print("struck: " + ", ".join("%s %d" % pair for pair in sorted(collections.Counter(one[3] for one in self.struck).items())))
        counts = collections.Counter()
        for one in stormy:
            counts["%s %s" % (one["status"], code_of(one)) if one["status"] != 200 else "200"] += 1
        print("storm: %d requests; %s" % (len(stormy), ", ".join("%s: %d" % pair for pair in counts.most_common())))
        times = [one["had"] - one["asked"] for one in stormy if one["status"] == 200 and one["method"] != "GET"]
        print("storm: median %.1f ms, 99 of 100 within %.1f ms" % (part(times, 0.5), part(times, 0.99)), flush=True)

    def look_at_lookups(self):
        for number, watcher in enumerate(self.watchers):
            # a process that begins anew waits for its store: it counts as struck until it has answered again
            again = [(at, min((one for one, _ in watcher.times if one > until - SOON + 2), default=float("inf")), until)
                     for at, until, one, _ in self.struck if one == number]

            def is_struck(at, again=again):
                return any(began - 16 <= at <= max(first, until) for began, first, until in again)
            times = [took for at, took in watcher.times if not is_struck(at)]
            missed = [one for one in watcher.missed if not is_struck(one[0])]
            print("lookups at %s: %d while it wasn't struck, median %.1f ms, slowest %.0f ms; %d missed" % (
                watcher.name, len(times), part(times, 0.5), part(times, 1), len(missed)), flush=True)
            if len(missed) > (len(times) / 1000 if watcher.name == "nginx" else 0):
                self.bad("lookups at", watcher.name, "were missed:", missed[:3])

    def judge(self):
        for joined in self.joined:
            joined.listens()
            if 2 in joined.statuses:
                self.bad("an adapter ended with status 2:", joined.said())
        told, requests = os.path.join(self.folder, "told"), os.path.join(self.folder, "requests")
        subprocess.run([*self.store.words(), "serve", "--", sys.executable, os.path.realpath(__file__), "--witness", told],
                       stderr=subprocess.DEVNULL, timeout=300, check=False)
        with open(requests, "w", encoding="utf-8") as file:
            for one in self.history.requests:
                file.write(json.dumps(one) + "\n")
        with open(told, encoding="utf-8") as file:
            base, batches = lawful.read_told(file)
        try:
            print("log: %d batches; %s" % (len(batches), lawful.say(lawful.check(base, batches, self.history.requests))), flush=True)
        except lawful.Unlawful as fault:
            self.bad("the log isn't lawful:", fault)
        try:
            ids = sorted(lawful.ids_of(base + [line for batch in batches for line in batch]))
            print("all processes gave the same %d answers" % agree([joined.place for joined in self.joined], ids, 300), flush=True)
        except (Wrong, lawful.Unlawful) as fault:
            self.bad(fault)

    def end(self):
        for watcher in self.watchers:
            watcher.over = True
        while self.ends:
            self.ends.pop()()


def witness(path):
    """In the place of a process: keeps what an adapter gives until it is ready."""
    if path == "--rules":
        print(1)
        return 0
    with open(path, "wb") as file:
        for line in sys.stdin.buffer:
            if line == b"ready\n":
                break
            file.write(line)
    return 0


def main():
    if sys.argv[1:2] == ["--witness"]:
        return witness(sys.argv[-1])
    parser = argparse.ArgumentParser(description=__doc__, formatter_class=argparse.RawDescriptionHelpFormatter)
    parser.add_argument("program", metavar="REGISTRYLOG")
    parser.add_argument("--seconds", type=float)
    parser.add_argument("--store", choices=["etcd", "postgres"], default="etcd")
    options = parser.parse_args()
    missing = missing_packages(options.store)
    if missing:
        print("missing packages: apt-get install --no-install-recommends %s" % " ".join(missing))
        return 2
    seconds = options.seconds or (600 if options.store == "etcd" else 120)
    signal.signal(signal.SIGTERM, lambda *_: sys.exit(143))        # what was begun is ended
    folder = tempfile.mkdtemp(prefix="cluster-")
    os.chmod(folder, 0o755)
    trial = Trial(os.path.abspath(options.program), seconds, options.store, folder)
    try:
        trial.run()
    except Wrong as fault:
        trial.bad(fault)
    finally:
        trial.end()
    if trial.wrong:
        print("%d wrong; log and requests stay in %s" % (len(trial.wrong), folder))
        return 1
    shutil.rmtree(folder, ignore_errors=True)
    print("all as it should be")
    return 0


if __name__ == "__main__":
    sys.exit(main())
