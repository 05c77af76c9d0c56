"""Registries over a log, asked at random while adapters and processes are killed and stopped, and the log is made shorter. Afterwards each
answer has to be the one of its place in the log, and no place may be older than one from which somebody was answered before."""
import http.client
import json
import os
import random
import signal
import subprocess
import sys
import threading
import time
from dataclasses import dataclass
from urllib.parse import quote

from pace import slow
from registry import Registry
from seats import HERE, expect
from stores import free_ports
from trial import case

SUBJECTS = ("s", "team/t", "größe")
SCHEMAS = ('"int"', '"long"', '"string"', '"bytes"')
LEVELS = ("NONE", "BACKWARD", "FORWARD_TRANSITIVE", "FULL")
SECONDS, ENOUGH = 14, 60     # a busy machine has more seconds for so many answers


@dataclass
class Answer:
    """What a client was answered, when it asked, and when it had the answer."""
    command: tuple
    asked: float
    had: float
    status: int
    body: object
    place: int


class Joined:
    """An adapter with a registry, started anew whenever it ends."""

    def __init__(self, trial, log):
        self.port, self.errors = free_ports(1)[0], os.path.join(trial.folder, "joined")
        self.words = [os.path.join(trial.adapters, log.words[0]), *log.words[1:], "--patience", "3", "serve", "--",
                      sys.executable, os.path.join(HERE, "stand_in.py"), "--port", str(self.port)]
        self.is_over, self.starts, self.statuses, self.adapter = False, 0, [], None
        with open(self.errors, "wb"):
            pass
        self.thread = threading.Thread(target=self.run, daemon=True)
        self.thread.start()
        trial.later(self.end)

    def run(self):
        while not self.is_over:
            with open(self.errors, "ab") as errors:
                self.adapter = subprocess.Popen(self.words, stderr=errors)
            self.starts += 1
            self.statuses.append(self.adapter.wait())
            time.sleep(0.2)

    def said(self):
        with open(self.errors, encoding="utf-8") as errors:
            return errors.read()[-3000:]

    def process(self):
        """The registry's own process, if it runs."""
        if self.adapter is None:
            return []
        found = subprocess.run(["ps", "-o", "pid=", "--ppid", str(self.adapter.pid)], stdout=subprocess.PIPE, check=False).stdout.split()
        return [int(one) for one in found]

    def end(self):
        self.is_over = True
        while self.thread.is_alive():
            if self.adapter is not None:
                self.adapter.kill()
            self.thread.join(0.3)

    def ask(self, method, path, body=None):
        """Status, body and place; None where nobody answers."""
        connection = http.client.HTTPConnection("127.0.0.1", self.port, timeout=slow(40))
        try:
            connection.request(method, path, None if body is None else json.dumps(body), {})
            response = connection.getresponse()
            return response.status, json.loads(response.read()), int(response.headers["Place"])
        except (OSError, http.client.HTTPException, ValueError):
            return None
        finally:
            connection.close()


def random_command(chance):
    """A command, and how it is asked."""
    subject, schema = chance.choice(SUBJECTS), chance.choice(SCHEMAS)
    path, kind = "/subjects/" + quote(subject, safe=""), chance.random()
    if kind < 0.45:
        return ("register", subject, schema), ("POST", path + "/versions", {"schema": schema})
    if kind < 0.55:
        number, version = chance.randrange(1, 40), chance.randrange(1, 6)
        return (("register", subject, schema, number, version),
                ("POST", path + "/versions", {"schema": schema, "id": number, "version": version}))
    if kind < 0.7:
        version, is_permanent = chance.randrange(1, 6), chance.random() < 0.5
        return (("delete_version", subject, version, is_permanent),
                ("DELETE", "%s/versions/%d%s" % (path, version, "?permanent=true" if is_permanent else "")))
    if kind < 0.8:
        is_permanent = chance.random() < 0.5
        return ("delete_subject", subject, is_permanent), ("DELETE", path + ("?permanent=true" if is_permanent else ""))
    if kind < 0.88:
        level = chance.choice(LEVELS)
        return ("set_level", subject, level), ("PUT", "/config/" + quote(subject, safe=""), {"compatibility": level})
    if kind < 0.92:
        return ("clear_level", subject), ("DELETE", "/config/" + quote(subject, safe=""))
    if kind < 0.96:
        mode = chance.choice(("IMPORT", "READONLY", "READWRITE"))
        return ("set_mode", subject, mode, True), ("PUT", "/mode/%s?force=true" % quote(subject, safe=""), {"mode": mode})
    return ("clear_mode", subject), ("DELETE", "/mode/" + quote(subject, safe=""))


def ask_at_random(joined, seed, ended, answers):
    chance = random.Random(seed)
    while not ended.is_set():
        command, request = random_command(chance)
        asked = time.monotonic()
        answer = chance.choice(joined).ask(*request)
        if answer is None:
            time.sleep(0.1)
        elif answer[0] not in (500, 503):
            answers.append(Answer(command, asked, time.monotonic(), *answer))


def strike_at_random(joined, seed, ended):
    """Kills and stops adapters and processes."""
    chance = random.Random(seed)
    while not ended.wait(chance.uniform(0.3, 1)):
        victim = chance.choice(joined)
        for process in chance.choice(([victim.adapter.pid] if victim.adapter else [], victim.process())):
            try:
                if chance.random() < 0.5:
                    os.kill(process, signal.SIGKILL)
                else:
                    os.kill(process, signal.SIGSTOP)
                    time.sleep(chance.uniform(0.2, 2))
                    os.kill(process, signal.SIGCONT)
            except ProcessLookupError:
                pass


def make_shorter(log, joined, times):
    """Rebases and trims beside all that; says how often it came to that."""
    done = 0
    for _ in range(times):
        time.sleep(SECONDS / (times + 1))
        for one in joined:
            words = [log.words[0], *log.words[1:], "rebase", "--registry", "http://127.0.0.1:%d" % one.port, "--",
                     sys.executable, os.path.join(HERE, "stand_in.py"), "--compact", "{}"]
            words[0] = os.path.join(log.trial.adapters, words[0])
            run = subprocess.run(words, stdout=subprocess.PIPE, stderr=subprocess.PIPE, check=False)
            if run.returncode == 0:
                log.run("trim")
                done += 1
                break
    return done


def check_answers(lines, ends, answers):
    """Each answer is right at its place, no writes share one, and no place is older than one of an answer before. Gives how many wrote."""
    by_place, places = {}, {}
    for answer in answers:
        by_place.setdefault(answer.place, []).append(answer)
    registry = Registry()
    for at, end in zip(ends, ends[1:] + [None]):
        for answer in by_place.pop(registry.next, []):
            status, body, records = registry.decide(answer.command)
            expect((status, body) == (answer.status, answer.body), answer, "and its place says", status, body)
            if records:
                expect(answer.place not in places, "two commands wrote at", answer.place, answer, places.get(answer.place))
                places[answer.place] = answer
                expect(lines[at:at + len(records)] == registry.lines_of(records), answer, "doesn't stand at its place")
        if end is not None:
            registry.replay(lines[at:end])
    expect(not by_place, "answers from places that are no batch's end:", list(by_place)[:5])
    no_older_places(answers, places)
    return len(places)


def no_older_places(answers, places):
    """Who asks after somebody was answered is answered from no older place, and from one behind what that one wrote."""
    had = sorted((answer.had, answer.place + (places.get(answer.place) is answer)) for answer in answers)
    newest, number = 0, 0
    for answer in sorted(answers, key=lambda one: one.asked):
        while number < len(had) and had[number][0] < answer.asked:
            newest, number = max(newest, had[number][1]), number + 1
        expect(answer.place >= newest, answer, "was decided from a state older than", newest)


@case("etcd", "postgres", "kafka")
def registries(trial, kind):
    """Four registries, six clients, kills, and rebases and trims."""
    log = trial.new_log(kind)
    witness = log.seat(patience=10).ready()
    joined = [Joined(trial, log) for _ in range(4)]
    equal_values(joined)
    answers, ended = [], threading.Event()
    threads = [threading.Thread(target=ask_at_random, args=(joined, seed, ended, answers)) for seed in range(6)]
    threads.append(threading.Thread(target=strike_at_random, args=(joined, 7, ended)))
    for thread in threads:
        thread.start()
    began = time.monotonic()
    shorter = make_shorter(log, joined, 2) if kind != "kafka" else 0
    while time.monotonic() < began + SECONDS or (len(answers) < ENOUGH and time.monotonic() < began + slow(SECONDS)):
        time.sleep(0.1)
    ended.set()             # whoever is asked now may wait for its answer
    for thread in threads:
        thread.join()
    values = equal_values(joined)
    expect(witness.check() in ("kept", "behind"), witness.said())
    lines = [line.decode() for line in witness.log]
    writes = check_answers(lines, witness.ends, answers)
    registry = Registry()
    for line in lines:
        registry.take(line)
    expect(values == json.loads(json.dumps(registry.values_by_key())), "the registries hold something else than the log says")
    expect(writes > 5, writes, "writes", shorter, "rebases")
    expect(not any(status == 2 for one in joined for status in one.statuses), [one.statuses for one in joined], joined[0].said())
    return "%d lines, %d answers, %d writes, %d starts, %d rebases" % (
        len(lines), len(answers), writes, sum(one.starts for one in joined), shorter)


def equal_values(joined):
    """What all of them hold, once each has answered a command, which makes it take in all that there is."""
    until, held = time.monotonic() + slow(60), []
    for one in joined:
        while True:
            answer = one.ask("DELETE", "/config/nobody")
            if answer and answer[0] == 404:
                break
            expect(time.monotonic() < until, "a registry doesn't come back:", one.said())
            time.sleep(0.2)
    for one in joined:
        held.append(one.ask("GET", "/values")[1])
    expect(all(values == held[0] for values in held), "registries hold different values")
    return held[0]
