"""An adapter whose process is the test itself: what it is given is taken apart, and it asks what the test wants."""
import os
import queue
import socket
import subprocess
import sys
import threading
import time

from pace import slow

HERE = os.path.dirname(os.path.realpath(__file__))


class Wrong(Exception):
    """Something isn't as it should be."""


def expect(holds, *words):
    if not holds:
        raise Wrong(" ".join(str(word) for word in words)[:4000])


def note(offset, text):
    """A line that any log may have."""
    return b"%d\t{\"keytype\":\"NOOP\",\"magic\":0}\t\"%s\"\n" % (offset, text.encode())


def whole(text):
    """A log with the line that says where it ends."""
    return text + b"\nend %d %d\n" % (text.count(b"\n"), max(int(line.split(b"\t")[0]) + 1 for line in text.splitlines()))


def front_of(lines):
    """The lines up to an empty one, or to their end."""
    for line in lines:
        if line == b"\n":
            return
        yield line


class Seat:
    """An adapter that serves the test. `next` is the offset behind what was given, `log` are the lines of that, and `ends` how many lines
    there were behind the base, and behind each batch."""

    made = 0

    def __init__(self, trial, words, rules=1, patience=3, poll=1, copy=None):
        Seat.made += 1
        self.name, self.trial = "seat%d" % Seat.made, trial
        self.words = [os.path.join(trial.adapters, words[0]), *words[1:]]
        self.log, self.ends, self.next, self.requests, self.is_ready = [], [], 0, [], threading.Event()
        self.messages, self.lock = queue.Queue(), threading.Condition()
        path = os.path.join(trial.folder, self.name)
        listener = socket.socket(socket.AF_UNIX)
        listener.bind(path)
        listener.listen()
        self.errors = path + ".errors"
        with open(self.errors, "wb") as errors:
            self.adapter = subprocess.Popen(
                [*self.words, "--patience", str(patience), "--poll", str(poll), *(["--copy", copy] if copy else []), "serve", "--",
                 sys.executable, os.path.join(HERE, "puppet.py"), path, str(rules)], stderr=errors)
        trial.later(self.end)
        threading.Thread(target=self.listen, args=(listener,), daemon=True).start()

    def listen(self, listener):
        """Takes in what is given. An adapter may start its process anew, and gives it all again."""
        while True:
            self.line, _ = listener.accept()
            with self.lock:
                self.log, self.ends, self.next = [], [], 0
            self.listen_to(self.line.makefile("rb", buffering=1 << 20))

    def listen_to(self, lines):
        self.take(front_of(lines))
        for line in lines:
            if line == b"batch\n":
                self.take(front_of(lines))
            elif line == b"ready\n":
                self.is_ready.set()
            else:
                self.answered(line)

    def take(self, lines):
        with self.lock:
            for line in lines:
                self.log.append(line)
                fields = line.split(b"\t")
                self.next = int(fields[1]) if fields[0] == b"floor" else int(fields[0]) + 1
            self.ends.append(len(self.log))
            self.lock.notify_all()

    def answered(self, line):
        """A `kept` counts before the next message is looked at."""
        lines = self.requests[-1][0]
        if line == b"kept\n" and lines:
            self.take(lines)
        self.next_then = self.next          # what was given before the answer
        self.messages.put(line.strip().decode())

    def ready(self):
        expect(self.is_ready.wait(slow(60)), self.name, "isn't ready:", self.said())
        return self

    def ask(self, lines, limit=None):
        """Makes a request, and gives the answer."""
        self.send(lines)
        return self.answer(limit)

    def send(self, lines):
        self.requests.append([lines, None])
        self.line.sendall(b"".join(lines) + b"\n")

    def answer(self, limit=None):
        limit = limit or slow(60)
        try:
            self.requests[-1][1] = self.messages.get(timeout=limit)
        except queue.Empty:
            raise Wrong("%s has no answer for %d s: %s" % (self.name, limit, self.said()))
        return self.requests[-1][1]

    def append(self, text="", count=1, limit=None):
        """Asks to append lines that no other request has."""
        at = self.next
        return self.ask([note(at + place, "%s %d %d %s" % (self.name, len(self.requests), place, text)) for place in range(count)], limit)

    def check(self):
        return self.ask([])

    def wait_until(self, holds, limit=60):
        """Waits until it was given something."""
        until = time.monotonic() + slow(limit)
        with self.lock:
            while not holds():
                expect(self.lock.wait(until - time.monotonic()) or holds(), self.name, "waited in vain, at offset", self.next, self.said())

    def said(self):
        with open(self.errors, encoding="utf-8") as errors:
            return errors.read()

    def status(self):
        """The status with which the adapter ends by itself."""
        try:
            return self.adapter.wait(slow(60))
        except subprocess.TimeoutExpired:
            raise Wrong("%s doesn't end: %s" % (self.name, self.said()))

    def end(self):
        self.adapter.kill()
        self.adapter.wait()


def agree(seats, dumped):
    """What seats were given and told is what the log says."""
    dumped = dumped.splitlines(keepends=True)
    places = {}
    for place, line in enumerate(dumped):
        places.setdefault(line, []).append(place)
    for seat in seats:
        expect(seat.log == dumped[:len(seat.log)], seat.name, "was given something else than the log says")
        for lines, answer in seat.requests:
            stands = [places.get(line, []) for line in lines]
            if answer == "kept":
                expect(all(len(one) == 1 for one in stands), seat.name, "was told kept of", lines[:1], "which stands", stands[:1])
            if answer in ("behind", "declined"):
                expect(not any(stands), seat.name, "was told", answer, "of", lines[:1], "which stands at", stands[:1])
    return len(dumped)
