#!/usr/bin/python3
"""An adapter of these trials' own, over a file, as adapters/PROTOCOL.md says. It is for trials on one machine alone.

    by_file.py FILE init < LOG                      puts the base in
    by_file.py [--faults PART] FILE serve -- COMMAND..

FILE has a head and a text for the base and for each batch: FIRST NEXT TOKEN BEFORE BYTES, and so many bytes of lines. Who reads or appends
has the lock on FILE.lock. What a kill left of a batch is cut off by whoever appends next; nobody was told of it.

--faults PART: of so many of the requests, 0.05 say, the process is told `lost` or `declined`. What was lost stands, or never does, or
comes to stand later if nothing else came first."""
import argparse
import collections
import contextlib
import fcntl
import os
import queue
import random
import secrets
import subprocess
import sys
import threading
import time

POLL = 0.01         # seconds between two looks for what others appended
LATE = 0.05         # seconds until a request that is late arrives

Batch = collections.namedtuple("Batch", "first next token before lines")


class Chain:
    """The base and the batches of a file. `at` is the byte up to which they were read."""

    def __init__(self, path):
        self.file, self.lock, self.at = open(path, "r+b", buffering=0), open(path + ".lock", "ab"), 0

    @contextlib.contextmanager
    def alone(self):
        fcntl.flock(self.lock, fcntl.LOCK_EX)
        try:
            yield
        finally:
            fcntl.flock(self.lock, fcntl.LOCK_UN)

    def read(self):
        """The next whole batch, and None where there is none."""
        self.file.seek(self.at)
        head, ended, _ = self.file.read(200).partition(b"\n")
        if not ended:
            return None
        first, following, token, before, size = head.split()
        self.file.seek(self.at + len(head) + 1)
        lines = b""
        while len(lines) < int(size):
            piece = self.file.read(int(size) - len(lines))
            if not piece:
                return None
            lines += piece
        self.at += len(head) + 1 + len(lines)
        return Batch(int(first), int(following), token, before, lines)

    def write(self, batch):
        """Appends where the last read ended, and reads it only later."""
        self.file.truncate(self.at)
        self.file.seek(self.at)
        data = b"%d %d %s %s %d\n" % (batch.first, batch.next, batch.token, batch.before, len(batch.lines)) + batch.lines
        while data:
            data = data[self.file.write(data):]


class Adapter:
    def __init__(self, path, command, faults):
        self.chain, self.command, self.faults = Chain(path), command, faults
        self.chance, self.run, self.asked, self.late = random.Random(), secrets.token_hex(8), 0, []
        self.requests = queue.Queue()

    def serve(self):
        with self.chain.alone():
            base = self.chain.read()
        self.next, self.token = base.next, base.token
        self.process = subprocess.Popen(self.command, stdin=subprocess.PIPE, stdout=subprocess.PIPE)
        threading.Thread(target=self.listen, daemon=True).start()
        self.give(base.lines + b"\n")
        self.look()
        self.give(b"ready\n")
        while True:
            try:
                request = self.requests.get(timeout=POLL)
            except queue.Empty:
                self.look()
                continue
            if request is None:
                break
            self.give(self.answer(request))
        return 2 if self.process.wait() == 2 else 1

    def listen(self):
        lines = []
        for line in self.process.stdout:
            if line == b"\n":
                self.requests.put(lines)
                lines = []
            else:
                lines.append(line)
        self.requests.put(None)

    def give(self, data):
        try:
            self.process.stdin.write(data)
            self.process.stdin.flush()
        except BrokenPipeError:
            pass

    # The chain, under the lock

    def take(self):
        """Gives what others appended, and says whether there was any."""
        has_come = False
        while True:
            batch = self.chain.read()
            if batch is None:
                return has_come
            if (batch.first, batch.before) != (self.next, self.token):
                sys.exit("the batch at offset %d doesn't follow" % batch.first)
            self.give(b"batch\n" + batch.lines + b"\n")
            self.next, self.token, has_come = batch.next, batch.token, True

    def look(self):
        with self.chain.alone():
            self.take()
            for batch, when in self.late:
                if time.monotonic() > when and batch.before == self.token:
                    self.chain.write(batch)
                    self.take()
            self.late = [(batch, when) for batch, when in self.late if batch.before == self.token]

    def answer(self, lines):
        self.asked += 1
        if not lines:
            with self.chain.alone():
                return b"behind\n" if self.take() else b"kept\n"
        first = int(lines[0].split(b"\t")[0])
        batch = Batch(first, first + len(lines), b"%s-%d" % (self.run.encode(), self.asked), self.token, b"".join(lines))
        with self.chain.alone():
            self.take()
            if batch.before != self.token or batch.first != self.next:
                return b"behind\n"
            if self.chance.random() < self.faults:
                return self.fail(batch)
            self.chain.write(batch)
            self.chain.read()
            self.next, self.token = batch.next, batch.token
            return b"kept\n"

    def fail(self, batch):
        fate = self.chance.choice(("declined", "never", "stands", "late"))
        if fate == "stands":
            self.chain.write(batch)         # given as a batch by the next look
        if fate == "late":
            self.late.append((batch, time.monotonic() + LATE))
        return b"declined\n" if fate == "declined" else b"lost\n"


def init(path, text):
    with open(path, "wb"):
        pass
    offsets = [int(line.split(b"\t")[0]) for line in text.splitlines()]
    chain = Chain(path)
    chain.write(Batch(0, offsets[-1] + 1 if offsets else 0, secrets.token_hex(8).encode(), b"-", text))


def batches(path):
    """The lines of the base, and of each batch behind it."""
    chain, found = Chain(path), []
    with chain.alone():
        while True:
            batch = chain.read()
            if batch is None:
                return found[0], found[1:]
            found.append(batch.lines.decode().splitlines(keepends=True))


def main():
    words = sys.argv[1:]
    behind = words.index("--") if "--" in words else len(words)
    parser = argparse.ArgumentParser(description=__doc__, formatter_class=argparse.RawDescriptionHelpFormatter)
    parser.add_argument("--faults", type=float, default=0, metavar="PART")
    parser.add_argument("file", metavar="FILE")
    parser.add_argument("do", choices=["init", "serve"])
    options = parser.parse_args(words[:behind])
    if options.do == "init":
        return init(options.file, sys.stdin.buffer.read())
    return Adapter(options.file, words[behind + 1:], options.faults).serve()


if __name__ == "__main__":
    sys.exit(main())
