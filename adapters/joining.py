"""What every adapter does, whichever its store: it starts a registry process, gives it the log, and carries its requests to the
store until it is known what became of them. PROTOCOL.md says the rules; a store's own program says how it appends and reads."""
import collections
import contextlib
import fcntl
import queue
import secrets
import subprocess
import sys
import threading
import time

from faults import Anew, Broken, Declined, NotDone, Unreachable
from logs import check_base, fault_in

# first: the offset of its first line; next: the one behind its last; token: no other request has it; before: the token of what it
# follows; lines: bytes, each line with its LF.
Batch = collections.namedtuple("Batch", "first next token before lines")
# next: the offset behind the base; token: what the first batch follows; rules: the number of the rules of the log; pieces: its bytes.
Base = collections.namedtuple("Base", "next token rules pieces")

KEPT, BEHIND, DECLINED, LOST = b"kept\n", b"behind\n", b"declined\n", b"lost\n"
PAUSE = 0.05            # seconds between two tries of one request
AHEAD = 1 << 20         # bytes that wait in the pipe to the process: it decides them while the store is asked for more
F_SETPIPE_SZ = 1031     # Linux; the module has it from Python 3.10 on
NOBODYS = b'batch\n%d\t{"keytype":"NOT_A_LINE","magic":0}\tnull\n\n'    # given in place of a batch that isn't lines
REMEMBERED = 100        # how many answers to appends say whether this process is overtaken often
TOLD = 1000             # the tokens of so many batches are known to be no news


def say(text):
    print(text, file=sys.stderr, flush=True)


class Store:
    """What an adapter needs of a store. Each call may raise any of the exceptions above."""

    is_all = False          # the last read gave all that was there at one moment since it began, and nothing stood behind that

    def begin(self):
        """The base."""
        raise NotImplementedError

    def read(self, at, token):
        """The first batches from offset `at` on, in order, and none where nothing is there. What was acknowledged to anybody before the
        call is among them. Broken, where the batch or base with this token doesn't end right before `at` any more."""
        raise NotImplementedError

    def append(self, batch):
        """Whether this call made the batch the last. False: something else stands where it belongs, or an earlier try of it does."""
        raise NotImplementedError

    def append_or_read(self, batch):
        """None, where this call made the batch the last; else what stands from its place on, read since."""
        return None if self.append(batch) else self.read(batch.first, batch.before)

    def watch(self, wake):
        """Has `wake` called, from a thread of its own, soon after somebody appended, with the token where it is known. Nothing rests on
        that."""
        raise NotImplementedError

    def init(self, log, rules):
        """Puts a log (of logs.py) in as the base, where there is none."""
        raise NotImplementedError

    def rebase(self, log):
        """Puts a log in place of the base and of the batches below its next offset, where one of them ends right before that."""
        raise NotImplementedError

    def trim(self):
        """Drops what the base stands for, and says how many pieces that were."""
        raise NotImplementedError


def follow(store, base):
    """The batches behind the base, each checked to follow the one before it, up to where there are no more."""
    at, token = base.next, base.token
    while True:
        batches = store.read(at, token)
        if not batches:
            return
        for batch in batches:
            if (batch.first, batch.before) != (at, token):
                raise Broken("the batch at offset %d doesn't follow the one before it" % batch.first)
            fault = fault_in(batch.lines, batch.first, batch.next)
            if fault:
                raise Broken("the batch at offset %d isn't a log's: %s" % (at, fault))
            yield batch
            at, token = batch.next, batch.token


class Process:
    """The registry process: what is given to it, and the requests that it makes."""

    def __init__(self, command, events):
        self.events, self.has_ended, self.is_asking = events, False, False      # is_asking: a request is among the events
        try:
            self.child = subprocess.Popen(command, stdin=subprocess.PIPE, stdout=subprocess.PIPE)
        except OSError as fault:
            raise Broken("the process doesn't start: %s" % fault)
        with contextlib.suppress(OSError):
            fcntl.fcntl(self.child.stdin, F_SETPIPE_SZ, AHEAD)
        threading.Thread(target=self.listen, daemon=True).start()

    def listen(self):
        """Takes its requests in all the time, so that neither side waits for the other one to read."""
        lines = []
        for line in self.child.stdout:
            if line == b"\n":
                self.is_asking = True
                self.events.put(lines)
                lines = []
            else:
                lines.append(line)
        self.has_ended = True
        self.events.put(None)

    def give(self, data):
        try:
            self.child.stdin.write(data)
            self.child.stdin.flush()
        except BrokenPipeError:
            self.has_ended = True

    def end(self):
        """Ends its input, upon which it ends by itself, and gives its status."""
        try:
            self.child.stdin.close()
        except BrokenPipeError:
            pass
        try:
            return self.child.wait(timeout=10)
        except subprocess.TimeoutExpired:
            self.child.kill()
            return self.child.wait()


def rules_of(command):
    """The number of the rules that the process follows, as it prints it."""
    try:
        done = subprocess.run(command + ["--rules"], stdin=subprocess.DEVNULL, stdout=subprocess.PIPE, timeout=60)
    except OSError as fault:
        raise Broken("the process doesn't say its rules: %s" % fault)
    except subprocess.TimeoutExpired:
        raise Anew("the process doesn't say its rules")
    if done.returncode < 0:
        raise Anew("the process was killed while it was asked for its rules")
    text = done.stdout.strip()
    if done.returncode != 0 or not text.isdigit():
        raise Broken("%s --rules doesn't print a number" % " ".join(command))
    return int(text)


class Outdated(Exception):
    """The store's base has gone past the copy that the process was given."""


class Adapter:
    """One process and the store, from the base on. `copy` (of copies.py) takes what it is given, where there is one."""

    def __init__(self, store, command, patience, poll, copy=None):
        self.store, self.command, self.patience, self.poll, self.copy = store, command, patience, poll, copy
        self.run, self.asked = secrets.token_hex(8), 0      # no two runs have one name, so no two requests have one token
        self.events = queue.SimpleQueue()                   # requests, "news", and None once the process has ended
        self.has_news = threading.Event()                   # "news" is among the events
        self.hints = collections.deque()                    # the tokens that were hinted at since the last look at them
        self.told = collections.deque(maxlen=TOLD)          # the tokens of what was given or kept, the last one first
        self.looked = 0                                     # when the store was asked last
        self.is_down = False                                # the last thing that was tried found no store
        self.is_over = False                                # a batch isn't lines: nothing is given behind it, or taken
        self.overtaken = collections.deque(maxlen=REMEMBERED)
        self.is_often_overtaken = False

    # From the beginning to the end

    def serve(self):
        """Serves the process until that ends, and gives the status to end with."""
        rules = rules_of(self.command)
        content = self.copy and self.copy.open()
        try:
            if content and content.rules == rules:
                return self.serve_from(Base(content.next, content.token, rules, [content.text]), content.batches)
        except Outdated:
            pass
        return self.serve_from(self.base_of(rules))

    def base_of(self, rules):
        """The store's base, where it is of these rules."""
        base = self.insist(self.store.begin)
        if rules != base.rules:
            raise Broken("this log is of rules %d, and the process has rules %d: processes of other rules may not write to it. Go on with "
                         "the program that was there, or move the log to a new place (README.md, Upgrades)" % (base.rules, rules))
        check_base(base.pieces, base.next)
        if self.copy:
            self.copy.start(base)
        return base

    def serve_from(self, base, copied=None):
        """Serves a process from this base on, and from these batches behind it, if they are a copy's."""
        self.next, self.tail, self.events = base.next, base.token, queue.SimpleQueue()
        self.process = Process(self.command, self.events)
        try:
            self.begin(base, copied)
            while not self.process.has_ended:
                self.turn()
        except Outdated:
            self.process.child.kill()
            raise
        finally:
            status = self.process.end()
        say("the process ended, with status %d" % status)
        return 2 if status == 2 else 1

    def begin(self, base, copied):
        for piece in base.pieces:
            self.process.give(piece)
        self.process.give(b"\n")
        for _, following, token, lines in copied or ():
            self.process.give(b"batch\n" + lines + b"\n")
            self.next, self.tail = following, token
        try:
            self.insist(self.catch_up)
        except (Anew, Broken) as fault:
            if copied is not None:
                self.give_up_copy(fault)
            raise
        self.process.give(b"ready\n")
        if not self.process.has_ended:
            say("joined as %s at offset %d" % (self.run, self.next))
            self.store.watch(self.wake)

    def give_up_copy(self, fault):
        """What the process was given isn't the beginning of the store's log, or the store doesn't have what follows it."""
        if isinstance(fault, Anew):
            raise Outdated()
        self.copy.put_aside()

    def insist(self, do):
        """Does it, however long the store isn't there."""
        while True:
            try:
                return do()
            except Unreachable as fault:
                self.lose_sight(fault)
                time.sleep(0.5)

    def turn(self):
        """One request, then a look for news, unless another request waits, which finds out as well. Hints of what is no news don't put off
        the look without one."""
        try:
            event = self.events.get(timeout=max(0, self.looked + self.poll - time.monotonic()))
        except queue.Empty:
            event = "news"
        if isinstance(event, list):
            self.process.is_asking = False
            self.process.give(self.append(event) if event else self.check())
            self.looked = time.monotonic()
        if not self.process.is_asking and (self.is_hinted() or time.monotonic() >= self.looked + self.poll):
            self.check()
            self.looked = time.monotonic()

    def wake(self, token=""):
        """Somebody may have appended: a hint, from any thread, with the token where it is known."""
        self.hints.append(token)
        if not self.has_news.is_set():
            self.has_news.set()
            self.events.put("news")

    def is_hinted(self):
        """Whether a hint since the last look was of anything but what was told: what this run appended, or took in by a read, is no news."""
        self.has_news.clear()
        is_news = False
        while self.hints:
            is_news = self.hints.popleft() not in self.told or is_news
        return is_news

    # The log, in its order

    def stands(self, batch):
        if (batch.first, batch.before) != (self.next, self.tail):
            raise Broken("the store's log isn't the one that was given, from offset %d on" % self.next)
        self.next, self.tail = batch.next, batch.token
        self.told.appendleft(batch.token)
        if self.copy:
            self.copy.add(batch)

    def take(self, batches):
        for batch in batches:
            fault = fault_in(batch.lines, batch.first, batch.next)
            if fault:
                say("batch at offset %d isn't a log's: %s. A person has to look" % (self.next, fault))
                self.process.give(NOBODYS % self.next)
                self.is_over = True
                return
            self.stands(batch)
            self.process.give(b"batch\n" + batch.lines + b"\n")

    def read(self):
        if self.is_over:
            return []
        try:
            return self.store.read(self.next, self.tail)
        except Declined as fault:
            raise Unreachable("it can't be read: %s" % fault)

    def catch_up(self):
        """Gives what stands behind what was given, and says whether there was anything."""
        has_come = False
        while not self.process.has_ended:
            batches = self.read()
            if self.is_down:
                self.is_down = False
                say("store reached, at offset %d" % self.next)
            if batches:
                self.take(batches)
                has_come = True
            if not batches or self.store.is_all:
                break
        return has_come

    def lose_sight(self, fault):
        if not self.is_down:
            self.is_down = True
            say("store unreachable: %s" % fault)

    # Requests

    def check(self):
        try:
            return BEHIND if self.catch_up() else DECLINED if self.is_over else KEPT
        except Unreachable as fault:
            self.lose_sight(fault)
            return DECLINED

    def append(self, lines):
        if self.is_over:
            return DECLINED
        batch = self.batch_of(lines)
        if batch.first > self.next:
            raise Broken("the process asks for offset %d, and was given the log up to %d" % (batch.first, self.next))
        answer = BEHIND if batch.first < self.next else self.look_before() or self.settle(batch)
        self.count(answer)
        return answer

    def look_before(self):
        """The answer to an append that would be in vain: somebody else's batch was hinted at, or the store isn't there."""
        was_down = self.is_down
        answer = self.check() if was_down or self.is_hinted() else KEPT
        return answer if answer == BEHIND or (answer == DECLINED and was_down) else b""

    def batch_of(self, lines):
        offsets = [line.split(b"\t", 1)[0] for line in lines]
        if not offsets[0].isdigit() or offsets != [b"%d" % (int(offsets[0]) + place) for place in range(len(lines))]:
            raise Broken("the process asks for a batch whose offsets don't follow each other")
        self.asked += 1
        token = "%s-%d" % (self.run, self.asked)
        return Batch(int(offsets[0]), int(offsets[-1]) + 1, token, self.tail, b"".join(lines))

    def settle(self, batch):
        """Tries the same request, under the same token, until it is known what became of it, or patience ends."""
        deadline = time.monotonic() + self.patience
        self.may_stand = False              # a try may have been done, or may be done yet
        while not self.process.has_ended:
            try:
                answer, cause = self.attempt(batch)
                if answer:
                    return answer
            except Unreachable as fault:
                cause = fault
            if time.monotonic() >= deadline:
                self.lose_sight(cause)
                return self.give_up(batch, cause)
            time.sleep(PAUSE)
        return b""

    def attempt(self, batch):
        """One try: an answer where it gives one, and why the store declined."""
        was_tried, self.may_stand = self.may_stand, True
        try:
            batches, cause = self.store.append_or_read(batch), None
        except NotDone:
            self.may_stand = was_tried
            raise
        except Declined as fault:           # a store may say so of what it did do: so it is looked for
            batches, cause = self.read(), fault
        if batches is None:
            self.stands(batch)
            return KEPT, None
        if batches and batches[0].token == batch.token:         # an earlier try of this very request
            self.stands(batch)
            self.wake()
            return KEPT, None
        if batches:
            self.take(batches)
            return BEHIND, None
        if cause is None:
            cause = "the store refuses it, and has nothing there"
        if was_tried:                       # that try may be done yet
            return None, cause
        say("batch at offset %d declined: %s" % (batch.first, cause))
        return DECLINED, cause

    def give_up(self, batch, cause):
        if not self.may_stand:
            return DECLINED
        say("batch at offset %d lost, it may come to stand: %s" % (batch.first, cause))
        return LOST

    def count(self, answer):
        """Says where this process begins, or ends, to be overtaken often."""
        if answer in (KEPT, BEHIND):
            self.overtaken.append(answer == BEHIND)
        share = sum(self.overtaken) / REMEMBERED
        if len(self.overtaken) == REMEMBERED and (share > 0.75 or share < 0.5):
            if self.is_often_overtaken != (share > 0.75):
                self.is_often_overtaken = not self.is_often_overtaken
                say("%s: %d of the last %d tries to append came too late"
                    % ("overtaken often" if self.is_often_overtaken else "no longer overtaken often", sum(self.overtaken), REMEMBERED))
