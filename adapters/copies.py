"""A copy of what an adapter gave its process, in a file: with it the next start needn't read the log from the store. It is a hint alone:
what of it is the beginning of the store's log is asked of the store, and nothing is served before that.

Lines of the file, each with its LF:
    copy RULES NEXT TOKEN SIZE DIGEST       the base: the offset behind it, the token of what stands there, and how many bytes follow
    batch FIRST NEXT TOKEN SIZE DIGEST      a batch: the same; it follows what stands before it
Behind each stand so many bytes: the lines of the base, or of the batch. DIGEST is of the words before it, those bytes, and the DIGEST before,
so what was cut out or changed is noticed."""
import collections
import contextlib
import fcntl
import hashlib
import os
import threading

from faults import Broken
from logs import check_base, fault_in

SYNCED = 10             # seconds between two syncs
LONGEST = 1000          # bytes of a line before its LF

# rules, next, token: of the base; text: its lines; batches: for each its offset, the one behind it, its token, and its lines.
Content = collections.namedtuple("Content", "rules next token text batches")


class Copy:
    """The file, which one adapter has at a time. Where it can't be written, that is told once, and no more is written to it."""

    def __init__(self, path, say):
        self.path, self.say, self.file = path, say, None
        self.last = b""                     # the last part's digest
        self.is_behind = False              # something was written since the last sync

    # What it has

    def open(self):
        """What the file has, and none where there is nothing in it that can be used. From then on no other adapter has the file."""
        try:
            self.file = open(self.path, "r+b" if os.path.exists(self.path) else "x+b", buffering=0, opener=self.private)
            fcntl.flock(self.file, fcntl.LOCK_EX | fcntl.LOCK_NB)
            with open(self.path, "rb") as file:
                content, good, size = self.read(file)
                file.seek(0)
                if size and not file.read(LONGEST).startswith(b"copy "):
                    raise ValueError("it is something else")
            if good < size:
                self.say("copy %s: %d bytes at its end are cut or changed, and were dropped" % (self.path, size - good))
            self.file.truncate(good)
            self.file.seek(good)
        except (OSError, ValueError) as fault:
            self.fail(fault)
            return None
        threading.Thread(target=self.sync_on, daemon=True).start()
        return content

    @staticmethod
    def private(path, flags):
        return os.open(path, flags, 0o600)

    def read(self, file):
        """What stands there up to the first part that is cut or changed, how many bytes that is, and how many there are."""
        content, good = None, 0
        while True:
            words, data = read_part(file, self.last)
            following = words and content_with(content, words, data)
            if not following:
                return content, good, os.fstat(file.fileno()).st_size
            content, good, self.last = following, file.tell(), words[5]

    # What is written

    def start(self, base):
        """Begins anew, with this base."""
        self.cut()
        self.add_part(b"copy %d %d %s" % (base.rules, base.next, base.token.encode()), b"".join(base.pieces))

    def add(self, batch):
        self.add_part(b"batch %d %d %s" % (batch.first, batch.next, batch.token.encode()), batch.lines)

    def add_part(self, words, data):
        if self.file is None:
            return
        words += b" %d" % len(data)
        self.last = digest_of(words, data, self.last)
        text = b"%s %s\n%s" % (words, self.last, data)
        try:
            while text:
                text = text[self.file.write(text):]
            self.is_behind = True
        except OSError as fault:
            self.fail(fault)

    def cut(self):
        """Empties it."""
        self.last = b""
        if self.file is not None:
            try:
                self.file.truncate(0)
                self.file.seek(0)
            except OSError as fault:
                self.fail(fault)

    def put_aside(self):
        """Puts it aside for a person to look at, so that the next start is one without it."""
        with contextlib.suppress(OSError):
            os.replace(self.path, self.path + ".aside")
            self.say("copy %s was put aside, to %s.aside: it isn't the beginning of the store's log" % (self.path, self.path))
        self.file = None

    def sync_on(self):
        ended = threading.Event()
        while not ended.wait(SYNCED):
            file, was_behind, self.is_behind = self.file, self.is_behind, False
            if file is None:
                return
            if was_behind:
                try:
                    os.fsync(file.fileno())
                except OSError as fault:
                    self.fail(fault)

    def fail(self, fault):
        why = "another adapter has it" if isinstance(fault, BlockingIOError) else fault
        self.say("copy %s isn't used: %s" % (self.path, why))
        self.file = None


def digest_of(words, data, before):
    return hashlib.sha256(b"%s %s\n%s" % (before, words, data)).hexdigest()[:32].encode()


def read_part(file, before):
    """The next line's words and the bytes behind it, and none where they are cut or changed."""
    line = file.readline(LONGEST)
    words = line.split()
    if not line.endswith(b"\n") or len(words) != 6 or not words[4].isdigit():
        return None, b""
    data = file.read(int(words[4]))
    is_right = len(data) == int(words[4]) and digest_of(b" ".join(words[:5]), data, before) == words[5]
    return (words if is_right else None), data


def content_with(content, words, data):
    """What the file has with this part behind it, and none where the part doesn't follow."""
    try:
        kind, first, following, token = words[0], int(words[1]), int(words[2]), words[3].decode()
        if content is None and kind == b"copy":
            check_base([data], following)
            return Content(first, following, token, data, [])
        end = content.batches[-1][1] if content.batches else content.next
        if kind == b"batch" and first == end and fault_in(data, first, following) is None:
            content.batches.append((first, following, token, data))
            return content
    except (AttributeError, TypeError, ValueError, Broken):
        pass
    return None
