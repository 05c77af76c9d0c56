"""What a case works with: a folder, stores that run, and logs in them."""
import contextlib
import os
import shutil
import subprocess
import sys
import tempfile

from pace import look, slow
from seats import HERE, Seat, agree, expect, whole
from stores import Brokers, Etcd, Postgres, wait_for

CASES = {}


def case(*kinds):
    """A function that is a case, for each of these stores."""
    def keep(function):
        for kind in kinds:
            CASES["%s:%s" % (kind, function.__name__)] = (function, kind)
        return function
    return keep


class Trial:
    """Ends what was begun in it, in the opposite order. `adapters` is the folder of the programs that are tried."""

    def __init__(self, folder, adapters, stores=None):
        self.folder, self.adapters, self.stack, self.made = folder, adapters, contextlib.ExitStack(), 0
        self.stores = {} if stores is None else stores

    def __enter__(self):
        return self

    def __exit__(self, *fault):
        self.stack.close()

    def later(self, do):
        self.stack.callback(do)

    def new_folder(self, name):
        path = tempfile.mkdtemp(prefix=name + "-", dir=self.folder)
        os.chmod(path, 0o755)
        self.later(lambda: shutil.rmtree(path, ignore_errors=True))
        return path

    def part(self, adapters=None):
        """A trial within this one, over the same stores."""
        look()
        return Trial(self.new_folder("case"), adapters or self.adapters, self.stores)

    def store(self, kind):
        """The store of that kind that cases share."""
        if kind not in self.stores:
            outer = self.stores["trial"]
            self.stores[kind] = {"etcd": Etcd, "postgres": Postgres, "kafka": Brokers}[kind](outer)
        return self.stores[kind]

    def new_log(self, kind, text=b"", store=None):
        """A new log in a store, which begins with that text."""
        self.stores["count"] = self.stores.get("count", 0) + 1
        name = "log%d" % self.stores["count"]
        store = store or self.store(kind)
        if kind == "etcd":                  # the case before may have left it without a leader
            wait_for(lambda: store.put("ready", b""), 60, "etcd")
        if kind == "postgres":
            store.sql("CREATE SCHEMA %s" % name)
        if kind == "kafka":
            store.new_topic(name)
        log = Log(self, store.words(name), name)
        log.run("init", *([] if text else ["--empty"]), text=text and whole(text), command=rules_command(1))
        return log


def rules_command(rules):
    return [sys.executable, os.path.join(HERE, "puppet.py"), "-", str(rules)]


class Log:
    """A log in a store: the words with which an adapter gets at it."""

    def __init__(self, trial, words, name):
        self.trial, self.words, self.name = trial, words, name

    def run(self, do, *more, text=b"", command=(), status=0):
        """Runs an adapter to its end, and gives what it wrote to both outputs."""
        words = [os.path.join(self.trial.adapters, self.words[0]), *self.words[1:], *(["--patience", "1"] if status == 1 else []),
                 do, *more, *(["--", *command] if command else [])]
        done = subprocess.run(words, input=text, stdout=subprocess.PIPE, stderr=subprocess.PIPE, check=False, timeout=slow(120))
        expect(done.returncode == status, do, "status", done.returncode, "in place of", status, done.stderr.decode()[-2000:])
        return done.stdout, done.stderr.decode()

    def seat(self, words=None, **more):
        return Seat(self.trial, words or self.words, **more)

    def seats(self, count, **more):
        seats = [self.seat(**more) for _ in range(count)]
        for seat in seats:
            seat.ready()
        return seats

    def agree(self, seats):
        """All that seats were told holds of the log; gives how many lines that has."""
        return agree(seats, self.run("dump")[0])
