"""A case of rebases that meet faults."""
import os
import signal
import subprocess
import sys

from beside_writers import Joined, equal_values
from pace import slow
from seats import HERE, expect
from stores import wait_for
from trial import case


class Rebases:
    """Rebases of a log by a registry of it, which meet faults."""

    def __init__(self, trial, kind):
        self.trial, self.kind, self.log = trial, kind, trial.new_log(kind)
        self.joined = Joined(trial, self.log)
        self.words = [os.path.join(trial.adapters, self.log.words[0]), *self.log.words[1:], "--patience", "%d" % slow(60), "rebase", "--registry",
                      "http://127.0.0.1:%d" % self.joined.port, "--", sys.executable, os.path.join(HERE, "stand_in.py"), "--compact", "{}"]
        equal_values([self.joined])
        for subject, schema in (("s", '"int"'), ("s", '"long"'), ("t", '"int"')):
            expect(self.joined.ask("POST", "/subjects/%s/versions" % subject, {"schema": schema})[0] == 200, self.joined.said())
        self.values = [pair for pair in equal_values([self.joined]) if '"SCHEMA"' in pair[0]]

    def run(self, mode, number=0):
        """The status of a rebase, and what it says."""
        words = [sys.executable, os.path.join(HERE, "faulty.py"), mode, str(number), *self.words]
        done = subprocess.run(words, stdout=subprocess.DEVNULL, stderr=subprocess.PIPE, check=False, timeout=slow(120))
        return done.returncode, done.stderr.decode()

    def check(self):
        """Nothing is left behind, and nothing is lost."""
        subjects = self.joined.ask("GET", "/subjects")[1]
        expect(subjects == ["s", "t"], "left behind:", subjects)
        expect(self.bases() <= 2, "pieces of", self.bases(), "bases: more than of the last one and the one before it")
        kept = [pair for pair in equal_values([self.joined]) if '"SCHEMA"' in pair[0]]
        expect(kept == self.values, kept, self.values)

    def bases(self):
        """Of how many bases the store has pieces."""
        if self.kind == "postgres":
            return int(self.trial.store("postgres").sql("SELECT count(DISTINCT base) FROM %s.registry_piece" % self.log.name))
        return len({name.split("/")[-2] for name in self.trial.store("etcd").names(self.log.name + "/piece/")})


@case("etcd", "postgres")
def faulty_rebases(trial, kind):
    """A rebase is killed behind each of its requests, and a second one finishes it; and one goes on where every third request has no answer,
    whether it was done or not, or the registry refuses it for a moment."""
    rebases = Rebases(trial, kind)
    status, said = rebases.run("killed", 10000)
    expect(status == 0, status, said)
    for mode in ("refused", "unanswered", "undone") if kind == "etcd" else ("refused",):
        status, said = rebases.run(mode)
        expect(status == 0, mode, status, said)
        rebases.check()
    number, status = 0, -signal.SIGKILL
    while status == -signal.SIGKILL:
        number += 1
        status, said = rebases.run("killed", number)
        again = rebases.run("killed", 10000) if status else (0, "")
        expect(status in (0, -signal.SIGKILL) and again[0] == 0, "killed behind request", number, status, said, again)
        if status:
            rebases.check()
    wait_for(lambda: rebases.joined.starts == 1, 1, "the process never ended")
    expect(number > 10, "requests", number)
    return "killed behind %d requests" % (number - 1)
