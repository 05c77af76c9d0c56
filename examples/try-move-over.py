#!/usr/bin/env python3
"""Moves a registry of another maker over to `registrylog keep` and back, while a client writes: try-move-over.py REGISTRYLOG [VERSIONS]

That registry has so many versions before (150). Each step is a command, which is printed, and a check that has to print `equal`. The
commands are the recipe; OLD, NEW and READS are URLs. Reads move first, to a follower of the topic `_schemas`. Writes stand still while
what came since an earlier dump is dumped, and `keep` starts. Back, they stand still while `copy-registry` brings the rest. At the end each
id that was ever acknowledged has its schema.

The registry of the other maker is the stand-in of tools/other_registry.py, and so is `kcat`. It writes into a new folder for temporary
files, listens on free ports of 127.0.0.1, and ends by itself; the status is 1 if anything isn't as it should be."""
import contextlib
import json
import os
import signal
import socket
import subprocess
import sys
import tempfile
import threading
import time
import urllib.error
import urllib.request

TOP = os.path.dirname(os.path.dirname(os.path.realpath(__file__)))
sys.path.append(os.path.join(TOP, "tools"))
sys.dont_write_bytecode = True

from other_registry import OtherRegistry

JSON = "-H 'Content-Type: application/json'"
EVERY = 2          # seconds between two writes
RARELY = 60        # the same, once checks have found again and again that something was written meanwhile
AGAIN = 0.1        # seconds before a write that was refused is sent again
PATIENCE = 120     # seconds for a check to print `equal`


class Wrong(Exception):
    """Something isn't as it should be."""


class TopicRegistry(OtherRegistry):
    """The other registry, with its records in a topic."""

    def __init__(self, path):
        self.path, self.offset = path, 0
        open(path, "w", encoding="utf-8").close()
        super().__init__()

    def write(self, kind, value, subject, **more):
        key = {"keytype": kind, "subject": subject, **more}
        with open(self.path, "a", encoding="utf-8") as file:
            file.write(json.dumps([self.offset, json.dumps(key), None if value is None else json.dumps(value)]) + "\n")
        self.offset += 1

    def write_version(self, subject, number):
        entry = self.subjects.get(subject, {}).get(number)
        value = entry and {"subject": subject, "version": number, "id": entry.id, "schema": entry.schema, "deleted": entry.deleted}
        self.write("SCHEMA", value, subject, version=number, magic=1)

    def register(self, query, body, subject):
        answer = super().register(query, body, subject)
        self.write_version(subject, answer["version"])
        return answer

    def delete_version(self, query, subject, number):
        answer = super().delete_version(query, subject, number)
        self.write_version(subject, int(number))
        return answer

    def set_level(self, query, body, subject=None):
        self.write("CONFIG", {"compatibilityLevel": body["compatibility"]}, subject, magic=0)
        return super().set_level(query, body, subject)

    def set_mode(self, query, body, subject=None):
        answer = super().set_mode(query, body, subject)
        self.write("MODE", {"mode": body["mode"]}, subject, magic=0)
        return answer

    def clear_mode(self, query, subject):
        self.write("MODE", None, subject, magic=0)
        return super().clear_mode(query, subject)


class Writer(threading.Thread):
    """A client that registers a new schema now and then, and asks again if it is refused."""

    def __init__(self, url):
        super().__init__(daemon=True)
        self.url, self.ids, self.faults, self.ended = url, {}, [], threading.Event()
        self.written = self.refused = self.next = 0
        self.last = None   # the answer to a write that was refused
        self.every = EVERY

    def run(self):
        while not self.ended.wait(AGAIN):
            if time.monotonic() < self.next:
                continue
            schema = json.dumps({"name": f"written_{self.written}", "size": 1, "type": "fixed"})
            status, body = ask(self.url + f"/subjects/written-{self.written}/versions", {"schema": schema})
            if status == 200:
                if self.ids.setdefault(body["id"], schema) != schema:
                    self.faults.append(f"the id {body['id']} was given twice")
                self.written += 1
                self.next = time.monotonic() + self.every
            else:
                self.refused, self.last = self.refused + 1, (status, body)


def ask(url, body=None):
    """The status and the body of an answer; 0 if none came."""
    data = None if body is None else json.dumps(body).encode()
    request = urllib.request.Request(url, data, {"Content-Type": "application/json"} if data else {})
    try:
        with OPENER.open(request, timeout=30) as response:
            return response.status, json.load(response)
    except urllib.error.HTTPError as fault:
        return fault.code, fault.read()
    except OSError:
        return 0, None


OPENER = urllib.request.build_opener(urllib.request.ProxyHandler({}))


def free_port():
    with socket.socket() as one:
        one.bind(("127.0.0.1", 0))
        return one.getsockname()[1]


class Shell:
    """Runs the commands of the recipe in a folder of their own."""

    def __init__(self, folder, registrylog, stack, writer, **names):
        self.folder, self.stack, self.writer = folder, stack, writer
        os.makedirs(os.path.join(folder, "bin"))
        for name, path in (("kcat", os.path.join(TOP, "tools", "stand-in-kcat")), ("registrylog", os.path.abspath(registrylog)),
                           ("tools", os.path.join(TOP, "tools"))):
            os.symlink(path, os.path.join(folder, *(() if name == "tools" else ("bin",)), name))
        path = f"{os.path.join(folder, 'bin')}:{os.environ['PATH']}"
        self.environment = {**os.environ, **names, "PATH": path, "NO_PROXY": "127.0.0.1", "STAND_IN_RECORDS": os.path.join(folder, "records")}

    def run(self, command, statuses=(0,)):
        """Prints a command, runs it, and returns what it printed."""
        print(f"$ {command}", flush=True)
        done = subprocess.run(["bash", "-o", "pipefail", "-c", command], cwd=self.folder, env=self.environment, capture_output=True, text=True)
        if done.returncode not in statuses:
            raise Wrong(f"status {done.returncode}: {done.stdout[-1000:]} {done.stderr[-1000:]}")
        return done.stdout

    def start(self, command):
        """The same in the background, until the end of the trial."""
        print(f"$ {command} &", flush=True)
        with open(os.path.join(self.folder, "errors"), "a", encoding="utf-8") as errors:
            process = subprocess.Popen(["bash", "-c", command], cwd=self.folder, env=self.environment, start_new_session=True,
                                       stdout=subprocess.DEVNULL, stderr=errors)
        self.stack.callback(end, process)

    def is_equal(self, command):
        """A check, which is repeated until it prints `equal`, as a follower may be behind."""
        until = time.monotonic() + PATIENCE
        while True:
            output = self.run(command, statuses=(0, 1, 3))
            last = output.splitlines()[-1] if output else ""
            if last.startswith("equal: "):
                print(last, flush=True)
                return
            if time.monotonic() > until:
                raise Wrong(f"not equal: {output[-2000:]}")
            self.writer.every = min(RARELY, 2 * self.writer.every)
            time.sleep(0.5)


def end(process):
    with contextlib.suppress(ProcessLookupError):
        os.killpg(process.pid, signal.SIGKILL)
    process.wait()


def mode(shell, place, name):
    shell.run(f"curl -sS -f -X PUT {JSON} -d '{{\"mode\":\"{name}\"}}' ${place}/mode")


def register_last(shell, place):
    """A new schema: its id is above all that were given, also to what is deleted since."""
    text = '{\\"name\\":\\"last_' + place + '\\",\\"size\\":1,\\"type\\":\\"fixed\\"}'
    return json.loads(shell.run(f"curl -sS -f {JSON} -d '{{\"schema\":\"{text}\"}}' ${place}/subjects/last-{place}/versions"))["id"]


def go_on(what, writer, url, since):
    """The client writes to another registry from now on, and does."""
    print(f"{what}: writes stood still for {time.monotonic() - since:.1f} s", flush=True)
    writer.url, writer.every, writer.next = url, EVERY, 0
    before, until = writer.written, time.monotonic() + PATIENCE
    while writer.written < before + 2:
        if time.monotonic() > until:
            raise Wrong(f"the client can't write: {writer.last}")
        time.sleep(0.1)


def move_over(shell, writer, new):
    shell.run("tools/dump-topic BROKER > first")
    shell.start("tools/dump-topic --follow BROKER | registrylog follow --listen ${READS#http://}")
    shell.is_equal("tools/registry-diff --quiet $OLD $READS")
    register_last(shell, "OLD")
    since = time.monotonic()
    mode(shell, "OLD", "READONLY")
    shell.run("next=$(registrylog check --quiet first | sed -n 's/^next offset: //p'); tools/dump-topic --from $next BROKER > since")
    shell.run("head -n -1 first | cat - since > registry.log; registrylog check --quiet registry.log")
    shell.start("registrylog keep --listen ${NEW#http://} registry.log")
    shell.is_equal("tools/registry-diff --quiet $OLD $NEW")
    mode(shell, "NEW", "READWRITE")
    go_on("over", writer, new, since)
    shell.start("registrylog tail registry.log | registrylog follow --listen ${READS_OF_NEW#http://}")
    shell.is_equal("tools/registry-diff --quiet $NEW $READS_OF_NEW")


def move_back(shell, writer, old):
    shell.run("tools/copy-registry --quiet --end-mode READONLY $NEW $OLD", statuses=(0, 1))
    greatest = register_last(shell, "NEW")
    since = time.monotonic()
    mode(shell, "NEW", "READONLY")
    shell.is_equal(f"tools/copy-registry --quiet --mark {greatest} --end-mode READWRITE $NEW $OLD")
    go_on("back", writer, old, since)


def check_ids(writer, url):
    """Each id that was acknowledged has its schema."""
    for number, schema in writer.ids.items():
        status, body = ask(f"{url}/schemas/ids/{number}")
        if status != 200 or json.loads(body["schema"]) != json.loads(schema):
            raise Wrong(f"id {number}: {status} {body} in place of {schema}")
    if writer.faults:
        raise Wrong("; ".join(writer.faults))
    print(f"{writer.written} writes, {writer.refused} refused meanwhile, and each id has its schema", flush=True)


def fill(old, count):
    """Versions, so many, levels and deletes that are there before."""
    for number in range(count):
        ask(f"{old.url}/subjects/there-{number % 40}/versions", {"schema": json.dumps({"name": f"there_{number}", "size": 2, "type": "fixed"})})
    for method, path, body in (("PUT", "/config/there-1", {"compatibility": "NONE"}), ("DELETE", "/subjects/there-2", None),
                               ("DELETE", "/subjects/there-3/versions/2", None), ("DELETE", "/subjects/there-3/versions/2?permanent=true", None)):
        old.answer(method, path, json.dumps(body) if body else None)


def main():
    if len(sys.argv) not in (2, 3) or sys.argv[1].startswith("-") or not (sys.argv + ["150"])[2].isdigit():
        print(__doc__)
        return 2
    with tempfile.TemporaryDirectory() as folder, contextlib.ExitStack() as stack:
        old = TopicRegistry(os.path.join(folder, "records"))
        stack.callback(old.stop)
        fill(old, int((sys.argv + ["150"])[2]))
        names = {name: f"http://127.0.0.1:{free_port()}" for name in ("NEW", "READS", "READS_OF_NEW")}
        writer = Writer(old.url)
        shell = Shell(folder, sys.argv[1], stack, writer, OLD=old.url, **names)
        writer.start()
        signal.signal(signal.SIGTERM, lambda *_: sys.exit(143))   # so that what runs is ended, too
        try:
            move_over(shell, writer, names["NEW"])
            check_ids(writer, names["NEW"])
            move_back(shell, writer, old.url)
            writer.ended.set()
            writer.join()
            check_ids(writer, old.url)
        except Wrong as fault:
            print(f"WRONG: {fault}", flush=True)
            return 1
    return 0


if __name__ == "__main__":
    sys.exit(main())
