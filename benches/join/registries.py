"""What the trials of this folder share: a registry process with its adapter, started again whenever it ends; asking it; and all that it
answers. It shares no code with the adapters or with the program."""
import concurrent.futures
import http.client
import json
import os
import signal
import socket
import subprocess
import threading
import time
from urllib.parse import quote

TYPE = {"Content-Type": "application/vnd.schemaregistry.v1+json"}
NOBODY = (OSError, http.client.HTTPException)       # what a client meets where nobody answers, or the connection ends


class Wrong(Exception):
    """Something isn't as it should be."""


def expect(holds, *words):
    if not holds:
        raise Wrong(" ".join(str(word) for word in words)[:3000])


def free_port():
    with socket.socket() as one:
        one.bind(("127.0.0.1", 0))
        return one.getsockname()[1]


def normal(schema):
    """The normal text of a schema of these trials."""
    return json.dumps(schema, separators=(",", ":"), sort_keys=True)


def ask(place, method, path, body=None, connection=None, timeout=60):
    """Status and body; place is an address and a port."""
    line = connection or http.client.HTTPConnection(*place, timeout=timeout)
    try:
        line.request(method, path, None if body is None else json.dumps(body), {} if body is None else TYPE)
        response = line.getresponse()
        return response.status, response.read()
    except NOBODY:
        line.close()
        raise
    finally:
        if connection is None:
            line.close()


def get_all(place, paths):
    """What is answered to GETs, by path: fifty requests at a time, on one connection."""
    answers = {}
    with socket.create_connection(place, timeout=60) as line, line.makefile("rb") as reader:
        for at in range(0, len(paths), 50):
            some = paths[at:at + 50]
            line.sendall("".join("GET %s HTTP/1.1\r\nHost: registry\r\n\r\n" % path for path in some).encode())
            for path in some:
                status, length = reader.readline(), None
                for field in iter(reader.readline, b"\r\n"):
                    expect(field, "the connection ended in an answer to", path)
                    if field.lower().startswith(b"content-length:"):
                        length = int(field.split(b":")[1])
                answers[path] = status.split(b" ", 2)[1], reader.read(length)
    return answers


def all_answers(place, ids, most=400):
    """What a process answers to each GET about what is there, soft-deleted or not, and about these ids. Of more than `most` versions, and of
    more ids, some forms are left out for most: a process asks its store before it answers 404."""
    answers = get_all(place, ["/subjects?deleted=true", "/subjects", "/config", "/mode"])
    lists, paths = [], []
    for subject in json.loads(answers["/subjects?deleted=true"][1]):
        name = quote(subject, safe="")
        paths += ["/%s/%s%s" % (kind, name, switch) for kind in ("config", "mode") for switch in ("", "?defaultToGlobal=true")]
        paths += ["/subjects/%s/versions" % name, "/subjects/%s/versions/latest" % name]
        lists.append("/subjects/%s/versions?deleted=true" % name)
    answers.update(get_all(place, lists))
    versions = ["%s/%d" % (path.split("?")[0], version) for path in lists for version in json.loads(answers[path][1])]
    for number, path in enumerate(versions):
        paths += [path + "?deleted=true"] + ([path, path + "/schema"] if number % (1 + len(versions) // most) == 0 else [])
    for number, one in enumerate(ids):
        path = "/schemas/ids/%d" % one
        paths += [path] + ([path + "/versions", path + "/versions?deleted=true"] if number % (1 + len(ids) // most) == 0 else [])
    answers.update(get_all(place, paths))
    return answers


def agree(places, ids, limit=60):
    """Waits until all answer, each once it has taken in all there is, and compares all answers byte for byte; says how many there are."""
    until = time.monotonic() + limit
    for place in places:
        while True:
            try:
                # a command that writes nothing is answered only once the log was looked at
                if ask(place, "DELETE", "/config/a-subject-without-a-level")[0] in (404, 422):
                    break
            except NOBODY:
                pass
            expect(time.monotonic() < until, "nothing is answered at", place)
            time.sleep(0.1)
    while True:         # another worker may show a moment later what its process has
        with concurrent.futures.ThreadPoolExecutor() as pool:
            first, *others = pool.map(lambda place: all_answers(place, ids), places)
        if all(other == first for other in others):
            return len(first)
        different = [path for other in others for path in first if other.get(path) != first[path]]
        expect(time.monotonic() < until, "the processes answer otherwise:", different[:3], first.get(different[0]) if different else "")
        time.sleep(0.2)


def processes():
    """Each process, with its parent."""
    found = {}
    for name in os.listdir("/proc"):
        if name.isdigit():
            try:
                with open("/proc/%s/stat" % name, encoding="utf-8", errors="replace") as file:
                    found[int(name)] = int(file.read().rsplit(")", 1)[1].split()[1])
            except OSError:
                pass
    return found


def send(process, number):
    try:
        os.kill(process, number)
    except ProcessLookupError:
        pass


class Joined:
    """An adapter with its registry process, started again whenever it ends."""

    def __init__(self, words, place, errors):
        self.words, self.place, self.errors, self.is_over, self.statuses = words, place, errors, False, []
        self.adapter = self.child = None
        self.thread = threading.Thread(target=self.run, daemon=True)
        self.thread.start()

    def run(self):
        while not self.is_over:
            with open(self.errors, "ab") as errors:
                self.adapter = subprocess.Popen(self.words, stderr=errors)
            self.statuses.append(self.adapter.wait())
            time.sleep(0.2)

    def process(self):
        """The registry's own process, and None where none runs."""
        if self.adapter is None:
            return None
        children = [child for child, parent in processes().items() if parent == self.adapter.pid]
        self.child = children[0] if children else None
        return self.child

    def listens(self, limit=60):
        until = time.monotonic() + limit
        while True:
            try:
                return ask(self.place, "GET", "/mode", timeout=5)[0] == 200
            except NOBODY:
                expect(time.monotonic() < until, "nothing listens at", self.place, self.said())
                time.sleep(0.05)

    def said(self):
        with open(self.errors, encoding="utf-8", errors="replace") as errors:
            return errors.read()[-1500:]

    def end(self):
        """Ends the adapter, upon which its process ends by itself."""
        self.is_over = True
        child = self.process()
        while self.thread.is_alive():
            if self.adapter is not None:
                send(self.adapter.pid, signal.SIGCONT)
                send(self.adapter.pid, signal.SIGKILL)
            self.thread.join(0.3)
        if child is not None:
            send(child, signal.SIGCONT)


def strike(joined, chance, longest=2):
    """Kills an adapter or its process, or stops it for a while and lets it go on. Says what was done."""
    is_adapter, is_kill = chance.random() < 0.5, chance.random() < 0.6
    victim = joined.adapter.pid if is_adapter and joined.adapter else joined.process()
    if victim is None:
        return None
    if is_kill:
        send(victim, signal.SIGKILL)
    else:
        send(victim, signal.SIGSTOP)
        time.sleep(chance.uniform(0.2, longest))
        send(victim, signal.SIGCONT)
    return "%s %s" % ("adapter" if is_adapter else "process", "killed" if is_kill else "stopped")
