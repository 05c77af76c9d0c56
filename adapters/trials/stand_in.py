"""Stands in for `registrylog join`: it reads and asks as PROTOCOL.md says, decides by registry.py, and listens.

    stand_in.py --port PORT             serves; with --rules behind it, it prints the number of its rules
    stand_in.py --compact N --whole     a filter: the last records of a log, behind a floor of N, and the line that says where it ends

Each answer has a header Place: the offset behind the log from which it was given."""
import http.server
import json
import os
import queue
import socketserver
import sys
import threading
import time
import urllib.parse

from registry import Foreign, read_base

RULES = 1
TRIES, SECONDS = 64, 30
OVERTAKEN = (503, {"error_code": 50301, "message": "overtaken"})
DECLINED = (503, {"error_code": 50302, "message": "declined"})
UNSETTLED = (500, {"error_code": 50001, "message": "Store error: unsettled"})


def say(text):
    print(text, file=sys.stderr, flush=True)


class Joined:
    """The log's registry, and the conversation with the adapter."""

    def __init__(self):
        self.pen, self.state = threading.Lock(), threading.Lock()
        self.answers, self.asked, self.has_crossed, self.is_closed = queue.Queue(), None, False, False
        self.ready = threading.Event()
        lines = self.lines()
        try:
            self.registry = read_base(line for line in iter(lambda: next(lines, "\n"), "\n"))
        except Foreign as fault:
            say(str(fault))
            sys.exit(2)
        threading.Thread(target=self.listen, args=(lines,), daemon=True).start()

    @staticmethod
    def lines():
        for line in sys.stdin.buffer:
            yield line.decode()

    def listen(self, lines):
        for line in lines:
            if line == "batch\n":
                self.take([one for one in iter(lambda: next(lines, "\n"), "\n")])
            elif line == "ready\n":
                self.ready.set()
            else:
                self.answered(line.strip())
        os._exit(0)

    def take(self, lines):
        """A batch of somebody else, or one of its own that was lost."""
        with self.state:
            self.has_crossed = True
            try:
                self.registry.replay(lines)
            except Foreign:
                say("batch at offset %s is not a command's" % lines[0].split("\t")[0])
                self.is_closed = True

    def answered(self, answer):
        with self.state:
            if answer == "kept" and self.asked:
                self.registry.replay(self.asked)
            if answer == "kept" and not self.asked and self.has_crossed:
                answer = "behind"
        self.answers.put(answer)

    def command(self, command):
        """The status, the body and the place of the answer."""
        until = time.monotonic() + SECONDS
        with self.pen:
            for _ in range(TRIES):
                if time.monotonic() > until or self.is_closed:
                    break
                with self.state:
                    status, body, records = self.registry.decide(command)
                    place, self.asked, self.has_crossed = self.registry.next, self.registry.lines_of(records), False
                sys.stdout.buffer.write("".join(self.asked).encode() + b"\n")
                sys.stdout.buffer.flush()
                answer = self.answers.get()
                if answer == "kept":
                    return status, body, place
                if answer in ("declined", "lost"):
                    return *(DECLINED if answer == "declined" else UNSETTLED), place
        return *OVERTAKEN, 0


def command_of(method, path, switches, body):
    """The command that a request asks, and none where it asks a query."""
    parts = [urllib.parse.unquote(part) for part in path.strip("/").split("/")]
    is_permanent, scope = "permanent" in switches, parts[1] if len(parts) > 1 else None
    if method == "POST":
        number, version = body.get("id"), body.get("version")
        return "register", scope, body["schema"], *(() if number is None else (number, version))
    if method == "DELETE" and parts[0] == "subjects":
        return ("delete_version", scope, int(parts[3]), is_permanent) if len(parts) > 2 else ("delete_subject", scope, is_permanent)
    if method == "DELETE":
        return "clear_level" if parts[0] == "config" else "clear_mode", scope
    if method == "PUT" and parts[0] == "config":
        return "set_level", scope, body["compatibility"]
    if method == "PUT":
        return "set_mode", scope, body["mode"], "force" in switches
    return None


class Front(http.server.BaseHTTPRequestHandler):
    protocol_version = "HTTP/1.1"

    def handle_one(self):
        path, _, query = self.path.partition("?")
        size = int(self.headers.get("Content-Length") or 0)
        body = json.loads(self.rfile.read(size)) if size else {}
        command = command_of(self.command, path, query, body)
        joined = self.server.joined
        if command:
            status, body, place = joined.command(command)
        else:
            with joined.state:
                status, body, place = self.query(joined.registry, [urllib.parse.unquote(part) for part in path.strip("/").split("/")])
        data = json.dumps(body).encode()
        self.send_response(status)
        self.send_header("Content-Length", str(len(data)))
        self.send_header("Place", str(place))
        self.end_headers()
        self.wfile.write(data)

    do_GET = do_POST = do_PUT = do_DELETE = handle_one

    @staticmethod
    def query(registry, parts):
        """All of what stands, deleted or not."""
        if parts == ["values"]:
            body = registry.values_by_key()
        elif parts == ["subjects"]:
            body = sorted({name for name, _ in registry.entries})
        elif len(parts) == 3:
            body = list(registry.of(parts[1]))
        else:
            body = {"schema": registry.of(parts[1])[int(parts[3])].schema}
        return 200, body, registry.next

    def log_message(self, *words):
        pass


class Server(socketserver.ThreadingMixIn, http.server.HTTPServer):
    daemon_threads = True
    allow_reuse_address = True


def compact(floor):
    """Keeps the last record of each key, and no deletes."""
    last = {}
    for line in sys.stdin.read().splitlines():
        if not line.startswith("floor\t"):
            offset, key, value = line.split("\t")
            last.pop(key, None)
            if value != "null":
                last[key] = "%s\t%s\t%s\n" % (offset, key, value)
    sys.stdout.write("floor\t%d\n%s\nend %d %d\n" % (floor, "".join(last.values()), len(last), floor))


def main():
    if sys.argv[-1] == "--rules":
        print(RULES)
    elif sys.argv[1] == "--compact":
        compact(int(sys.argv[2]))
    else:
        joined = Joined()
        joined.ready.wait()
        server = Server(("127.0.0.1", int(sys.argv[2])), Front)
        server.joined = joined
        server.serve_forever()


main()
