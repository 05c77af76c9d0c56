#!/usr/bin/python3
"""Tries which requests nginx with nginx-joined.conf sends to the next server, where the first one is gone, ends the connection once it has
the request, or is silent. It needs Debian's nginx-light, and no registry: the servers count what they get. The status is 1 where something
isn't as it should be."""
import os
import re
import shutil
import socket
import sys
import tempfile
import threading
import time

HERE = os.path.dirname(os.path.realpath(__file__))
sys.path.append(os.path.join(HERE, "..", "benches", "join"))
sys.dont_write_bytecode = True

from machines import Nginx
from registries import ask, free_port

REGISTER, LOOKUP, CHECK = "/subjects/a%2Fb/versions", "/subjects/a%2Fb", "/compatibility/subjects/s/versions/latest"
# the first server, what is asked twice, the statuses, and how often each server got it
CASES = [
    ("gone", "POST", REGISTER, [200, 200], [0, 2]), ("gone", "PUT", "/config/s", [502, 200], [0, 1]),
    ("gone", "DELETE", "/subjects/s", [502, 200], [0, 1]), ("gone", "GET", "/schemas/ids/1", [200, 200], [0, 2]),
    ("gone", "POST", LOOKUP, [200, 200], [0, 2]), ("gone", "POST", CHECK, [200, 200], [0, 2]),
    ("ends", "POST", REGISTER, [502, 200], [1, 1]), ("ends", "PUT", "/mode", [502, 200], [1, 1]),
    ("ends", "DELETE", "/subjects/s/versions/1", [502, 200], [1, 1]), ("ends", "GET", "/subjects?deleted=true", [200, 200], [1, 2]),
    ("ends", "POST", LOOKUP, [200, 200], [1, 2]), ("ends", "POST", CHECK, [200, 200], [1, 2]),
    ("silent", "GET", "/config", [200, 200], [1, 2]), ("silent", "POST", CHECK + "?verbose=true", [200, 200], [1, 2])]


class Server:
    """Answers each request, or ends the connection at it, or never answers."""

    def __init__(self, kind):
        self.kind, self.got, self.place = kind, 0, ("127.0.0.1", free_port())
        if kind != "gone":
            self.listener = socket.create_server(self.place)
            threading.Thread(target=self.accept, daemon=True).start()

    def accept(self):
        while True:
            line, _ = self.listener.accept()
            threading.Thread(target=self.serve, args=(line,), daemon=True).start()

    def serve(self, line):
        with line, line.makefile("rb") as reader:
            while reader.readline():
                size = 0
                for field in iter(reader.readline, b"\r\n"):
                    size = int(field.split(b":")[1]) if re.match(b"(?i)content-length:", field) else size
                reader.read(size)
                self.got += 1
                if self.kind == "ends":
                    return
                if self.kind == "silent":
                    time.sleep(30)
                line.sendall(b"HTTP/1.1 200 OK\r\nContent-Length: 2\r\n\r\n{}")


def try_case(kind, method, path):
    servers, folder = [Server(kind), Server("answers")], tempfile.mkdtemp()
    nginx = Nginx(folder, [server.place for server in servers])
    try:
        for _ in range(100):
            try:
                socket.create_connection(nginx.place).close()
                break
            except OSError:
                time.sleep(0.05)
        statuses = [ask(nginx.place, method, path, {} if method in ("POST", "PUT") else None)[0] for _ in range(2)]
    finally:
        nginx.end()
        shutil.rmtree(folder, ignore_errors=True)
    return statuses, [server.got for server in servers]


def main():
    wrong = 0
    for kind, method, path, *wanted in CASES:
        found = list(try_case(kind, method, path))
        wrong += found != wanted
        print("%s the first server %s: %s %s: %s, sent %s times" % ("ok   " if found == wanted else "WRONG", kind, method, path, *found), flush=True)
    print("%d wrong" % wrong if wrong else "all as it should be")
    return 1 if wrong else 0


if not shutil.which("nginx"):
    sys.exit("nginx is missing: apt-get install --no-install-recommends nginx-light")
sys.exit(main())
