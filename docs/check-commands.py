#!/usr/bin/env python3
"""Runs the commands of the pages for users against built programs, and compares what they print with what stands there.

    python3 docs/check-commands.py out/registryd out/registrylog

A command stands behind `$ ` in a block, up to where a shell has all of it, and what it prints in the lines behind it. The commands of
a page run in one shell, in a new folder. Ports 8081 to 8085 stand for five free ones, which are picked. What a command in the background
prints is waited for, and a lookup by `curl` is asked again until it is answered so, 20 seconds at most. For `kcat`, which needs a
cluster, stands a script that prints the records in KCAT. Ends of lines and line breaks at the end aren't compared. Blocks without `$ `
prove, build or need a network, and aren't run: scripts in examples/ run those of docs/DEPLOY.md. A comment `<!-- given: .. -->` of a page
has commands that run at its place, whatever they print. It ends only what it started.

Behind `./NAME --try` the given program runs. Lines that begin with `NAME: ` there are those of --try itself, and aren't compared; if one
says `listening on http://..`, the next command waits until something listens there.
"""
import os
import re
import shutil
import signal
import socket
import subprocess
import sys
import tempfile
import threading
import time
from pathlib import Path

TOP = Path(__file__).resolve().parent.parent
PAGES = ["README.md", "docs/TOUR.md", "docs/KEEPING.md", "docs/HTTP.md"]
PATIENCE = 20  # seconds
TRIED = re.compile(r"\./(\w+) --try ")
KCAT = r"""[1, "{\"keytype\":\"SCHEMA\",\"subject\":\"s\",\"version\":1,\"magic\":1}", "{\"subject\":\"s\",\"version\":1,\"id\":1,\"schema\":\"\\\"string\\\"\",\"deleted\":false}"]
[2, "{\"keytype\":\"CONFIG\",\"subject\":\"t\",\"magic\":0}", null]
"""


def has_end(command):
    """Whether a shell takes these lines as a whole."""
    tried = subprocess.run(["bash", "-n"], input=command, capture_output=True, text=True)
    return tried.returncode == 0 and not tried.stderr and not command.rstrip("\n").endswith("\\")


def commands_of(text):
    """Each command of a page, with the number of its line and what is printed, or none where that doesn't matter."""
    for block in re.finditer(r"(?ms)^```\n(.*?)^```$|^<!-- given: (.*?) -->$", text):
        number = text.count("\n", 0, block.start()) + 2
        if block[2]:
            yield number - 1, block[2], None
            continue
        lines, at = block[1].split("\n")[:-1], 0
        while at < len(lines):
            if not lines[at].startswith("$ "):
                at += 1
                continue
            begun, command = at, lines[at][2:] + "\n"
            while not has_end(command):
                at += 1
                command += lines[at] + "\n"
            at += 1
            printed = []
            while at < len(lines) and not lines[at].startswith("$ "):
                printed.append(lines[at])
                at += 1
            yield number + begun, command, "\n".join(printed).rstrip("\n")


def without_try(command, wanted):
    """What is printed by the program itself, and where it listens, as --try says it: an address and a port, or none."""
    if not (tried := TRIED.match(command)):
        return wanted, None
    place = re.search(rf"(?m)^{tried[1]}: listening on http://([\d.]+):(\d+)$", wanted)
    lines = [line for line in wanted.split("\n") if not line.startswith(f"{tried[1]}: ")]
    return "\n".join(lines), place and (place[1], int(place[2]))


def await_listener(place):
    """Waits until something listens there, so long as patience lasts."""
    until = time.monotonic() + PATIENCE
    while time.monotonic() < until:
        try:
            return socket.create_connection(place, 1).close()
        except OSError:
            time.sleep(0.02)


def free_ports():
    """The first of five ports in a row that nobody listens at."""
    for first in range(20000 + os.getpid() % 20000, 60000, 5):
        try:
            for port in range(first, first + 5):
                with socket.socket() as tried:
                    tried.bind(("127.0.0.1", port))
            return first
        except OSError:
            pass
    raise SystemExit("no five free ports in a row")


class Shell:
    """A shell in a session of its own, with all that it prints."""

    def __init__(self, folder):
        environment = {**os.environ, "PATH": f"{folder}/bin:{os.environ['PATH']}", "HOME": folder, "LC_ALL": "C.UTF-8"}
        self.process = subprocess.Popen(["bash", "--norc"], cwd=f"{folder}/work", env=environment, stdin=subprocess.PIPE,
                                        stdout=subprocess.PIPE, stderr=subprocess.STDOUT, start_new_session=True)
        self.printed, self.count = b"", 0
        threading.Thread(target=self.listen, daemon=True).start()

    def listen(self):
        while piece := os.read(self.process.stdout.fileno(), 65536):
            self.printed += piece

    def run(self, command, wanted):
        """What a command prints, once it has ended and, where it goes on in the background, has printed what is wanted."""
        self.count += 1
        mark, begun, until = f"--end-{os.getpid()}-{self.count}--", len(self.printed), time.monotonic() + PATIENCE
        self.process.stdin.write(f"{command}\nprintf %s {mark}\n".encode())
        self.process.stdin.flush()
        while True:
            found = self.printed[begun:].decode(errors="replace")
            ended, found = mark in found, found.replace(mark, "").replace("\r\n", "\n")
            found = re.sub(r"(?m)^(?:bash|main): line \d+: +\d+ Killed .*\n", "", found).rstrip("\n")
            if ended and found == wanted or time.monotonic() > until or ended and not wanted.startswith(found):
                return found
            time.sleep(0.02)

    def end(self):
        os.killpg(self.process.pid, signal.SIGKILL)
        self.process.wait()


def put_programs(folder, programs, port):
    """The programs under their names, also in the folder of work, as they are called in a clone; keep listens at the first port."""
    for name, path in zip(("registryd", "registrylog"), programs):
        first = f' && [[ " $* " != *" --listen "* ]] && set -- keep --listen 127.0.0.1:{port} "${{@:2}}"' if name == "registrylog" else ""
        for place in ("bin", "work"):
            script = Path(folder, place, name)
            script.write_text('#!/bin/bash\n[[ ${1:-} == --try ]] && shift\n'
                              f'[[ ${{1:-}} == keep ]]{first}\nexec "{Path(path).resolve()}" "$@"\n')
            script.chmod(0o755)
    by_file = Path(folder, "bin", "by_file.py")
    by_file.write_text(f'#!/bin/bash\nexec python3 "{TOP}/benches/join/by_file.py" "$@"\n')
    by_file.chmod(0o755)
    Path(folder, "kcat-records").write_text(KCAT)
    kcat = Path(folder, "bin", "kcat")
    kcat.write_text(f'#!/bin/bash\nSTAND_IN_RECORDS="{folder}/kcat-records" exec python3 "{TOP}/tools/stand-in-kcat" "$@"\n')
    Path(folder, "work", "tools").mkdir()
    dump = Path(folder, "work", "tools", "dump-topic")
    dump.write_text(f'#!/bin/bash\nexec python3 "{TOP}/tools/dump-topic" "$@"\n')
    for script in (kcat, dump):
        script.chmod(0o755)


def check(page, programs):
    """How many commands of a page were run, and what was wrong of them."""
    folder, port, count, faults = tempfile.mkdtemp(), free_ports(), 0, []
    for place in ("bin", "work"):
        Path(folder, place).mkdir()
    put_programs(folder, programs, port)
    shell = Shell(folder)
    try:
        text = re.sub(r"\b808([1-5])\b", lambda m: str(port + int(m[1]) - 1), (TOP / page).read_text())
        for line, command, wanted in commands_of(text):
            if wanted is None:
                shell.run(command, "")
                continue
            wanted, place = without_try(command, wanted)
            found, until = shell.run(command, wanted), time.monotonic() + PATIENCE
            if place:
                await_listener(place)
            while found != wanted and command.startswith("curl -s http") and time.monotonic() < until:
                found = shell.run(command, wanted)
            count += 1
            if found != wanted:
                faults.append(f"{page}:{line}: {command}wanted:\n{wanted}\ncame:\n{found}\n")
    finally:
        shell.end()
        shutil.rmtree(folder)
    return count, faults


def main():
    if len(sys.argv) != 3:
        print(__doc__)
        return 2
    counts, faults = zip(*(check(page, sys.argv[1:]) for page in PAGES))
    print("\n".join(sum(faults, [])) or f"{sum(counts)} commands were run, and each printed what stands there.")
    return 1 if any(faults) else 0


if __name__ == "__main__":
    raise SystemExit(main())
