"""The registry that a log says, which `registryd fold` asks, and what a file is that isn't a log."""
import json
import os
import re
import subprocess

from asking import Answer, RegistryError, to_json

FOLD_LIMIT = 65536   # requests that one fold serves
RIGHTLY = "`tools/dump-topic BROKER > FILE` prints a topic as a log"


class LogRegistry:
    """The registry that a log says, which `registryd fold` asks. The log is only read."""

    def __init__(self, name, path, program):
        self.name, self.path, self.program = name, path, program
        self.log = lines_of_log(path)

    def ask(self, request, is_done=None):
        return next(self.ask_all([request]))

    def ask_all(self, requests):
        """The answers in the order of the requests. A request that closes its connection ends a fold; the next one goes on behind it."""
        rest = list(requests)
        while rest:
            answers = self._fold(rest[:FOLD_LIMIT])
            if not answers:
                raise RegistryError(f"{self.path}: {self.program} answered nothing")
            yield from answers
            rest = rest[len(answers):]

    def _fold(self, requests):
        text = self.log + b"\n" + b"".join(map(request_bytes, requests))
        try:
            done = subprocess.run([self.program, "fold"], input=text, capture_output=True, check=False)
        except OSError as fault:
            raise RegistryError(f"{self.program} can't be run: {fault.strerror}") from None
        if done.returncode != 0:
            told = done.stderr.decode(errors="replace").strip()
            raise RegistryError(f"{self.path}: {told or f'status {done.returncode}'}")
        return list(answers_in(done.stdout))


def lines_of_log(path):
    """A log's bytes up to its first empty line, behind which nothing counts."""
    try:
        with open(path, "rb") as file:
            data = file.read()
    except OSError as fault:
        raise RegistryError(f"{path}: {fault.strerror}") from None
    if data.startswith(b"\n"):
        return b""
    end = data.find(b"\n\n")
    if end < 0 and data and not data.endswith(b"\n"):
        raise RegistryError(f"{path}: its last line has no end")
    log = data if end < 0 else data[:end + 1]
    fault = fault_of_dump(log)
    if fault:
        raise RegistryError(f"{path}: {fault}; {RIGHTLY}")
    return log


def fault_of_dump(log):
    """What makes the lines something that another program printed of a topic, and no log; None if nothing does."""
    first = log.partition(b"\n")[0]
    if first.startswith(b"{"):
        return "line 1 has no offset: it begins with a key"
    if re.match(rb"(Partition:\d+\t)?(Offset|CreateTime|LogAppendTime|NO_TIMESTAMP_TYPE):", first):
        return "line 1 begins with words, as kafka-console-consumer prints them"
    at = log.find(b"\tNULL\n")
    if at >= 0:
        number = log.count(b"\n", 0, at) + 1
        return f"line {number} has NULL, as kcat prints no value: a log has null"
    if re.match(rb"\d+\t[^\t\n]*\t\n", first + b"\n"):
        return "line 1 has no value, as kcat prints it without -Z: a log has null"
    return None


def request_bytes(request):
    body = b"" if request.body is None else to_json(request.body)
    return f"{request.method} {request.path} HTTP/1.1\r\nHost: log\r\nContent-Length: {len(body)}\r\n\r\n".encode() + body


def answers_in(output):
    """The responses that a fold wrote, one behind the other."""
    start = 0
    while start < len(output):
        end = output.index(b"\r\n\r\n", start) + 4
        head = output[start:end].decode("ascii")
        length = int(re.search(r"\r\nContent-Length: (\d+)\r\n", head).group(1))
        yield Answer(int(head.split()[1]), json.loads(output[end:end + length]))
        start = end + length


def add_registryd(parser, what="the program that reads logs"):
    parser.add_argument("--registryd", metavar="PROGRAM", default=default_registryd(),
                        help=f"{what} (out/registryd of this repository, else registryd on the path)")


def default_registryd():
    built = os.path.join(os.path.dirname(os.path.dirname(os.path.realpath(__file__))), "out", "registryd")
    return built if os.access(built, os.X_OK) else "registryd"
