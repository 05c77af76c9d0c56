"""What is asked of a registry, what it answers, and how its words are shown. The tools of this folder share it."""
import json
from typing import NamedTuple, Optional
from urllib.parse import quote


class RegistryError(Exception):
    """A registry that can't be asked, or that doesn't answer as a registry does. The text is for the person at the terminal."""


class NoAnswer(Exception):
    """A request that wasn't answered. It can't be known whether the registry carried it out."""

    def __init__(self, text, pause=0.0):
        super().__init__(text)
        self.pause = pause   # seconds that the registry asks to be left alone


class Request(NamedTuple):
    method: str
    path: str
    body: Optional[dict] = None


class Answer(NamedTuple):
    status: int
    body: object

    @property
    def is_ok(self):
        return self.status == 200

    @property
    def is_missing(self):
        return self.status == 404

    @property
    def code(self):
        """The registry's own code of a refusal, as 40401, or the status."""
        return self.body.get("error_code", self.status) if isinstance(self.body, dict) else self.status

    def reason(self):
        """What a refusal says, in one line."""
        message = self.body.get("message", "") if isinstance(self.body, dict) else ""
        code = self.code if isinstance(self.code, int) else self.status
        return " ".join(f"{code} {message}".split())


def get(path):
    return Request("GET", path)


def part(text):
    """A subject as one part of a path."""
    return quote(text, safe="")


def to_json(value):
    """UTF-8; half a surrogate pair gives bytes that a registry refuses, and not an exception here."""
    return json.dumps(value, ensure_ascii=False).encode("utf-8", "surrogatepass")


def shown(text):
    """A name as it is, or as a JSON string if it would break the line or couldn't be printed. What should be a name and isn't is JSON."""
    return text if isinstance(text, str) and text.isprintable() and text and '"' not in text else json.dumps(text)


def number_in(body, member):
    """A member that is a number, or None."""
    value = body.get(member)
    return value if isinstance(value, int) and not isinstance(value, bool) else None


class Printed:
    """A stream for a terminal. What a registry sent may have characters that steer one, and those are written as escapes."""

    def __init__(self, stream):
        self.stream = stream

    def __getattr__(self, name):
        return getattr(self.stream, name)

    def write(self, text):
        return self.stream.write("".join(it if it.isprintable() or it == "\n" else it.encode("unicode_escape").decode() for it in text))
