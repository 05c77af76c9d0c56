#!/usr/bin/env python3
"""Tries what a copy leaves that is cut off after its n-th request, for every n: killed, stopped by a signal, or without its registries.

After each request TO takes no registration of a client, unless it is as it was, or as it is to be. The next run ends the copy, also if
that one is cut off once more, and if TO was started again meanwhile, whereupon it takes no new id below its greatest one. Everything runs
in this process, without a network."""
import contextlib
import importlib.machinery
import importlib.util
import io
import itertools
import json
import os
import random
import sys

from asking import Answer, RegistryError, get, to_json
from closed_target import NOTE
from http_registry import STOPPED, HttpRegistry
from other_registry import Entry, OtherRegistry

PAIRS = 50   # how many copies are cut off twice


def tool(name):
    """A tool of this folder, as a module."""
    path = os.path.join(os.path.dirname(os.path.realpath(__file__)), name)
    loader = importlib.machinery.SourceFileLoader(name.replace("-", "_"), path)
    sys.dont_write_bytecode = True
    module = importlib.util.module_from_spec(importlib.util.spec_from_loader(loader.name, loader))
    loader.exec_module(module)
    return module


COPY = tool("copy-registry")


class Killed(BaseException):
    """The tool is no more."""


class Cut:
    """Counts requests, and raises a fault once so many were carried out, and from then on."""

    def __init__(self, after, fault):
        self.after, self.fault, self.count, self.more = after, fault, 0, 0

    def pass_one(self):
        if self.after is not None and self.count >= self.after:
            self.more += 1
            raise self.fault

    def took_one(self):
        self.count += 1
        if self.count == self.after:
            raise self.fault


class Direct:
    """A registry that is asked without a network. After each answer it is looked at."""

    def __init__(self, name, other, cut, look):
        self.name, self.url, self.other, self.cut, self.look = name, name, other, cut, look

    def ask(self, request, is_done=None):
        self.cut.pass_one()
        status, body = self.other.answer(request.method, request.path, to_json(request.body) if request.body else None)
        self.look()
        self.cut.took_one()
        return Answer(status, json.loads(json.dumps(body)))

    def ask_all(self, requests):
        return (self.ask(request) for request in requests)


class Scene:
    """Two registries, the words of a command line, and what TO has to be like in the end."""

    def __init__(self, *words, modes=None, mode="READWRITE", has_marks=True):
        self.words, self.has_marks = words, has_marks
        self.source, self.target = (OtherRegistry(is_served=False) for _ in range(2))
        for subject, number, schema_id, schema, deleted in VERSIONS:
            self.source.put(subject, number, Entry(schema_id, schema, deleted))
        self.source.levels.update({"a": {"compatibilityLevel": "FULL"}, None: {"compatibilityLevel": "NONE"}})
        self.source.modes = {"a": "READONLY", "b": "READWRITE"}
        self.target.modes = {None: mode, **(modes or {})}
        self.end, self.own, self.status, self.greatest = mode, dict(modes or {}), 0, 9
        self.before = versions_of(self.target)

    def look(self):
        """What has to hold after each request."""
        now = versions_of(self.target)
        if now not in (self.before, self.wanted()):
            subjects = {*self.target.subjects, "new", NOTE, *self.target.modes} - {None}
            is_open = [subject for subject in subjects if self.target.mode_in_force(subject) not in ("IMPORT", "READONLY")]
            assert not is_open, f"half a copy takes registrations in {is_open}: {sorted(now)}, {self.target.modes}"

    def wanted(self):
        left = {key: entry for key, entry in versions_of(self.source).items() if not key[0].startswith("left")}
        return {**self.before, **left}

    def run(self, cut):
        """Runs the tool, and gives its status and what it wrote."""
        output, errors = io.StringIO(), io.StringIO()
        ends = {"from": self.source, "to": self.target}
        COPY.http_registry = lambda name, role, url, options: Direct(name, ends[role], cut, self.look)
        sys.argv = ["copy-registry", "--quiet", "--registryd", "", *self.words, "http://from", "http://to"]
        with contextlib.redirect_stdout(output), contextlib.redirect_stderr(errors):
            try:
                status = COPY.copy(COPY.read_options())
            except (Killed, COPY.Stopped, RegistryError) as fault:
                status = type(fault).__name__
        return status, output.getvalue(), errors.getvalue()

    def is_finished(self, done):
        status, output, errors = done
        assert status == self.status, done
        assert output.splitlines()[-1].startswith("differences: " if self.status else "equal: "), done
        assert versions_of(self.target) == self.wanted(), versions_of(self.target)
        assert self.target.modes.get(None) == self.end, (self.target.modes, self.end, done)
        own = {subject: mode for subject, mode in self.target.modes.items() if subject is not None}
        assert own == self.own, (own, self.own, done)
        assert not self.target.repeats, self.target.repeats
        if self.end == "READWRITE":
            status, body = self.target.answer("POST", "/subjects/next/versions", b'{"schema":"\\"boolean\\""}')
            assert status == 200 and body["id"] > self.greatest, body


VERSIONS = (("a", 1, 1, '"int"', False), ("a", 2, 4, '"long"', False), ("b", 1, 3, '{"type":"fixed","name":"F","size":1}', True),
            ("b", 2, 9, '"string"', False), ("c/c", 1, 4, '"long"', True))


def versions_of(registry):
    return {(subject, number): (entry.id, entry.schema, entry.deleted)
            for subject, entries in registry.subjects.items() for number, entry in entries.items()}


def plain():
    return Scene()


def readonly_with_end():
    return dressed(Scene("--end-mode", "READWRITE", mode="READONLY"), end="READWRITE")


def kept_readonly():
    return Scene(mode="READONLY")


def own_modes():
    """Subjects of TO that take registrations, or none, by modes of their own."""
    scene = Scene(modes={"a": "READWRITE", "b": "READONLY", "c/c": "IMPORT"}, has_marks=False)
    scene.target.put("a", 1, Entry(1, '"int"'))
    scene.target.put("b", 1, Entry(3, '{"type":"fixed","name":"F","size":1}'))
    return dressed(scene)


def with_modes_and_mark():
    scene = Scene("--with-mode", "--mark", "70", modes={"b": "READONLY", "c/c": "READWRITE"}, has_marks=False)
    return dressed(scene, own=dict(scene.source.modes), greatest=70)


def skipped():
    """What is left out has the greatest id, which TO must not give again; and TO has a subject of its own."""
    scene = Scene("--skip", modes={"own": "READWRITE"})
    scene.source.put("left", 1, Entry(30, "syntax", extras={"schemaType": "PROTOBUF"}))
    scene.target.put("own", 1, Entry(1, '"int"'))
    return dressed(scene, status=1, greatest=30)


def dressed(scene, **words):
    for name, value in words.items():
        setattr(scene, name, value)
    scene.before = versions_of(scene.target)
    return scene


SCENES = (plain, readonly_with_end, kept_readonly, own_modes, with_modes_and_mark, skipped)
FAULTS = (Killed, lambda: COPY.Stopped(15), lambda: RegistryError("gone"))


def cut_off(scene, after, fault):
    """Runs a copy that is cut off, and looks that the tool sends nothing behind that; says whether it came to it."""
    cut = Cut(after, fault())
    status, *texts = scene.run(cut)
    assert "Traceback" not in "".join(texts)
    if cut.count < after:
        scene.is_finished((status, *texts))
        return False
    assert cut.more == 0, f"{cut.more} requests behind a cut after {after}"
    assert status in ("Killed", "Stopped", "RegistryError"), status
    if scene.has_marks:
        scene.target.start_again()
    return True


def try_scene(make, faults, seed=1):
    """How many runs were cut off."""
    total = 0
    for fault in faults:
        for after in itertools.count(1):
            scene = make()
            if not cut_off(scene, after, fault):
                break
            total += 1
            scene.is_finished(scene.run(Cut(None, None)))
    chooser = random.Random(seed)
    for _ in range(PAIRS):
        scene = make()
        if cut_off(scene, chooser.randrange(1, after), Killed) and cut_off(scene, chooser.randrange(1, 2 * after), chooser.choice(FAULTS)):
            total += 2
            scene.is_finished(scene.run(Cut(None, None)))
    return total


def signal_is_kept():
    """A signal stops the tool at its next request at the latest, also if what its handler raised was lost."""
    STOPPED.append(15)
    try:
        HttpRegistry("A", "http://127.0.0.1:1", patience=0).ask(get("/subjects"))
    except COPY.Stopped as stopped:
        assert stopped.number == 15, stopped
    else:
        raise AssertionError("a request was sent behind a signal")
    finally:
        STOPPED.clear()


def main():
    signal_is_kept()
    for make in SCENES:
        print(f"{make.__name__}: {try_scene(make, FAULTS if make is plain else FAULTS[:1]):,} copies were cut off, and each was ended by the next run", flush=True)


if __name__ == "__main__":
    main()
