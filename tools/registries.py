"""What the tools of this folder share: how a registry is named on a command line, what it holds, and how two of them differ.

It needs Python 3.9 or later, and nothing else. Nothing here is proved: what the tools claim rests on the answers of the registries."""
import functools
import json
import os
import sys
import time
from dataclasses import dataclass, field
from typing import NamedTuple
from urllib.parse import urlsplit

from asking import Printed, RegistryError, get, part, shown
from http_registry import PATIENCE, Access, HttpRegistry
from log_registry import LogRegistry

GREATEST = 2**31 - 1        # of versions and of ids

# Members of a version and of a level's answer that change what it means, and in which words they are told.
VERSION_EXTRAS = {"metadata": "metadata", "ruleSet": "rules"}
LEVEL_EXTRAS = ("alias", "normalize", "compatibilityGroup", "defaultMetadata", "overrideMetadata", "defaultRuleSet", "overrideRuleSet")


# The command line

def is_url(place):
    return place.startswith(("http://", "https://"))


def variable(role, what):
    """The variable of the environment that has a user or a password: REGISTRY_USER, or with a role REGISTRY_FROM_USER."""
    return "_".join(word for word in ("REGISTRY", role.upper(), what) if word)


def add_access(parser, role=""):
    """Options that say how the registry is asked; with a role, as `from`, that one of two."""
    prefix = f"--{role}-" if role else "--"
    group = parser.add_argument_group(f"how {role.upper() or 'the registry'} is asked", "\n".join((
        f"A password comes from the environment, as {variable(role, 'USER')} and {variable(role, 'PASSWORD')},",
        "or from a netrc file: ~/.netrc, or the one that NETRC names.")))
    group.add_argument(f"{prefix}ca", metavar="FILE", help="certificates of the authorities to trust, in place of the usual ones")
    group.add_argument(f"{prefix}cert", metavar="FILE", help="the certificate that is shown to the registry")
    group.add_argument(f"{prefix}key", metavar="FILE", help="the key of that certificate, where it has a file of its own")


def add_common(parser):
    """Options that all tools have."""
    parser.add_argument("--rate", type=positive, metavar="N", help="at most N requests a second to each registry")
    parser.add_argument("--patience", type=positive, metavar="SECONDS", default=PATIENCE,
                        help="for how long a registry that is away is asked again (%(default)s)")
    parser.add_argument("--quiet", action="store_true", help="don't say on standard error how far it is")


def positive(text):
    value = float(text)
    if not 0 < value < float("inf"):
        raise ValueError(text)
    return value


def http_registry(name, role, url, options):
    """The registry at a URL, asked as the options and the environment say."""
    if not is_url(url) or not urlsplit(url).hostname:
        raise RegistryError(f"{shown(url)} is no URL of a registry, as http://localhost:8081 is one")
    try:
        is_right = urlsplit(url).port != 0
    except ValueError:
        is_right = False
    if not is_right:
        raise RegistryError(f"{shown(url)} has no port from 1 to 65535")
    if urlsplit(url).username is not None:
        raise RegistryError(f"a password has no place in a URL; give it as {variable(role, 'USER')} and {variable(role, 'PASSWORD')}")
    files = [getattr(options, f"{role}_{what}".lstrip("_")) for what in ("ca", "cert", "key")]
    access = Access(os.environ.get(variable(role, "USER")), os.environ.get(variable(role, "PASSWORD"), ""), *files)
    return HttpRegistry(name, url, options.patience, options.rate, access)


def any_registry(name, role, place, options):
    """The registry at a URL, or that of a log."""
    return http_registry(name, role, place, options) if is_url(place) else LogRegistry(name, place, options.registryd)


class Progress:
    """Says on standard error, each two seconds, how far the work is."""

    def __init__(self, quiet):
        self.quiet = quiet
        self.begun = self.last = time.monotonic()

    def count(self, what, items, total):
        """Gives the items on, and says which one it is at."""
        for number, item in enumerate(items, 1):
            yield item
            if not self.quiet and time.monotonic() > self.last + 2:
                self.last = time.monotonic()
                print(f"{what}: {number:,} of {total:,}, {self.last - self.begun:.0f} s so far", file=sys.stderr, flush=True)


# What a registry holds

@dataclass(frozen=True)
class Version:
    """A version that stands, soft-deleted or not."""
    subject: str
    number: int
    id: int
    schema: str
    is_live: bool
    extras: tuple = ()   # what it has beside an Avro schema, in words

    @property
    def key(self):
        return self.subject, self.number

    def __str__(self):
        return f"subject {shown(self.subject)}, version {self.number}, id {self.id}"


@dataclass
class Contents:
    """What a registry holds. The scope of a level or a mode is a subject, or None for all."""
    name: str
    versions: dict = field(default_factory=dict)   # of subject and number
    levels: dict = field(default_factory=dict)     # of scopes that have one of their own
    level_extras: dict = field(default_factory=dict)
    modes: dict = field(default_factory=dict)
    ids: dict = field(default_factory=dict)        # what /schemas/ids/ID answers, where that was asked
    unaskable: list = field(default_factory=list)  # subjects whose names no path can have

    def subjects(self):
        return {subject for subject, _ in self.versions}


def read_contents(registry, progress, with_modes=False, with_ids=False, also=()):
    """All subjects, versions and levels of a registry, soft-deleted versions too. A subject without versions isn't listed, but may
    have a level; so subjects that another registry has are asked for theirs, too."""
    contents = Contents(registry.name)
    names = list_subjects(registry)
    contents.unaskable = [name for name in names if not is_askable(name)]
    names = [name for name in names if is_askable(name)]
    read_versions(registry, names, contents, progress)
    scopes = sorted({*names, *also})
    read_levels(registry, scopes, contents, progress)
    if with_modes:
        contents.modes = read_modes(registry, scopes, progress)
    if with_ids:
        read_ids(registry, contents, progress)
    return contents


def list_subjects(registry):
    """All names. A registry may give a long list in pages; one that doesn't know pages gives all again, and so nothing new."""
    names = {}
    while True:
        path = f"/subjects?deleted=true&offset={len(names)}"
        page = expect(registry, path, registry.ask(get(path)), list)
        new = [name for name in page if name not in names]
        if not new:
            return sorted(names)
        names.update(dict.fromkeys(new))


def is_askable(name):
    """The name can be one part of a path: a client takes `.` and `..` out of paths, and half a surrogate pair has no bytes."""
    try:
        name.encode()
    except UnicodeEncodeError:
        return False
    return name not in ("", ".", "..")


def read_versions(registry, names, contents, progress):
    every = ask_names(registry, names, "/subjects/{}/versions?deleted=true", progress)
    live = ask_names(registry, names, "/subjects/{}/versions", progress)
    keys = [(name, number) for name in names for number in expect(registry, f"the versions of {shown(name)}", every[name], list)]
    paths = [f"/subjects/{part(name)}/versions/{number}?deleted=true" for name, number in keys]
    shows = {name: set() if live[name].is_missing else set(expect(registry, f"the versions of {shown(name)}", live[name], list))
             for name in names}
    for (name, number), answer in zip(keys, ask_paths(registry, paths, "versions", progress)):
        body = expect(registry, f"version {number} of {shown(name)}", answer, dict)
        if not isinstance(body.get("id"), int) or not isinstance(body.get("schema"), str):
            raise RegistryError(f"{registry.name}: version {number} of {shown(name)} has no id or no schema")
        contents.versions[name, number] = Version(name, number, body["id"], body["schema"], number in shows[name], extras_in(body))


def extras_in(body):
    """What a version has beside an Avro schema, in words."""
    kind = body.get("schemaType") or "AVRO"
    extras = [f"schema type {shown(kind)}"] if kind != "AVRO" else []
    extras += ["references"] if body.get("references") else []
    return tuple(extras + [words for member, words in VERSION_EXTRAS.items() if body.get(member) is not None])


def read_levels(registry, names, contents, progress):
    """The level for all subjects, and those that subjects have of their own. A registry may tell none for all: 404."""
    answers = {None: registry.ask(get("/config")), **ask_names(registry, names, "/config/{}", progress)}
    for scope, answer in answers.items():
        if not answer.is_missing:
            body = expect(registry, f"the level of {scope_name(scope)}", answer, dict)
            level = body.get("compatibilityLevel") or body.get("compatibility")
            if level:
                contents.levels[scope] = str(level).upper()
            extras = [member for member in LEVEL_EXTRAS if body.get(member)]
            if extras:
                contents.level_extras[scope] = ", ".join(extras)


def read_modes(registry, names, progress):
    """The mode for all subjects, and those that subjects have of their own."""
    answers = {None: registry.ask(get("/mode")), **ask_names(registry, names, "/mode/{}", progress)}
    return {scope: expect(registry, f"the mode of {scope_name(scope)}", answer, dict)["mode"]
            for scope, answer in answers.items() if not answer.is_missing}


def read_ids(registry, contents, progress):
    """What the ids of all versions name, as consumers ask for it."""
    numbers = sorted({version.id for version in contents.versions.values()})
    paths = [f"/schemas/ids/{number}" for number in numbers]
    for number, answer in zip(numbers, ask_paths(registry, paths, "ids", progress)):
        contents.ids[number] = expect(registry, f"id {number}", answer, dict).get("schema") if not answer.is_missing else None


def ask_names(registry, names, path, progress):
    """The answers of a path of each name."""
    return dict(zip(names, ask_paths(registry, [path.format(part(name)) for name in names], path.format("S"), progress)))


def ask_paths(registry, paths, what, progress):
    return progress.count(f"reading {registry.name}, {what}", registry.ask_all(map(get, paths)), len(paths))


def expect(registry, what, answer, kind):
    """The body of an answer that has to be of that kind."""
    if answer.is_ok and isinstance(answer.body, kind):
        return answer.body
    raise RegistryError(f"{registry.name} doesn't show {what}: {answer.reason()} (did somebody change it meanwhile? run this again)")


def scope_name(scope):
    return "all subjects" if scope is None else f"subject {shown(scope)}"


# How two registries differ

class Difference(NamedTuple):
    key: tuple    # of a version: its subject and number; else what differs, and of which scope or id
    text: str


def meaning(schema):
    """A schema's text as JSON, in one spelling: members in order, no spaces. A text that isn't JSON is what it is."""
    return respelled(schema) if isinstance(schema, str) else schema


@functools.lru_cache(maxsize=65536)
def respelled(schema):
    try:
        return json.dumps(json.loads(schema), sort_keys=True)
    except (ValueError, RecursionError):
        return schema


def differences(a, b):
    """All that two registries answer differently, in order."""
    yield from differing_versions(a, b)
    yield from differing_values("level", a, b, a.levels, b.levels)
    yield from differing_values("settings beside the level", a, b, a.level_extras, b.level_extras)
    yield from differing_values("mode", a, b, a.modes, b.modes)
    for number in sorted(set(a.ids) & set(b.ids)):
        if meaning(a.ids[number]) != meaning(b.ids[number]):
            yield Difference(("id", number), f"id {number}: another schema at {a.name} than at {b.name}")
    for name in sorted(set(a.unaskable) ^ set(b.unaskable)):
        yield Difference(("subject", name), f"subject {shown(name)}: only at {a.name if name in a.unaskable else b.name}")


def differing_versions(a, b):
    for key in sorted(set(a.versions) | set(b.versions)):
        one, other = a.versions.get(key), b.versions.get(key)
        if one is None or other is None:
            yield Difference(key, f"{one or other}: only at {(a if one else b).name}")
            continue
        place = f"subject {shown(key[0])}, version {key[1]}"
        if one.id != other.id:
            yield Difference(key, f"{place}: id {one.id} at {a.name}, id {other.id} at {b.name}")
        if meaning(one.schema) != meaning(other.schema) or one.extras != other.extras:
            yield Difference(key, f"{place}: another schema at {a.name} than at {b.name}")
        if one.is_live != other.is_live:
            yield Difference(key, f"{place}: soft-deleted only at {(b if one.is_live else a).name}")


def differing_values(what, a, b, ours, others):
    """Levels or modes, of subjects that have one of their own on either side, and of all subjects where both registries tell one."""
    for scope in sorted(set(ours) | set(others), key=lambda scope: (scope is not None, scope or "")):
        one, other = ours.get(scope, "none"), others.get(scope, "none")
        if one != other and (scope is not None or "none" not in (one, other)):
            yield Difference((what, scope), f"{what} of {scope_name(scope)}: {shown(one)} at {a.name}, {shown(other)} at {b.name}")


def run_tool(name, work, *arguments):
    """Does the work of a tool and gives its exit status. What a registry did wrong is one line on standard error."""
    sys.stdout, sys.stderr = Printed(sys.stdout), Printed(sys.stderr)
    try:
        return work(*arguments)
    except RegistryError as fault:
        print(f"{name}: {fault}", file=sys.stderr)
        return 3
    except KeyboardInterrupt:
        return 130
