#!/usr/bin/python3
"""Says whether a log is lawful, and whether the answers that clients were given are those of their places in it.

    lawful.py LOG REQUESTS      status 1, and the first fault in words, where something isn't so
    lawful.py --test            logs made by hand, most with a fault each, which has to be noticed

LOG is what an adapter told a process (adapters/PROTOCOL.md): the base, an empty line, and batches. REQUESTS has a line of JSON for each
request that anybody made: `method`, `path`, `body`, when it was `asked` and when the answer was `had` (by one clock, in seconds), `status`
and `answer`. Without an answer, `had` and `status` are null.

It is a plain reading of docs/COMMANDS.md in Python, and shares no code with the program. It looks for a place of each command: a batch that
it wrote, or a place between two batches at which it writes nothing and is answered so. What it finds to hold, or says isn't so:

- Each batch is what one command writes there, and that command was asked; no command wrote two.
- Each command that was answered has a place at which the reply is right, refusals too. One answered by `unsettled`, by nobody, or by nginx
  in a process's place, may have one; one answered by 50301, 50302 or `memory` has none.
- A command asked after another one was answered has no older place, and a newer one where that wrote. One kind of answer is excepted: the id
  of a registration that writes nothing, which a process may give by itself where its store can't be reached. It has to be one that was live
  under that id.
- No id names two schemas, ever. A lookup that gives an id's schema gives the one that the log has.

What it does not look at:

- Whether a text is a schema, and whether its defaults are valid: all are taken to be. Normal text is JSON with sorted members, as Python
  writes it, which is right for texts of letters, digits and whole numbers.
- Compatibility of anything but primitives, and records of fields that are primitives; of a refusal by 409 the version and the direction
  alone, and not the trail or the clash.
- Requests whose path or body is refused before the command is (42202 to 42204, three digits). Closed registries, limits of numbers.
- Lookups other than those by an id: they may be answered by any older place.
- Where many commands of one kind overlap it may give up its search for places, and say so of a log that is lawful."""
import bisect
import collections
import functools
import heapq
import itertools
import json
import sys
from urllib.parse import unquote

PROMOTED = {("long", "int"), ("float", "int"), ("double", "int"), ("float", "long"), ("double", "long"), ("double", "float"),
            ("string", "bytes"), ("bytes", "string")}       # a reader's type, and a writer's
NOT_DONE = {50301, 50302}
NO_ANSWER = {502, 504}          # of nginx, in the place of a process
TRIES, REACH = 5000, 1000       # how often it goes back; how many batches ahead a registration may have written
MEMORY, UNSETTLED = "Store error: memory", "Store error: unsettled"

Entry = collections.namedtuple("Entry", "id text is_deleted")
Verdict = collections.namedtuple("Verdict", "status body records")


class Unlawful(Exception):
    """The first fault, in words."""


def compact(value):
    return json.dumps(value, separators=(",", ":"), ensure_ascii=False)


def normal(text):
    return json.dumps(json.loads(text), separators=(",", ":"), sort_keys=True, ensure_ascii=False)


# Compatibility, of the schemas of the trials

@functools.lru_cache(1 << 18)
def text_reads(reader, writer):
    return reads(json.loads(reader), json.loads(writer))


def reads(reader, writer):
    """Whether the reader's type reads what the writer's wrote."""
    if isinstance(reader, str) or isinstance(writer, str):
        return reader == writer or (isinstance(reader, str) and isinstance(writer, str) and (reader, writer) in PROMOTED)
    if reader == writer:
        return True
    if reader["type"] != "record" or writer["type"] != "record":
        raise Unlawful("this checker reads no such schema: %s" % compact(reader))
    if reader["name"] != writer["name"]:
        return False
    written = {field["name"]: field["type"] for field in writer["fields"]}
    return all(reads(field["type"], written[field["name"]]) if field["name"] in written else "default" in field
               for field in reader["fields"])


def clash(level, text, versions):
    """The version and the direction that a new schema clashes with, at a level. Versions are live, with the greatest first."""
    if level == "NONE":
        return None
    for number, entry in versions if level.endswith("TRANSITIVE") else itertools.islice(versions, 1):
        if not level.startswith("FORWARD") and not text_reads(text, entry.text):
            return "version %d, BACKWARD" % number
        if not level.startswith("BACKWARD") and not text_reads(entry.text, text):
            return "version %d, FORWARD" % number
    return None


# The registry that a log says

def refusal(status, code, message):
    return Verdict(status, {"error_code": code, "message": message}, [])


def not_permitted(why):
    return refusal(422, 42205, "Operation not permitted: " + why)


def scoped(kind, subject, value):
    return {"keytype": kind, "subject": subject, "magic": 0}, value


def version_record(subject, number, entry):
    return ({"keytype": "SCHEMA", "subject": subject, "version": number, "magic": 1},
            entry and {"subject": subject, "version": number, "id": entry.id, "schema": entry.text, "deleted": entry.is_deleted})


class Subject:
    """Its entries by version, their versions in order, and of a text those of its live versions."""

    def __init__(self):
        self.entries, self.order, self.same = {}, [], collections.defaultdict(set)

    def put(self, number, entry):
        """Has an entry stand, or none; gives the one that stood."""
        old = self.entries.pop(number, None)
        if old:
            del self.order[bisect.bisect_left(self.order, number)]
            self.same[old.text].discard(number)
        if entry:
            self.entries[number] = entry
            bisect.insort(self.order, number)
            if not entry.is_deleted:
                self.same[entry.text].add(number)
        return old

    def live(self):
        """Live versions with their entries, the greatest first."""
        return ((number, self.entries[number]) for number in reversed(self.order) if not self.entries[number].is_deleted)

    def latest(self):
        return next(self.live(), (None, None))[0]


NO_SUBJECT = Subject()


class Registry:
    def __init__(self):
        self.next, self.mark = 0, 0
        self.subjects = {}
        self.ids = collections.defaultdict(collections.Counter)         # of an id the texts of its entries
        self.texts = collections.defaultdict(collections.Counter)       # of a text the ids of its entries
        self.greatest, self.levels, self.modes = [], {}, {}

    # Records

    def put(self, subject, number, entry):
        """Has an entry stand, or none; gives the one that stood."""
        there = self.subjects.setdefault(subject, Subject())
        old = there.put(number, entry)
        if old:
            for index, one, other in ((self.ids, old.id, old.text), (self.texts, old.text, old.id)):
                index[one][other] -= 1
                index[one] += collections.Counter()         # drops what is 0
                if not index[one]:
                    del index[one]
        if entry:
            self.ids[entry.id][entry.text] += 1
            self.texts[entry.text][entry.id] += 1
            heapq.heappush(self.greatest, -entry.id)
        if not there.entries:
            del self.subjects[subject]
        return old

    def take(self, line):
        """Takes a line in, and gives what undoes that."""
        offset, key, value = line.rstrip("\n").split("\t")
        key, value, before = json.loads(key), json.loads(value), (self.next, self.mark)
        self.next = int(offset) + 1
        kind, subject, undo = key["keytype"], key.get("subject"), []
        if kind == "SCHEMA":
            number = key["version"]
            entry = value and Entry(value["id"], value["schema"], bool(value["deleted"]))
            undo.append(("entry", subject, number, self.put(subject, number, entry)))
        elif kind == "DELETE_SUBJECT":
            for number, entry in list(self.subject(subject).entries.items()):
                if number <= value["version"]:
                    undo.append(("entry", subject, number, self.put(subject, number, entry._replace(is_deleted=True))))
        elif kind == "ID_MARK":
            self.mark = value["id"]
        elif kind in ("CONFIG", "MODE"):
            values, member = (self.levels, "compatibilityLevel") if kind == "CONFIG" else (self.modes, "mode")
            undo.append((kind, subject, values.pop(subject, None)))
            if value is not None:
                values[subject] = value[member]
        return before, undo

    def take_back(self, taken):
        (self.next, self.mark), undo = taken
        for kind, subject, *old in reversed(undo):
            if kind == "entry":
                self.put(subject, *old)
            else:
                values = self.levels if kind == "CONFIG" else self.modes
                values.pop(subject, None)
                if old[0] is not None:
                    values[subject] = old[0]

    def lines_of(self, records):
        return ["%d\t%s\t%s\n" % (self.next + place, compact(key), compact(value)) for place, (key, value) in enumerate(records)]

    # What commands ask of it

    def subject(self, name):
        return self.subjects.get(name, NO_SUBJECT)

    def mode(self, subject):
        return self.modes.get(subject) or self.modes.get(None) or "READWRITE"

    def level(self, subject):
        return self.levels.get(subject) or self.levels.get(None) or "BACKWARD"

    def greatest_id(self):
        while self.greatest and -self.greatest[0] not in self.ids:
            heapq.heappop(self.greatest)
        return -self.greatest[0] if self.greatest else 0

    def marked(self):
        return {"keytype": "ID_MARK", "magic": 0}, {"id": max(self.mark, self.greatest_id())}

    # Commands: each a list of tests, and then what is written

    def decide(self, command):
        return getattr(self, command[0])(*command[1:])

    def register(self, subject, text, number, version):
        mode = self.mode(subject)
        if mode == "READONLY":
            return not_permitted("READONLY")
        if mode == "IMPORT" and number is None:
            return not_permitted("IMPORT needs id")
        if mode != "IMPORT" and number is not None:
            return not_permitted("id needs IMPORT")
        if number is not None:
            return self.bring(subject, text, number, version)
        there = self.subject(subject)
        if there.same.get(text):
            return Verdict(200, {"id": there.entries[max(there.same[text])].id}, [])
        fault = clash(self.level(subject), text, there.live())
        if fault:
            return refusal(409, 409, "Incompatible with " + fault)
        number = min(self.texts[text]) if text in self.texts else max(self.mark, self.greatest_id()) + 1
        version = (there.order or [0])[-1] + 1
        return Verdict(200, {"id": number}, [version_record(subject, version, Entry(number, text, False))])

    def bring(self, subject, text, number, version):
        """A registration with an id."""
        named = self.ids.get(number, {})
        if any(other != text for other in named):
            return not_permitted("id names another schema")
        if not named and number <= self.mark:
            return not_permitted("id is not above the mark")
        entries = self.subject(subject).entries
        if version is None:
            if any(entry == Entry(number, text, False) for entry in entries.values()):
                return Verdict(200, {"id": number}, [])
            version = max(entries, default=0) + 1
        there = entries.get(version)
        if there and not there.is_deleted:
            return Verdict(200, {"id": number}, []) if there[:2] == (number, text) else not_permitted("version is occupied")
        marks = [self.marked()] if there and there.id != number else []
        return Verdict(200, {"id": number}, marks + [version_record(subject, version, Entry(number, text, False))])

    def delete_version(self, subject, version, is_permanent):
        if self.mode(subject) == "READONLY":
            return not_permitted("READONLY")
        entries, latest = self.subject(subject).entries, self.subject(subject).latest()
        if not entries or (version == "latest" and latest is None):
            return refusal(404, 40401, "Subject not found")
        number = latest if version == "latest" else version
        if number not in entries:
            return refusal(404, 40402, "Version not found")
        entry = entries[number]
        if is_permanent and not entry.is_deleted:
            return refusal(404, 40407, "Version is not soft-deleted")
        if is_permanent:
            return Verdict(200, number, [self.marked(), version_record(subject, number, None)])
        if entry.is_deleted:
            return refusal(404, 40406, "Version is soft-deleted")
        return Verdict(200, number, [version_record(subject, number, entry._replace(is_deleted=True))])

    def delete_subject(self, subject, is_permanent):
        if self.mode(subject) == "READONLY":
            return not_permitted("READONLY")
        entries, live = self.subject(subject).order, sorted(number for number, _ in self.subject(subject).live())
        if not entries:
            return refusal(404, 40401, "Subject not found")
        if is_permanent and live:
            return refusal(404, 40405, "Subject is not soft-deleted")
        if is_permanent:
            return Verdict(200, list(entries), [self.marked()] + [version_record(subject, number, None) for number in entries])
        if not live:
            return refusal(404, 40404, "Subject is soft-deleted")
        return Verdict(200, live, [scoped("DELETE_SUBJECT", subject, {"subject": subject, "version": max(entries)})])

    def set_level(self, subject, level):
        if self.mode(subject) == "READONLY":
            return not_permitted("READONLY")
        return Verdict(200, {"compatibility": level}, [scoped("CONFIG", subject, {"compatibilityLevel": level})])

    def clear_level(self, subject):
        if self.mode(subject) == "READONLY":
            return not_permitted("READONLY")
        if subject not in self.levels:
            return refusal(404, 40408, "Subject has no level")
        return Verdict(200, {"compatibilityLevel": self.levels[subject]}, [scoped("CONFIG", subject, None)])

    def set_mode(self, subject, mode, is_forced):
        scope = list(self.subjects) if subject is None else [subject]
        if mode == "IMPORT" and not is_forced and any(self.subject(name).latest() for name in scope):
            return not_permitted("scope is not empty")
        return Verdict(200, {"mode": mode}, [scoped("MODE", subject, {"mode": mode})])

    def clear_mode(self, subject):
        if subject not in self.modes:
            return refusal(404, 40409, "Subject has no mode")
        return Verdict(200, {"mode": self.modes[subject]}, [scoped("MODE", subject, None)])


# What was asked, and what was told

def command_of(method, path, body):
    """The command that a request asks, and None for a query."""
    path, _, query = path.partition("?")
    parts = [unquote(part) for part in path.split("/")[1:]]
    switches = set(query.split("&"))
    is_permanent = "permanent=true" in switches
    if method == "POST" and parts[0] == "subjects" and len(parts) == 3:
        number, version = body.get("id"), body.get("version")
        return "register", parts[1], normal(body["schema"]), None if number == -1 else number, None if version in (-1, 0) else version
    if method == "DELETE" and parts[0] == "subjects":
        if len(parts) == 2:
            return "delete_subject", parts[1], is_permanent
        return "delete_version", parts[1], "latest" if parts[3] in ("latest", "-1") else int(parts[3]), is_permanent
    scope = parts[1] if len(parts) > 1 else None
    if method == "DELETE":
        return "clear_level" if parts[0] == "config" else "clear_mode", scope
    if method == "PUT" and parts[0] == "config":
        return "set_level", scope, body["compatibility"].upper()
    if method == "PUT":
        return "set_mode", scope, body["mode"].upper(), "force=true" in switches
    return None


def kind_of(command):
    """What commands that may write the same batch have in common."""
    if command[0] == "register":
        return command[:3]
    return {"delete_version": "delete", "delete_subject": "delete", "set_level": "level", "clear_level": "level"}.get(command[0], "mode"), command[1]


def kind_of_batch(lines):
    """The same, of the command that may have written a batch."""
    records = [[json.loads(field) for field in line.rstrip("\n").split("\t")[1:]] for line in lines]
    for key, value in records:
        kind, subject = key["keytype"], key.get("subject")
        if kind == "SCHEMA" and value and not value["deleted"]:
            return "register", subject, value["schema"]
        if kind in ("SCHEMA", "DELETE_SUBJECT"):
            return "delete", subject
        if kind in ("CONFIG", "MODE"):
            return "level" if kind == "CONFIG" else "mode", subject
    return None


class Request:
    """A command that somebody asked. `place` is none until it has one; then it says how: "read", "wrote", or "apart", answered without the
    store."""

    def __init__(self, said):
        self.said, self.asked, self.had = said, said["asked"], said["had"]
        self.command = command_of(said["method"], said["path"], said.get("body"))
        self.place = None
        answer = said.get("answer")
        code = answer.get("error_code") if isinstance(answer, dict) else None
        message = answer.get("message") if isinstance(answer, dict) else None
        self.is_not_done = code in NOT_DONE or message == MEMORY
        self.is_open = said["status"] is None or message == UNSETTLED or code in NO_ANSWER or (code is None and said["status"] >= 500)

    def is_answer(self, verdict):
        """Whether the verdict is what was answered."""
        answer, body = self.said["answer"], verdict.body
        if self.said["status"] == 409 and verdict.status == 409:
            return answer["message"].startswith(body["message"] + ", at ")
        return (self.said["status"], answer) == (verdict.status, body)

    def __str__(self):
        said = self.said
        return "%s %s %s, asked at %.3f and answered at %s by %s %s" % (
            said["method"], said["path"], compact(said["body"]) if said.get("body") else "", self.asked,
            "%.3f" % self.had if self.had is not None else "no time", said["status"], compact(said.get("answer")))


# The search for places

class Walk:
    """From batch to batch; at each place those commands are answered that may be. What writes nothing is answered at the first place where
    its answer is right, which never keeps others from theirs. Two things may be chosen wrongly: which of several commands wrote a batch, and
    that a registration wrote nothing where it could also have written a later batch, since another command deleted its schema in between.
    So where it doesn't go on, the walk goes back to the last choice, and chooses otherwise."""

    def __init__(self, base, batches, requests):
        self.registry, self.batches, self.at = Registry(), batches, 0
        for line in base:
            if line.startswith("floor\t"):
                self.registry.next = int(line.split("\t")[1])
            else:
                self.registry.take(line)
        commands = [one for one in map(Request, requests) if one.command and not one.is_not_done]
        self.answered = sorted((one for one in commands if not one.is_open), key=lambda one: one.asked)
        self.by_had = sorted(self.answered, key=lambda one: one.had)
        for rank, one in enumerate(self.answered):
            one.rank = rank
        for rank, one in enumerate(self.by_had):
            one.had_rank = rank
        self.open = collections.defaultdict(list)       # those that may have been done or not, by kind
        for one in sorted((one for one in commands if one.is_open), key=lambda one: one.asked):
            self.open[kind_of(one.command)].append(one)
        self.kinds = [kind_of_batch(lines) for lines in batches]
        self.of_kind = collections.defaultdict(list)    # the batches of a kind
        for number, kind in enumerate(self.kinds):
            self.of_kind[kind].append(number)
        self.first, self.first_had = 0, 0               # before these all have a place
        self.journal, self.choices = [], []             # what was done, to be undone; and where it could have been done otherwise
        self.held, self.used, self.tries, self.furthest = {}, 0, 0, (-1, "")
        self.was_live = {(name, entry.text, entry.id) for name, subject in self.registry.subjects.items() for _, entry in subject.live()}

    def run(self):
        seen = set()
        while True:
            self.answer_all()
            ready = self.ready()
            # what it depends on how it goes on; where it comes to the same again, it went wrong already
            stand = self.at, self.used, tuple((one.rank, max(self.at - 1, self.held.get(one, -1))) for one in ready)
            if stand not in seen:
                seen.add(stand)
                if self.at == len(self.batches):
                    if not self.unplaced():
                        return
                elif self.step(ready):
                    continue
                if self.at > self.furthest[0]:
                    self.furthest = self.at, self.why()
                if self.set_apart(ready):
                    continue
            if not self.choose_otherwise():
                raise Unlawful(self.furthest[1])

    # Who may be answered now

    def unplaced(self):
        return [one for one in self.answered[self.first:] if one.place is None]

    def limit(self):
        """When the first of those was answered that have no place yet. Who was asked later than that has to wait."""
        while self.first_had < len(self.by_had) and self.by_had[self.first_had].place:
            self.first_had += 1
        return self.by_had[self.first_had].had if self.first_had < len(self.by_had) else float("inf")

    def ready(self):
        """Those that were answered, have no place yet, and may have one now."""
        while self.first < len(self.answered) and self.answered[self.first].place:
            self.first += 1
        limit, found = self.limit(), []
        for rank in range(self.first, len(self.answered)):
            one = self.answered[rank]
            if one.asked > limit:
                break
            if not one.place:
                found.append(one)
        return found

    def answer_all(self):
        """Places all that write nothing here and are answered rightly."""
        has_placed = True
        while has_placed:
            has_placed = False
            for one in self.ready():
                if self.held.get(one, -1) < self.at:
                    verdict = self.registry.decide(one.command)
                    if not verdict.records and one.is_answer(verdict):
                        self.answer(one)
                        has_placed = True

    def answer(self, one):
        if one.command[0] == "register" and one.said["status"] == 200:
            batches = self.of_kind[kind_of(one.command)]
            place = bisect.bisect_left(batches, self.at)
            if place < len(batches) and batches[place] < self.at + REACH:
                self.choices.append((len(self.journal), [("hold", one, batches[place])]))
        one.place = "read"
        self.journal.append((one, None))

    # Batches

    def writes_it(self, one, lines):
        verdict = self.registry.decide(one.command)
        return self.registry.lines_of(verdict.records) == lines and (one.is_open or one.is_answer(verdict))

    def step(self, ready):
        """Goes over the next batch, where somebody wrote it."""
        lines, kind, limit = self.batches[self.at], self.kinds[self.at], self.limit()
        answered = [one for one in ready if kind_of(one.command) == kind]
        answered.sort(key=lambda one: (self.held.get(one) != self.at, one.had))
        unknown = [one for one in self.open[kind] if not one.place and one.asked <= limit]
        writers = [one for one in answered + unknown if self.writes_it(one, lines)]
        if not writers:
            return False
        others = [("write", one, None) for one in writers[1:8]] + ([("apart", None, None)] if self.may_be_apart(ready) else [])
        if others:
            self.choices.append((len(self.journal), others))
        self.write(writers[0])
        return True

    def write(self, one):
        lines = self.batches[self.at]
        one.place = "wrote"
        self.journal.append((one, [self.registry.take(line) for line in lines]))
        if one.is_open:
            self.used ^= hash(id(one))
        if one.command[0] == "register":
            self.was_live.add((one.command[1], one.command[2], json.loads(lines[-1].split("\t")[2])["id"]))
        self.at += 1

    # Where it doesn't go on

    def may_be_apart(self, ready):
        """Registrations that were answered by the id of what was live once: a process may do that without its store."""
        return [one for one in ready if one.command[0] == "register" and one.command[3] is None and one.said["status"] == 200
                and self.held.get(one, -1) < self.at and (*one.command[1:3], one.said["answer"]["id"]) in self.was_live]

    def set_apart(self, ready):
        found = self.may_be_apart(ready)
        if found:
            one = min(found, key=lambda one: one.had)
            one.place = "apart"
            self.journal.append((one, None))
        return bool(found)

    def choose_otherwise(self):
        """Goes back to the last choice that wasn't tried out, unless it has done so too often."""
        self.tries += 1
        while self.choices and self.tries < TRIES:
            length, others = self.choices[-1]
            if not others:
                self.choices.pop()
                continue
            how, one, until = others.pop(0)
            self.undo_to(length)
            if how == "write":
                self.write(one)
            elif how == "apart":
                self.set_apart(self.ready())
            else:
                self.journal.append((one, ("hold", self.held.get(one))))
                self.held[one] = until
            return True
        return False

    def undo_to(self, length):
        while len(self.journal) > length:
            one, done = self.journal.pop()
            if isinstance(done, tuple):
                self.held[one] = -1 if done[1] is None else done[1]
                continue
            if done:
                self.at -= 1
                for taken in reversed(done):
                    self.registry.take_back(taken)
            one.place = None
            if one.is_open:
                self.used ^= hash(id(one))
            else:
                self.first, self.first_had = min(self.first, one.rank), min(self.first_had, one.had_rank)

    def why(self):
        """In words, why nobody wrote the next batch."""
        if self.at == len(self.batches):
            return "answered rightly at no place: %s" % min(self.unplaced(), key=lambda one: one.had)
        lines, limit = self.batches[self.at], self.limit()
        where = "the batch at offset %s" % lines[0].split("\t")[0]
        kind = kind_of_batch(lines)
        if int(lines[0].split("\t")[0]) != self.registry.next:
            return "%s doesn't begin at offset %d" % (where, self.registry.next)
        for one in [*self.answered, *self.open[kind]]:
            if not one.place and one.asked > limit and kind_of(one.command) == kind and self.writes_it(one, lines):
                return "%s was written after this was answered, which is right at no place before it: %s" % (where, self.by_had[self.first_had])
        asked = [one for one in [*self.answered, *self.open[kind]] if kind_of(one.command) == kind and not one.place]
        if not asked:
            return "%s was asked by nobody who hasn't written another one: %s" % (where, "".join(lines)[:600])
        near = min(asked, key=lambda one: one.asked)
        verdict = self.registry.decide(near.command)
        return "%s isn't what was asked: %s\nby: %s\nwhich is answered there by: %d %s, and writes: %s" % (
            where, "".join(lines)[:600], near, verdict.status, compact(verdict.body), "".join(self.registry.lines_of(verdict.records))[:600])


# All of it

def ids_of(lines):
    """Of each id its schema; no id may have two."""
    found = {}
    for line in lines:
        offset, key, value = line.rstrip("\n").split("\t") if not line.startswith("floor\t") else (0, "{}", "null")
        if json.loads(key).get("keytype") == "SCHEMA" and value != "null":
            version = json.loads(value)
            if found.setdefault(version["id"], version["schema"]) != version["schema"]:
                raise Unlawful("the id %d names two schemas, one at offset %s" % (version["id"], offset))
    return found


def check(base, batches, requests):
    """Raises Unlawful, or gives what was counted."""
    schemas = ids_of(base + [line for batch in batches for line in batch])
    walk = Walk(base, batches, requests)
    walk.run()
    told, deleted, counts = {}, deleted_ids(batches), collections.Counter()
    for one in walk.answered:
        counts[one.place] += 1
        counts["refused"] += one.said["status"] != 200
        if one.command[0] == "register" and one.said["status"] == 200:
            number = one.said["answer"]["id"]
            told[number] = min(told.get(number, one.had), one.had)
    for kind in walk.open.values():
        counts["unknown"] += len(kind)
        counts["unknown, wrote"] += sum(one.place == "wrote" for one in kind)
    for one in requests:
        if one["method"] == "GET" and one["path"].startswith("/schemas/ids/") and one["path"].count("/") == 3:
            number = int(one["path"].split("/")[3])
            if one["status"] == 200:
                counts["lookups"] += 1
                if schemas.get(number) != one["answer"]["schema"]:
                    raise Unlawful("the id %d has another schema in the log than a lookup gave: %s" % (number, compact(one)))
            if one["status"] == 404 and told.get(number, float("inf")) < one["asked"] and number not in deleted:
                counts["lookups that missed an acknowledged id"] += 1
    return counts


def deleted_ids(batches):
    """The ids of which a version was deleted for good."""
    ids, found = {}, set()
    for line in (line for batch in batches for line in batch):
        _, key, value = line.split("\t")
        key, value = json.loads(key), json.loads(value)
        if key["keytype"] == "SCHEMA":
            name = key["subject"], key["version"]
            if value is None:
                found.add(ids.get(name))
            ids[name] = value and value["id"]
    return found


def read_told(lines):
    """Base and batches, of what an adapter told."""
    lines = iter(lines)
    base = list(iter(lambda: next(lines, "\n"), "\n"))
    batches = [list(iter(lambda: next(lines, "\n"), "\n")) for line in lines if line == "batch\n"]
    return base, batches


def say(counts):
    return ", ".join("%s: %d" % (name, counts[name]) for name in (
        "wrote", "read", "refused", "apart", "unknown", "unknown, wrote", "lookups", "lookups that missed an acknowledged id"))


def main():
    if sys.argv[1:] == ["--test"]:
        import made_by_hand
        return made_by_hand.main()
    if len(sys.argv) != 3:
        print(__doc__)
        return 2
    with open(sys.argv[1], encoding="utf-8") as log, open(sys.argv[2], encoding="utf-8") as requests:
        base, batches = read_told(log)
        asked = [json.loads(line) for line in requests]
    try:
        print("lawful; %d batches; %s" % (len(batches), say(check(base, batches, asked))))
    except Unlawful as fault:
        print("NOT LAWFUL:", fault)
        return 1
    return 0


if __name__ == "__main__":
    sys.exit(main())
