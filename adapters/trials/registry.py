"""A small registry of the trials' own, in plain Python: docs/COMMANDS.md and docs/FORMATS.md for schemas that are a primitive's name.
It shares no code with the adapters or with the program that they start."""
import json
from dataclasses import dataclass, field

READS = {("long", "int"), ("float", "int"), ("double", "int"), ("float", "long"), ("double", "long"), ("double", "float"),
         ("string", "bytes"), ("bytes", "string")}     # a reader's type and a writer's


class Foreign(Exception):
    """Lines that aren't the batch of a command."""


def compact(value):
    return json.dumps(value, separators=(",", ":"), ensure_ascii=False)


def reads(reader, writer):
    return reader == writer or (json.loads(reader), json.loads(writer)) in READS


@dataclass
class Entry:
    """A version that stands."""
    id: int
    schema: str
    is_deleted: bool


@dataclass
class Registry:
    """What a log says."""
    next: int = 0
    mark: int = 0
    entries: dict = field(default_factory=dict)     # of subject and version
    levels: dict = field(default_factory=dict)      # of subjects, and of None for all
    modes: dict = field(default_factory=dict)
    last: dict = field(default_factory=dict)        # the last value of each key, as texts

    # Records

    def take(self, line):
        """Takes a line of a log in."""
        offset, key, value = line.rstrip("\n").split("\t")
        self.next = max(self.next, int(offset) + 1)
        said, means = json.loads(key), json.loads(value)
        kind, subject = said["keytype"], said.get("subject")
        self.last[key] = value
        if kind == "SCHEMA":
            self.take_version((subject, said["version"]), means)
        elif kind == "ID_MARK":
            self.mark = means["id"]
        elif kind == "DELETE_SUBJECT":
            for name, number in self.entries:
                if name == subject and number <= means["version"]:
                    self.entries[name, number].is_deleted = True
        elif kind in ("CONFIG", "MODE"):
            values, member = (self.levels, "compatibilityLevel") if kind == "CONFIG" else (self.modes, "mode")
            values.pop(subject, None)
            if means is not None:
                values[subject] = means[member]

    def take_version(self, name, means):
        self.entries.pop(name, None)
        if means is not None:
            self.entries[name] = Entry(means["id"], means["schema"], means["deleted"])

    def values_by_key(self):
        """The last values, without deletes: the same of a log and of its compactions."""
        return sorted((key, value) for key, value in self.last.items() if value != "null")

    # What commands ask

    def of(self, subject, only_live=False):
        """A subject's entries, ascending."""
        numbers = sorted(number for name, number in self.entries if name == subject)
        found = {number: self.entries[subject, number] for number in numbers}
        return {number: entry for number, entry in found.items() if not (only_live and entry.is_deleted)}

    def mode(self, subject):
        return self.modes.get(subject) or self.modes.get(None) or "READWRITE"

    def level(self, subject):
        return self.levels.get(subject) or self.levels.get(None) or "BACKWARD"

    def greatest_id(self):
        return max([entry.id for entry in self.entries.values()], default=0)

    def mark_record(self):
        return {"keytype": "ID_MARK", "magic": 0}, {"id": max(self.mark, self.greatest_id())}

    # Commands: the status, the body, and the records that are written

    def decide(self, command):
        kind, *words = command
        return getattr(self, kind)(*words)

    def register(self, subject, schema, number=None, version=None):
        mode = self.mode(subject)
        if mode == "READONLY":
            return not_permitted("READONLY")
        if (mode == "IMPORT") != (number is not None):
            return not_permitted("IMPORT needs id" if mode == "IMPORT" else "id needs IMPORT")
        if number is not None:
            return self.import_version(subject, schema, number, version)
        live = self.of(subject, only_live=True)
        same = [entry.id for entry in live.values() if entry.schema == schema]
        if same:
            return 200, {"id": same[-1]}, []
        clash = self.clash(self.level(subject), schema, live)
        if clash:
            return refusal(409, 409, "Incompatible with " + clash)
        known = [entry.id for entry in self.entries.values() if entry.schema == schema]
        number = min(known, default=max(self.mark, self.greatest_id()) + 1)
        return 200, {"id": number}, [version_record(subject, max(self.of(subject), default=0) + 1, Entry(number, schema, False))]

    @staticmethod
    def clash(level, schema, live):
        if level == "NONE":
            return None
        for number, entry in reversed(list(live.items()) if level.endswith("TRANSITIVE") else list(live.items())[-1:]):
            if not level.startswith("FORWARD") and not reads(schema, entry.schema):
                return "version %d, BACKWARD, at /: TYPE_MISMATCH" % number
            if not level.startswith("BACKWARD") and not reads(entry.schema, schema):
                return "version %d, FORWARD, at /: TYPE_MISMATCH" % number
        return None

    def import_version(self, subject, schema, number, version):
        named = {entry.schema for entry in self.entries.values() if entry.id == number}
        if named - {schema}:
            return not_permitted("id names another schema")
        if not named and number <= self.mark:
            return not_permitted("id is not above the mark")
        entries = self.of(subject)
        if version is None:
            if any(not entry.is_deleted and (entry.id, entry.schema) == (number, schema) for entry in entries.values()):
                return 200, {"id": number}, []
            version = max(entries, default=0) + 1
        there = entries.get(version)
        if there and not there.is_deleted:
            return (200, {"id": number}, []) if (there.id, there.schema) == (number, schema) else not_permitted("version is occupied")
        records = [version_record(subject, version, Entry(number, schema, False))]
        return 200, {"id": number}, [self.mark_record()] + records if there and there.id != number else records

    def delete_version(self, subject, version, is_permanent):
        if self.mode(subject) == "READONLY":
            return not_permitted("READONLY")
        entries = self.of(subject)
        if not entries:
            return refusal(404, 40401, "Subject not found")
        if version not in entries:
            return refusal(404, 40402, "Version not found")
        entry = entries[version]
        if not is_permanent:
            if entry.is_deleted:
                return refusal(404, 40406, "Version is soft-deleted")
            return 200, version, [version_record(subject, version, Entry(entry.id, entry.schema, True))]
        if not entry.is_deleted:
            return refusal(404, 40407, "Version is not soft-deleted")
        return 200, version, [self.mark_record(), version_record(subject, version, None)]

    def delete_subject(self, subject, is_permanent):
        if self.mode(subject) == "READONLY":
            return not_permitted("READONLY")
        entries, live = self.of(subject), self.of(subject, only_live=True)
        if not entries:
            return refusal(404, 40401, "Subject not found")
        if is_permanent and live:
            return refusal(404, 40405, "Subject is not soft-deleted")
        if is_permanent:
            return 200, list(entries), [self.mark_record()] + [version_record(subject, number, None) for number in entries]
        if not live:
            return refusal(404, 40404, "Subject is soft-deleted")
        key = {"keytype": "DELETE_SUBJECT", "subject": subject, "magic": 0}
        return 200, list(live), [(key, {"subject": subject, "version": max(entries)})]

    def set_level(self, subject, level):
        if self.mode(subject) == "READONLY":
            return not_permitted("READONLY")
        return 200, {"compatibility": level}, [({"keytype": "CONFIG", "subject": subject, "magic": 0}, {"compatibilityLevel": level})]

    def clear_level(self, subject):
        if self.mode(subject) == "READONLY":
            return not_permitted("READONLY")
        if subject not in self.levels:
            return refusal(404, 40408, "Subject has no level")
        return 200, {"compatibilityLevel": self.levels[subject]}, [({"keytype": "CONFIG", "subject": subject, "magic": 0}, None)]

    def set_mode(self, subject, mode, is_forced):
        if mode == "IMPORT" and not is_forced and any(not entry.is_deleted for (name, _), entry in self.entries.items()
                                                      if subject in (None, name)):
            return not_permitted("scope is not empty")
        return 200, {"mode": mode}, [({"keytype": "MODE", "subject": subject, "magic": 0}, {"mode": mode})]

    def clear_mode(self, subject):
        if subject not in self.modes:
            return refusal(404, 40409, "Subject has no mode")
        return 200, {"mode": self.modes[subject]}, [({"keytype": "MODE", "subject": subject, "magic": 0}, None)]

    # Batches

    def lines_of(self, records):
        return ["%d\t%s\t%s\n" % (self.next + place, compact(key), compact(value)) for place, (key, value) in enumerate(records)]

    def replay(self, lines):
        """Takes a batch in, where it is exactly what a command writes here, and gives that command."""
        records = [tuple(json.loads(text) for text in line.split("\t")[1:]) for line in lines]
        command = self.command_of(records)
        if self.lines_of(self.decide(command)[2]) != lines:
            raise Foreign("".join(lines))
        for line in lines:
            self.take(line)
        return command

    def command_of(self, records):
        """The command that may have written these records."""
        (key, value), *more = [record for record in records if record[0]["keytype"] != "ID_MARK"] or [({"keytype": None}, None)]
        kind, subject = key["keytype"], key.get("subject")
        if kind == "SCHEMA" and value is None:
            return ("delete_subject", subject, True) if more else ("delete_version", subject, key["version"], True)
        if kind == "SCHEMA" and value["deleted"]:
            return "delete_version", subject, key["version"], False
        if kind == "SCHEMA":
            is_import = self.mode(subject) == "IMPORT"
            return ("register", subject, value["schema"], *((value["id"], key["version"]) if is_import else ()))
        if kind == "DELETE_SUBJECT":
            return "delete_subject", subject, False
        if kind == "CONFIG":
            return ("set_level", subject, value["compatibilityLevel"]) if value else ("clear_level", subject)
        if kind == "MODE":
            return ("set_mode", subject, value["mode"], True) if value else ("clear_mode", subject)
        raise Foreign(records)


def version_record(subject, number, entry):
    key = {"keytype": "SCHEMA", "subject": subject, "version": number, "magic": 1}
    return key, entry and {"subject": subject, "version": number, "id": entry.id, "schema": entry.schema, "deleted": entry.is_deleted}


def refusal(status, code, message):
    return status, {"error_code": code, "message": message}, []


def not_permitted(why):
    return refusal(422, 42205, "Operation not permitted: " + why)


def read_base(lines):
    """The registry that a base says, and what is written where a mark is due."""
    registry = Registry()
    for line in lines:
        if line.startswith("floor\t"):
            registry.next = int(line.split("\t")[1])
        else:
            registry.take(line)
    if registry.greatest_id() > registry.mark:
        raise Foreign("the base owes a mark of ids")
    return registry
