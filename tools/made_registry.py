"""Registries that are made for the trials: what one holds, the log that says so, and whether a registry answers so."""
import http.client
import json
import random
from dataclasses import dataclass, field
from urllib.parse import quote

NAMES = ("orders-{}", "team/orders {}", "größe {}", "100%25 {}", "a+b {}", "x?y=1&z#{}", "..{}", ":{}:", "quoted \"{}\"", "TopicValue{}")
LEVELS = ("NONE", "BACKWARD", "BACKWARD_TRANSITIVE", "FORWARD", "FORWARD_TRANSITIVE", "FULL", "FULL_TRANSITIVE")


@dataclass
class Made:
    """What a registry holds. A version is an id, a schema's text, and whether it is live."""
    versions: dict = field(default_factory=dict)   # of subject and number
    levels: dict = field(default_factory=dict)     # of subjects, and of None for all
    modes: dict = field(default_factory=dict)

    def subjects(self):
        return sorted({subject for subject, _ in self.versions})

    def ids(self):
        return {number: schema for number, schema, _ in self.versions.values()}


def make_registry(subjects, versions, seed):
    """A registry of every kind: soft-deleted versions and subjects, gaps in ids and versions, schemas with two ids, an id in several
    subjects, a subject with a twentieth of all versions, levels, subjects that are READONLY, and names that a path has to escape."""
    choose = random.Random(seed)
    made = Made()
    names = [NAMES[number % len(NAMES)].format(number) for number in range(subjects)]
    owners = names + [names[0]] * (versions // 20)
    owners += [choose.choice(names) for _ in range(versions - len(owners))]
    choose.shuffle(owners)
    last = dict.fromkeys(names, 0)
    for subject, (number, schema) in zip(owners, make_schemas(len(owners), choose)):
        last[subject] += choose.choice((1, 1, 1, 2, 5))
        made.versions[subject, last[subject]] = (number, schema, choose.random() > 0.1)
    gone = set(choose.sample(names, subjects // 50))
    made.versions = {key: (number, schema, is_live and key[0] not in gone) for key, (number, schema, is_live) in made.versions.items()}
    made.levels = {None: "FULL", **{name: choose.choice(LEVELS) for name in choose.sample(names, subjects // 20)}}
    made.modes = {name: "READONLY" for name in choose.sample(names, subjects // 30)}
    return made


def make_schemas(count, choose):
    """So many ids with a schema each: a tenth were there before, and of some the schema was there before under another id."""
    given, greatest = [], 0
    for _ in range(count):
        kind = choose.random()
        if given and kind < 0.1:
            yield choose.choice(given)
            continue
        greatest += choose.choice((1, 1, 1, 2, 7))
        given.append((greatest, choose.choice(given)[1] if given and kind < 0.13 else make_schema(greatest, choose)))
        yield given[-1]


def make_schema(number, choose):
    """A record, in a spelling that isn't its normal text."""
    fields = [{"name": f"f{place}", "type": choose.choice(("int", "string", ["null", "long"], {"type": "array", "items": "bytes"})),
               "doc": "größer \"als\" \\ alles"} for place in range(choose.randrange(1, 6))]
    fields.append({"name": "count", "type": "long", "default": choose.choice((0, 1, -5, 2**40))})
    return json.dumps({"type": "record", "name": f"R{number}", "namespace": "made.here", "fields": fields},
                      ensure_ascii=choose.random() < 0.5)


def log_of(made):
    """The lines of a log that says what was made. Every other subject without a live version was deleted as a whole."""
    records = []
    live = {subject for (subject, _), (_, _, is_live) in made.versions.items() if is_live}
    for (subject, number), (schema_id, schema, is_live) in sorted(made.versions.items(), key=lambda item: (item[1][0], item[0])):
        is_whole = subject not in live and len(subject) % 2 == 0
        value = {"subject": subject, "version": number, "id": schema_id, "schema": schema, "deleted": not is_live and not is_whole}
        records.append(({"keytype": "SCHEMA", "subject": subject, "version": number, "magic": 1}, value))
    for subject in set(made.subjects()) - live:
        if len(subject) % 2 == 0:
            last = max(number for name, number in made.versions if name == subject)
            records.append(({"keytype": "DELETE_SUBJECT", "subject": subject, "magic": 0}, {"subject": subject, "version": last}))
    for kind, member, values in (("CONFIG", "compatibilityLevel", made.levels), ("MODE", "mode", made.modes)):
        records += [({"keytype": kind, "subject": subject, "magic": 0}, {member: value}) for subject, value in values.items()]
    return "".join(f"{offset}\t{json.dumps(key)}\t{json.dumps(value)}\n" for offset, (key, value) in enumerate(records)) + "\n"


class Client:
    """One connection to a registry. It shares no code with the tools."""

    def __init__(self, port):
        self.connection = http.client.HTTPConnection("127.0.0.1", port, timeout=60)

    def ask(self, method, path, body=None):
        """The status and the body of an answer."""
        headers = {} if body is None else {"Content-Type": "application/json"}
        self.connection.request(method, path, None if body is None else json.dumps(body), headers)
        response = self.connection.getresponse()
        return response.status, json.loads(response.read())

    def get(self, path):
        return self.ask("GET", path)


def spelled(schema):
    return json.dumps(json.loads(schema), sort_keys=True)


def answers_wrongly(port, made):
    """What the registry at that port answers otherwise than was made, a line each."""
    client = Client(port)
    if client.get("/subjects?deleted=true") != (200, sorted(made.subjects(), key=str.encode)):
        yield "the subjects"
    for subject in made.subjects():
        yield from subject_is_wrong(client, made, subject)
    for number, schema in made.ids().items():
        status, body = client.get(f"/schemas/ids/{number}")
        if status != 200 or spelled(body["schema"]) != spelled(schema):
            yield f"id {number}: {status} {body}"
    if client.get("/config")[1].get("compatibilityLevel") != made.levels[None]:
        yield "the level for all subjects"


def subject_is_wrong(client, made, subject):
    path = f"/subjects/{quote(subject, safe='')}/versions"
    versions = {number: value for (name, number), value in made.versions.items() if name == subject}
    live = [number for number, value in sorted(versions.items()) if value[2]]
    if client.get(path + "?deleted=true") != (200, sorted(versions)):
        yield f"the versions of {subject}"
    status, body = client.get(path)
    if (status, body) != (200, live) if live else status != 404:
        yield f"the live versions of {subject}"
    for number, (schema_id, schema, _) in versions.items():
        status, body = client.get(f"{path}/{number}?deleted=true")
        if status != 200 or body["id"] != schema_id or spelled(body["schema"]) != spelled(schema):
            yield f"version {number} of {subject}: {status} {body}"
    for kind, member, values in (("config", "compatibilityLevel", made.levels), ("mode", "mode", made.modes)):
        status, body = client.get(f"/{kind}/{quote(subject, safe='')}")
        if (body.get(member) if status == 200 else None) != values.get(subject):
            yield f"the {kind} of {subject}: {status} {body}"
