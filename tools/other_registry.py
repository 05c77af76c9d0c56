"""A registry of another maker, as far as the trials need one: it answers as Confluent's does where that differs from this
repository's, and more widely still. Its answers have members and header fields that nobody asked for, and it fails on purpose."""
import json
import random
import re
import ssl
import threading
from dataclasses import dataclass, field
from http.server import BaseHTTPRequestHandler, ThreadingHTTPServer
from urllib.parse import parse_qs, unquote, urlsplit

MORE = {f"member_{number}": None if number % 3 else [number] for number in range(40)}
PAGE = 700   # subjects in one answer, for clients that ask from an offset on


class Refusal(Exception):
    def __init__(self, status, code, message):
        super().__init__(message)
        self.status, self.body = status, {"error_code": code, "message": message}


@dataclass
class Entry:
    id: int
    schema: str
    deleted: bool = False
    extras: dict = field(default_factory=dict)


class OtherRegistry:
    """The registry and its server. `faults` is how many of a thousand requests go wrong, in one of three ways. With a certificate
    and its key it speaks TLS."""

    def __init__(self, faults=0, seed=1, has_level=True, certificate=None, is_served=True):
        self.subjects, self.levels, self.modes = {}, {}, {}
        if has_level:
            self.levels[None] = {"compatibilityLevel": "BACKWARD"}
        self.greatest = 0
        self.marked = None   # new ids up to it are refused, once it is set: as this repository's registry does after a start
        self.repeats = []   # registrations that came although they stood already
        self.authorization = None   # the field that requests have to have
        self.proxy_fields = set()   # those that came for a proxy
        self.faults, self.random, self.lock = faults, random.Random(seed), threading.Lock()
        if is_served:
            self.serve(certificate)

    def serve(self, certificate):
        self.server = ThreadingHTTPServer(("127.0.0.1", 0), Handler)
        self.server.registry, self.server.daemon_threads = self, True
        if certificate:
            context = ssl.SSLContext(ssl.PROTOCOL_TLS_SERVER)
            context.load_cert_chain(*certificate)
            self.server.socket = context.wrap_socket(self.server.socket, server_side=True)
        threading.Thread(target=self.server.serve_forever, daemon=True).start()
        self.url = f"{'https' if certificate else 'http'}://127.0.0.1:{self.server.server_port}"

    def stop(self):
        self.server.shutdown()
        self.server.server_close()

    def put(self, subject, number, entry):
        """Puts a version there without a request."""
        self.subjects.setdefault(subject, {})[number] = entry
        self.greatest = max(self.greatest, entry.id)

    def start_again(self):
        self.marked = self.greatest

    def answer(self, method, path, body=None):
        """The status and the body of the answer to a request."""
        target = urlsplit(path)
        query = {name: values[-1] for name, values in parse_qs(target.query).items() if values[-1] != "false"}
        given = [json.loads(body)] if body else []
        for known, pattern, name in ROUTES:
            match = pattern.fullmatch(target.path)
            if match and known == method:
                try:
                    return 200, getattr(self, name)(query, *given, *map(unquote, match.groups()))
                except Refusal as refusal:
                    return refusal.status, refusal.body
        return 404, {"error_code": 404, "message": "HTTP 404 Not Found"}

    # What requests ask; each has the parts of its path, the query and the body.

    def list_subjects(self, query):
        names = sorted(name for name, entries in self.subjects.items()
                       if query.get("deleted") or any(not entry.deleted for entry in entries.values()))
        start = int(query.get("offset", 0))
        return names[start:start + PAGE]

    def list_versions(self, query, subject):
        found = [number for number, entry in sorted(self.entries(subject).items()) if query.get("deleted") or not entry.deleted]
        if not found:
            raise Refusal(404, 40401, f"Subject '{subject}' not found.")
        return found

    def show_version(self, query, subject, number):
        entry = self.entries(subject).get(int(number))
        if entry is None or entry.deleted and not query.get("deleted"):
            raise Refusal(404, 40402, f"Version {number} not found.")
        return {"subject": subject, "version": int(number), "id": entry.id, "guid": f"guid-{entry.id}", "schemaType": "AVRO",
                "schema": entry.schema, "deleted": entry.deleted, **MORE, **entry.extras}

    def show_id(self, query, number):
        for entries in self.subjects.values():
            for entry in entries.values():
                if entry.id == int(number):
                    return {"schemaType": "AVRO", "schema": entry.schema, "maxId": self.greatest, "guid": f"guid-{number}", **MORE}
        raise Refusal(404, 40403, f"Schema {number} not found")

    def look_up(self, query, body, subject):
        wanted = parsed(body["schema"])
        found = [(number, entry) for number, entry in self.entries(subject).items()
                 if parsed(entry.schema) == wanted and (query.get("deleted") or not entry.deleted)]
        if not found:
            raise Refusal(404, 40403, "Schema not found")
        number, entry = found[-1]
        return {"subject": subject, "version": number, "id": entry.id, "schema": entry.schema, **MORE}

    def register(self, query, body, subject):
        mode = self.mode_in_force(subject)
        if mode == "READONLY":
            raise Refusal(422, 42205, f"Subject {subject} in context  is in read-only mode")
        if (body.get("id", -1) > 0) != (mode == "IMPORT"):
            raise Refusal(422, 42205, f"Subject {subject} in context  is {'' if mode == 'IMPORT' else 'not '}in import mode")
        parsed(body["schema"])
        entries = self.subjects.setdefault(subject, {})
        number = body.get("version") or max(entries, default=0) + 1
        if mode == "IMPORT":
            self.check_import(body, entries.get(number), subject, number)
        entry = Entry(body["id"] if mode == "IMPORT" else self.greatest + 1, body["schema"])
        self.put(subject, number, entry)
        return {"id": entry.id, "version": number, **MORE}

    def check_import(self, body, standing, subject, number):
        for entries in self.subjects.values():
            for entry in entries.values():
                if entry.id == body["id"] and parsed(entry.schema) != parsed(body["schema"]):
                    raise Refusal(422, 42205, f"Overwrite new schema with id {body['id']} is not permitted.")
        ids = {entry.id for entries in self.subjects.values() for entry in entries.values()}
        if self.marked is not None and body["id"] not in ids and body["id"] <= self.marked:
            raise Refusal(422, 42205, "Operation not permitted: id is not above the mark")
        if standing and not standing.deleted:
            self.repeats.append((subject, number))

    def delete_version(self, query, subject, number):
        entries = self.entries(subject)
        entry = entries.get(int(number))
        if entry is None:
            raise Refusal(404, 40402, f"Version {number} not found.")
        if bool(query.get("permanent")) != entry.deleted:
            words = "was soft deleted. Set permanent=true to delete permanently" if entry.deleted else "was not deleted first"
            raise Refusal(404, 40406 if entry.deleted else 40407, f"Subject '{subject}' Version {number} {words}")
        if query.get("permanent"):
            del entries[int(number)]
            self.marked = None if self.marked is None else self.greatest
        entry.deleted = True
        if all(entry.deleted for entry in entries.values()):
            self.levels.pop(subject, None)
        if not entries:
            del self.subjects[subject]
        return int(number)

    def delete_subject(self, query, subject):
        numbers = list(self.entries(subject)) if query.get("permanent") else self.list_versions({}, subject)
        return [self.delete_version(query, subject, number) for number in numbers]

    def check(self, query, body, subject):
        raise Refusal(404, 404, "HTTP 404 Not Found")

    def show_level(self, query, subject=None):
        if subject not in self.levels:
            raise Refusal(404, 40408 if subject else 404, "Subject does not have subject-level compatibility configured" if subject
                          else "HTTP 404 Not Found")
        return {"alias": None, "normalize": False, **self.levels[subject], **MORE}

    def set_level(self, query, body, subject=None):
        self.levels[subject] = {"compatibilityLevel": body["compatibility"]}
        return body

    def clear_level(self, query, subject):
        body = self.show_level(query, subject)
        del self.levels[subject]
        return body

    def show_mode(self, query, subject=None):
        if subject not in self.modes and subject:
            raise Refusal(404, 40409, f"Subject '{subject}' does not have subject-level mode configured")
        return {"mode": self.modes.get(subject, "READWRITE"), **MORE}

    def set_mode(self, query, body, subject=None):
        if body["mode"] == "IMPORT" and not query.get("force") and self.subjects:
            raise Refusal(422, 42205, "Cannot import since found existing subjects")
        self.modes[subject] = body["mode"]
        return body

    def clear_mode(self, query, subject):
        body = self.show_mode(query, subject)
        del self.modes[subject]
        return body

    def mode_in_force(self, subject):
        return self.modes.get(subject) or self.modes.get(None, "READWRITE")

    def entries(self, subject):
        if not self.subjects.get(subject):
            raise Refusal(404, 40401, f"Subject '{subject}' not found.")
        return self.subjects[subject]


# It clears a screen, names a window, begins a line, turns a text around, and looks like the end of what a tool says.
HOSTILE = "\x1b[2J\x1b]0;mine\x07 \x9b31m\u202e\r\nschemas: 0, refused: 0\u2028equal: 0 versions\n\ud800"


class HostileRegistry(OtherRegistry):
    """A registry each of whose texts is hostile, also those that should be numbers."""

    def list_subjects(self, query):
        return [] if query.get("offset", "0") != "0" else ["stands", HOSTILE[:-1]]

    def list_versions(self, query, subject):
        return [1]

    def show_version(self, query, subject, number):
        return {"id": 1, "schema": HOSTILE, "schemaType": HOSTILE}

    def show_id(self, query, number):
        return {"schema": HOSTILE}

    def look_up(self, query, body, subject):
        if subject == "stands":
            return {"version": HOSTILE, "id": HOSTILE}
        raise {"new": Refusal(404, 40401, HOSTILE), "checked": Refusal(404, HOSTILE, HOSTILE)}.get(subject, Refusal(422, HOSTILE, HOSTILE))

    def check(self, query, body, subject):
        return {"is_compatible": subject == "new", "messages": [HOSTILE, {HOSTILE: HOSTILE}, None]}

    def register(self, query, body, subject):
        raise Refusal(422, HOSTILE, HOSTILE)

    def show_level(self, query, subject=None):
        return {"compatibilityLevel": HOSTILE}

    def show_mode(self, query, subject=None):
        return {"mode": HOSTILE}


def parsed(schema):
    """A schema as JSON; this maker refuses what isn't."""
    try:
        return json.dumps(json.loads(schema), sort_keys=True)
    except ValueError as fault:
        raise Refusal(422, 42201, f"Invalid schema {schema}, details: {fault}") from None


ROUTES = [(method, re.compile(path), name) for method, path, name in (
    ("GET", "/subjects", "list_subjects"), ("GET", "/subjects/([^/]+)/versions", "list_versions"),
    ("GET", "/subjects/([^/]+)/versions/([0-9]+)", "show_version"), ("GET", "/schemas/ids/([0-9]+)", "show_id"),
    ("POST", "/compatibility/subjects/([^/]+)/versions", "check"), ("POST", "/subjects/([^/]+)", "look_up"), ("POST", "/subjects/([^/]+)/versions", "register"),
    ("DELETE", "/subjects/([^/]+)", "delete_subject"), ("DELETE", "/subjects/([^/]+)/versions/([0-9]+)", "delete_version"),
    ("GET", "/config", "show_level"), ("GET", "/config/([^/]+)", "show_level"), ("PUT", "/config", "set_level"),
    ("PUT", "/config/([^/]+)", "set_level"), ("DELETE", "/config/([^/]+)", "clear_level"), ("GET", "/mode", "show_mode"),
    ("GET", "/mode/([^/]+)", "show_mode"), ("PUT", "/mode", "set_mode"), ("PUT", "/mode/([^/]+)", "set_mode"),
    ("DELETE", "/mode/([^/]+)", "clear_mode"))]


class Handler(BaseHTTPRequestHandler):
    """Asks the registry of its server, and fails now and then: before the request is carried out, or after it without an answer."""
    protocol_version = "HTTP/1.1"
    wbufsize = -1   # head and body in one piece

    def log_message(self, *words):
        pass

    def serve(self):
        registry = self.server.registry
        body = self.rfile.read(int(self.headers.get("Content-Length") or 0))
        registry.proxy_fields.add(self.headers.get("Proxy-Authorization"))
        if self.headers.get("Authorization") != registry.authorization:
            self.answer(401, {"error_code": 401, "message": "Unauthorized"})
            return
        with registry.lock:
            fault = registry.random.choice(("away", "unread", "lost")) if registry.random.randrange(1000) < registry.faults else None
            status, answer = registry.answer(self.command, self.path, body) if fault in (None, "lost") else (503, {"error_code": 503, "message": "Service Unavailable"})
        if fault in ("unread", "lost"):
            self.close_connection = True
        else:
            self.answer(status, answer)

    def answer(self, status, body):
        data = json.dumps(body).encode()
        self.send_response(status)
        self.send_header("Content-Type", "application/vnd.schemaregistry.v1+json")
        for number in range(40):
            self.send_header(f"X-Field-{number}", "more")
        self.send_header("Content-Length", str(len(data)))
        self.end_headers()
        self.wfile.write(data)

    do_GET = do_POST = do_PUT = do_DELETE = serve
