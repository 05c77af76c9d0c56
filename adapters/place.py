"""Makes a place in a log behind which no mark of ids is due: a schema is registered, and deleted for good."""
import http.client
import json
import re
import secrets
import time
import urllib.parse

from faults import Broken, Unreachable

UNUSED = json.dumps({"type": "fixed", "name": "registry_base_place", "size": 1})
OWN = re.compile("registry-base-[0-9a-f]{16}")
PASSES = (429, 500, 502, 503, 504)      # what may be otherwise soon; and what is done already does no harm here
PAUSE = 0.3                             # seconds between two tries


def make_place(url, patience):
    """Has the registry at this URL make a place, and gives the subject whose deletion ends there. Subjects that a run left behind which
    didn't end are finished in its stead."""
    registry = Registry(url, patience)
    subjects = [subject for subject in registry.ask("GET", "/subjects?deleted=true") if OWN.fullmatch(subject)]
    if not subjects:
        subjects = ["registry-base-" + secrets.token_hex(8)]
        registry.ask("POST", "/subjects/%s/versions" % subjects[0], {"schema": registry.any_schema()})
    for subject in subjects:
        registry.ask("DELETE", "/subjects/%s" % subject, missing=True)
        registry.ask("DELETE", "/subjects/%s?permanent=true" % subject, missing=True)
    return subjects[-1]


class Registry:
    def __init__(self, url, patience):
        self.url, self.patience = urllib.parse.urlsplit(url), patience
        if self.url.scheme not in ("http", "https") or not self.url.hostname:
            raise Broken("%s isn't the URL of a registry" % url)

    def ask(self, method, path, body=None, missing=False):
        """What it answers, and none where it may be `missing` and is. What passes is asked again, for as long as patience lasts."""
        until = None
        while True:
            try:
                status, answer = self.once(method, path, body)
                said = "%d %s" % (status, answer.get("message") if isinstance(answer, dict) else "")
            except (OSError, http.client.HTTPException, ValueError) as fault:
                status, said = None, fault or type(fault).__name__
            if status == 200:
                return answer
            if status == 404 and missing:
                return None
            if status is not None and status not in PASSES:
                raise Broken("the registry answers %s %s by %s" % (method, path, said))
            until = until or time.monotonic() + self.patience
            if time.monotonic() > until:
                raise Unreachable("the registry at %s: %s" % (self.url.geturl(), said))
            time.sleep(PAUSE)

    def once(self, method, path, body):
        """Status and answer of one try, on a connection of its own."""
        kind = http.client.HTTPSConnection if self.url.scheme == "https" else http.client.HTTPConnection
        connection = kind(self.url.hostname, self.url.port, timeout=60)
        try:
            connection.request(method, self.url.path.rstrip("/") + path, None if body is None else json.dumps(body),
                               {} if body is None else {"Content-Type": "application/json"})
            response = connection.getresponse()
            text = response.read()
        finally:
            connection.close()
        try:
            return response.status, json.loads(text)
        except ValueError:
            if response.status == 200:
                raise
            return response.status, None        # a proxy's own

    def any_schema(self):
        """A schema that the registry has, so that the place takes no id; one that nobody uses, where it has none."""
        for subject in self.ask("GET", "/subjects?deleted=true")[:10]:          # somebody may delete one meanwhile
            path = "/subjects/%s/versions" % urllib.parse.quote(subject, safe="")
            versions = self.ask("GET", path + "?deleted=true", missing=True)
            version = versions and self.ask("GET", "%s/%d?deleted=true" % (path, versions[-1]), missing=True)
            if version:
                return version["schema"]
        return UNUSED
