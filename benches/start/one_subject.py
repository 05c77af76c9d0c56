"""Registrations in one subject that has many live versions: one_subject.py [VERSIONS ..], by default 10, 100, 500 and 2,000. Processor
time of each, of 300 new schemas, at a node of `registrylog keep` and in `registryd fold`, under NONE and under BACKWARD."""
import json, sys
from kept import FOLDER, Kept, fold, head, request, row, version

COUNTS = [int(word) for word in sys.argv[1:]] or [10, 100, 500, 2_000]
COMMANDS, TURNS = 300, 3


def schema(number):
    fields = [{"name": "f", "type": "string"}, {"name": "g%d" % number, "type": "int", "default": 0}]
    return json.dumps({"type": "record", "name": "R", "fields": fields}, separators=(",", ":"))


def write_one(level, versions):
    """A log of a subject with that level and so many versions, and its path."""
    path = "%s/one" % FOLDER
    with open(path, "w") as log:
        log.write('0\t{"keytype":"CONFIG","subject":null,"magic":0}\t{"compatibilityLevel":"%s"}\n' % level)
        for n in range(1, versions + 1):
            log.write(version(n, "s", n, n, schema(n)))
        log.write("\n")
    return path


def in_fold(log, requests):
    return min(sum(fold(log, requests)[:2]) for _ in range(TURNS))


def at_node(log, requests):
    kept = Kept(log, 1, 1)
    kept.settle()
    before = kept.ran()
    kept.ask_all(requests, 1)
    used = kept.ran() - before
    kept.end()
    return used


head("level", "versions", "fold", "node", "ratio")
for level in ("NONE", "BACKWARD"):
    for versions in COUNTS:
        log = write_one(level, versions)
        requests = [request("POST", "/subjects/s/versions", {"schema": schema(versions + k)}) for k in range(1, COMMANDS + 1)]
        folded = in_fold(log, requests) - in_fold(log, [])
        used = at_node(log, requests)
        row(level, str(versions), "%.0f us" % (folded / COMMANDS * 1e6), "%.0f us" % (used / COMMANDS * 1e6), "%.1f" % (used / max(folded, 0.01)))
