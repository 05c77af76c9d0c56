"""What a command takes at nodes of `registrylog keep`, with one node and with three, beside the same ones in `registryd fold`:
commands.py [RECORDS [COMMANDS]], by default 20,000 and 5,000. The log, in a file of memory, has so many versions, each with a subject
and a schema of its own. Then come so many commands of a kind, each of another subject, over one connection: levels of subjects, soft
deletes of versions, registrations in new subjects.

It is the time outside the kernel in all threads; of the fold, that of a run less that of one without commands."""
import sys
from kept import KINDS, Kept, fold, head, request, row, write_log

RECORDS, COMMANDS = (int((sys.argv + [""] * 2)[k] or given) for k, given in ((1, 20_000), (2, 5_000)))
AT_ONCE, TURNS = 64, 3


def in_fold(log, requests):
    return min(fold(log, requests)[0] for _ in range(TURNS))


def at_nodes(log, nodes, requests):
    kept = Kept(log, nodes, RECORDS)
    kept.ask(request("PUT", "/config", {"compatibility": "BACKWARD"}))
    kept.settle()
    before = kept.used()[0]
    kept.ask_all(requests, AT_ONCE)
    kept.settle()
    used = kept.used()[0] - before
    kept.end()
    return used


log = write_log("normal", RECORDS)
nothing = in_fold(log, [])
head("command", "fold", "one node", "ratio", "three nodes", "ratio")
for name, make in KINDS.items():
    requests = [make(RECORDS, k) for k in range(1, COMMANDS + 1)]
    folded = in_fold(log, requests) - nothing
    cells = ["%.1f us" % (folded / COMMANDS * 1e6)]
    for nodes in (1, 3):
        used = at_nodes(log, nodes, requests)
        cells += ["%.1f us" % (used / COMMANDS * 1e6), "%.2f" % (used / folded)]
    row(name, *cells)
