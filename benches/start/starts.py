"""Starts, and the commands behind them: starts.py [KIND:RECORDS ..], by default short:20000. `registryd fold` reads a log of so many
versions, each with a subject and a schema of its own (`short`, `normal` or `kb`: some 50 bytes, or 1,000), and `registrylog keep`
serves it with one node and with three.

Processor time is user and system time in all threads. Memory is shown when all nodes have answered, and after the first command, by
the number of records, as it is and at its peak. The commands set levels of subjects, one after the other: how long its client waits
for each, and what it takes in all nodes until they are quiet."""
import sys
from kept import Kept, fold, head, request, row, write_log

SHOWN = (1, 2, 10)


def kilobytes(sizes, records):
    return "%.2f, %.2f kB" % tuple(size / records / 1000 for size in sizes)


def commands(kept):
    """Waits and processor times of the first commands, and the memory after the first."""
    found = []
    for number in range(1, max(SHOWN) + 1):
        before = sum(kept.used())
        waited = kept.ask(request("PUT", "/config/t%d" % number, {"compatibility": "FULL"}))
        if number in SHOWN:
            kept.settle()
            found.append("%.1f ms, %.2f s" % (waited * 1000, sum(kept.used()) - before))
        if number == 1:
            memory = kept.memory()
    return found, memory


def measure(case):
    kind, records = case.split(":")
    records = int(records)
    log = write_log(kind, records)
    user, system, most = fold(log, [request("GET", "/schemas/ids/%d" % records)])
    folded = user + system
    print("\n%s: the fold took %.2f s, %.2f kB a record\n" % (case, folded, most / records / 1000))
    head("nodes", "processor time", "of the fold", "answers after", "memory a record, peak", "after a command", *["command %d" % n for n in SHOWN])
    for nodes in (1, 3):
        kept = Kept(log, nodes, records)
        used, memory = sum(kept.used()), kept.memory()
        found, later = commands(kept)
        row(str(nodes), "%.2f s" % used, "%.2f" % (used / folded), "%.2f s" % kept.ready, kilobytes(memory, records), kilobytes(later, records), *found)
        kept.end()


for case in sys.argv[1:] or ["short:20000"]:
    measure(case)
