"""Instructions and allocations of a lookup on a kept connection, as valgrind's callgrind counts them in the whole process:
lookups.py [RECORDS [LOOKUPS]], by default 2,000 and 1,000, one after the other, at a node of `registrylog keep` with one worker.
`--functions N` also prints the N functions that take most. Unlike a time, a count hardly depends on what else the machine does."""
import re, subprocess, sys, time
from kept import FOLDER, Kept, head, read_response, request, row, write_log

words = [it for it in sys.argv[1:] if it.isdigit()]
shown = int(words.pop()) if "--functions" in sys.argv else 0
RECORDS, LOOKUPS = (int((words + [""] * 2)[k] or given) for k, given in ((0, 2_000), (1, 1_000)))
OUT = FOLDER + "/counts"
UNDER = ("valgrind", "--quiet", "--tool=callgrind", "--callgrind-out-file=" + OUT)
ASKED = {
    "the schema of an id": lambda k: "/schemas/ids/%d" % k,
    "an id that is missing": lambda k: "/schemas/ids/%d" % (RECORDS + k),
    "versions of a subject": lambda k: "/subjects/s%d/versions" % k,
    "the latest version": lambda k: "/subjects/s%d/versions/latest" % k,
    "the global level": lambda k: "/config",
}


ALLOCATORS = ("malloc", "calloc", "realloc", "aligned_alloc", "posix_memalign")


def totals(path):
    with open(path) as lines:
        return sum(int(line.split()[1]) for line in lines if line.startswith("totals:"))


def allocations(path):
    """How often memory was asked for: the calls of the C library's functions that give it."""
    names, called, found = {}, None, 0
    with open(path) as lines:
        for line in lines:
            named = re.match(r"c?fn=\((\d+)\)(?: (.*))?", line)
            if named:
                if named[2]:
                    names[named[1]] = named[2]
                if line.startswith("cfn="):
                    called = names.get(named[1], "")
            elif line.startswith("calls=") and called in ALLOCATORS:
                found += int(line[6:].split()[0])
    return found


kept = Kept(write_log("short", RECORDS), 1, RECORDS, workers=1, under=UNDER)
counts = []
for number, make in enumerate(ASKED.values(), 1):
    asked = [request("GET", make(1 + k % RECORDS)) for k in range(LOOKUPS)]
    for flag, now in (("--zero", asked), ("--dump", [])):
        time.sleep(2)
        subprocess.run(["callgrind_control", flag, str(kept.process.pid)], check=True, stdout=subprocess.DEVNULL, stderr=subprocess.DEVNULL)
        for it in now:
            kept.client.sendall(it)
            if read_response(kept.reader)[0] not in (200, 404):
                sys.exit("refused: %r" % it)
    time.sleep(2)
    counts.append(OUT + ".%d" % number)
kept.end()
head("lookup", "instructions", "allocations")
for name, path in zip(ASKED, counts):
    row(name, "%d" % (totals(path) / LOOKUPS), "%.2f" % (allocations(path) / LOOKUPS))
for path in counts if shown else []:
    printed = subprocess.run(["callgrind_annotate", "--inclusive=yes", "--threshold=100", path], capture_output=True, text=True).stdout
    rows = [re.match(r" *([\d,]+) \([^)]*\) +(.*)", line) for line in printed.splitlines()]
    print()
    for found in [it for it in rows if it][:shown]:
        print("%8d  %s" % (int(found[1].replace(",", "")) / LOOKUPS, found[2][:120]))
