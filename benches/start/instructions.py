"""Instructions of a command, as valgrind's callgrind counts them: instructions.py [RECORDS [COMMANDS]], by default 2,000 and 1,000. They are
the commands of commands.py, one after the other, at a node of `registrylog keep` with one worker, and in `registryd fold`. Unlike a
time, a count hardly depends on what else the machine does; it doesn't say how long memory was waited for."""
import subprocess, sys, time
from kept import FOLDER, KINDS, Kept, fold, head, request, row, write_log

RECORDS, COMMANDS = (int((sys.argv + [""] * 2)[k] or given) for k, given in ((1, 2_000), (2, 1_000)))
OUT = FOLDER + "/counts"
UNDER = ("valgrind", "--quiet", "--tool=callgrind", "--callgrind-out-file=" + OUT)
LEVEL = request("PUT", "/config", {"compatibility": "BACKWARD"})


def counted(path):
    with open(path) as lines:
        return sum(int(line.split()[1]) for line in lines if line.startswith("totals:"))


def in_fold(requests):
    fold(log, [LEVEL, *requests], UNDER)
    return counted(OUT)


def at_node(requests):
    kept = Kept(log, 1, RECORDS, workers=1, under=UNDER)
    kept.ask(LEVEL)
    for flag, asked in (("--zero", requests), ("--dump", [])):
        time.sleep(2)
        subprocess.run(["callgrind_control", flag, str(kept.process.pid)], check=True, stdout=subprocess.DEVNULL, stderr=subprocess.DEVNULL)
        kept.ask_all(asked, 1)
    time.sleep(2)
    kept.end()
    return counted(OUT + ".1")


log = write_log("short", RECORDS)
nothing = in_fold([])
head("command", "fold", "one node", "ratio")
for name, make in KINDS.items():
    requests = [make(RECORDS, k) for k in range(1, COMMANDS + 1)]
    folded, used = (in_fold(requests) - nothing) / COMMANDS, at_node(requests) / COMMANDS
    row(name, "%d" % folded, "%d" % used, "%.2f" % (used / folded))
