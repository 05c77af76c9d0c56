#!/usr/bin/python3
"""What several processes over one log write, beside what one writes:
many_writers.py [--store postgres] [--beside FOLDER] REGISTRYLOG [SECONDS [TURNS]]

Eight clients at each process register schemas, each under subjects of its own. In turns (3) of so many seconds (4) one process is asked and
then four, with these adapters and, if there is one, with those of another folder. Of each it prints registrations a second, the median, the
slowest hundredth and the slowest of them in milliseconds, what the adapters asked the store for each (appends that were overtaken, reads that
found something, and reads that found nothing), and the milliseconds of processor time that each took of adapters, processes and store. At the
end there are the medians of the turns. etcd has one member."""
import argparse
import base64
import http.client
import json
import multiprocessing
import os
import shutil
import signal
import statistics
import subprocess
import sys
import tempfile
import threading
import time

HERE = os.path.dirname(os.path.realpath(__file__))
sys.path.insert(0, HERE)

from long_logs import process_time
from programs import CLASSES, load
from stores import Etcd, Postgres, free_ports
from trial import Trial

CLIENTS, WARM = 8, 0.5
ASKED = ("overtaken", "reads", "empty")


def kind_of_message(_, path, answer, message):
    """What a message to etcd was, by its answer."""
    if message.get("success") and "requestPut" in message["success"][0]:
        return "appended" if answer.get("succeeded") else "overtaken"
    return "reads" if any("slot/" in base64.b64decode(pair["key"]).decode() for one in answer.get("responses", [])
                          for pair in one.get("response_range", {}).get("kvs", [])) else "empty"


def kind_of_statement(program, text, rows, *_):
    """What a statement to PostgreSQL was, by its rows."""
    if text == program.APPEND:
        return "appended" if rows else "overtaken"
    return "reads" if len(rows) > 1 else "empty"


KINDS = {"etcd": kind_of_message, "postgres": kind_of_statement}


def serve(note, words):
    """An adapter that counts what it asks the store, in a process of its own."""
    program, counts = load(words[0]), dict.fromkeys(("appended", *ASKED), 0)
    kind = next(kind for kind, name in CLASSES.items() if hasattr(program, name))
    store, method = getattr(program, CLASSES[kind]), {"etcd": "post", "postgres": "ask"}[kind]
    ask = getattr(store, method)

    def counted(self, what, *more):
        found = ask(self, what, *more)
        counts[KINDS[kind](program, what, found, *more)] += 1
        return found

    def watch(self, wake, watch=store.watch):           # it has joined: what that took doesn't count
        counts.update(dict.fromkeys(counts, 0))
        watch(self, wake)

    def end(*_):
        with open(note, "w", encoding="utf-8") as file:
            json.dump(counts, file)
        os._exit(0)
    setattr(store, method, counted)
    store.watch = watch
    signal.signal(signal.SIGTERM, end)
    sys.argv[:] = words
    program.run(program.make_parser(), store)


def write(port, name, until, times, refused):
    """One client: how long each registration took, and what was refused."""
    line, number = http.client.HTTPConnection("127.0.0.1", port, timeout=60), 0
    while time.time() < until:
        number += 1
        schema = json.dumps({"type": "fixed", "name": "%s_%d" % (name, number), "size": 4})
        asked = time.time()
        line.request("POST", "/subjects/%s_%d/versions" % (name, number), json.dumps({"schema": schema}), {"Content-Type": "application/json"})
        response = line.getresponse()
        text = response.read()
        if response.status == 200:
            times.append((asked, time.time() - asked))
        else:
            refused.append(text.decode())


def write_all(port, name, until, found):
    """The clients of one process, in a process of their own."""
    times, refused = [], []
    threads = [threading.Thread(target=write, args=(port, "%s_%d" % (name, number), until, times, refused)) for number in range(CLIENTS)]
    for thread in threads:
        thread.start()
    for thread in threads:
        thread.join()
    found.put((times, refused))


def joined(trial, log, program, port):
    """An adapter and its process, once that has joined, and the file of what the adapter counts."""
    note = os.path.join(trial.folder, "count%d" % port)
    words = [sys.executable, os.path.realpath(__file__), "--count", note, os.path.join(trial.adapters, log.words[0]), *log.words[1:], "serve",
             "--", program, "join", "--workers", "%d" % (CLIENTS + 4), "--listen", "127.0.0.1:%d" % port]
    adapter = subprocess.Popen(words, stderr=subprocess.PIPE)
    trial.later(lambda: (adapter.kill(), adapter.wait()))
    for line in adapter.stderr:
        if b"joined, next offset" in line:
            break
    else:
        sys.exit("it ended")
    threading.Thread(target=adapter.stderr.read, daemon=True).start()
    return adapter, note


def counts_of(adapters):
    """What these adapters asked the store, for each batch that they appended."""
    counts = []
    for adapter, note in adapters:
        adapter.terminate()
        adapter.wait()
        with open(note, encoding="utf-8") as file:
            counts.append(json.load(file))
    sums = {name: sum(one[name] for one in counts) for name in counts[0]}
    return [sums[name] / max(sums["appended"], 1) for name in ASKED]


def used_by(process):
    """Its seconds of processor time."""
    with open("/proc/%d/stat" % process, encoding="utf-8") as file:
        fields = file.read().rsplit(")", 1)[1].split()
    return (int(fields[11]) + int(fields[12])) / os.sysconf("SC_CLK_TCK")


def used_by_all(adapters, store):
    """Seconds of processor time of adapters, of their processes, and of the store."""
    servers = [store.members[0].pid] if isinstance(store, Etcd) else store.processes()
    return (sum(used_by(adapter.pid) for adapter, _ in adapters), sum(process_time(adapter.pid) for adapter, _ in adapters),
            sum(used_by(process) for process in servers))


def turn(outer, folder, store, options, count):
    """Of so many processes: registrations a second, the times of all, what was asked for each and what it took, and what was refused."""
    with outer.part(folder) as trial:
        log = trial.new_log(options.store, store=store)
        log.words += ["--timeout", "10"]            # on a busy machine
        ports = free_ports(count)
        adapters = [joined(trial, log, os.path.abspath(options.program), port) for port in ports]
        used, found, from_then = used_by_all(adapters, store), multiprocessing.Queue(), time.time() + WARM
        until = from_then + options.seconds
        clients = [multiprocessing.Process(target=write_all, args=(port, "w%d" % place, until, found)) for place, port in enumerate(ports)]
        for one in clients:
            one.start()
        all_times = [found.get() for _ in clients]
        for one in clients:
            one.join()
        done = sum(len(some) for some, _ in all_times)
        used = [1000 * (then - before) / max(done, 1) for before, then in zip(used, used_by_all(adapters, store))]
        asked_of_store = counts_of(adapters)
    times = sorted(took for some, _ in all_times for asked, took in some if asked >= from_then)
    return len(times) / options.seconds, times, [*asked_of_store, *used], [text for _, some in all_times for text in some]


def row_of(rate, times, asked):
    middle, slow, last = (1000 * times[int(share * (len(times) - 1))] for share in (0.5, 0.99, 1))
    return rate, middle, slow, last, *asked


def measure(trial, options):
    store = (Etcd(trial, members=1) if options.store == "etcd" else Postgres(trial))
    folders = [os.path.dirname(HERE), *([os.path.abspath(options.beside)] if options.beside else [])]
    rows = {(folder, count): [] for folder in folders for count in (1, 4)}
    for _ in range(options.turns):
        for folder, count in rows:
            *found, refused = turn(trial, folder, store, options, count)
            rows[folder, count].append(row_of(*found))
            print("%s, %d: %5.0f a second, median %.1f, hundredth %.1f, slowest %.0f ms; overtaken %.2f, reads %.2f, in vain %.2f; "
                  "processor %.1f, %.1f, %.1f ms; %d refused %s"
                  % (folder, count, *rows[folder, count][-1], len(refused), refused[:1]), flush=True)
    for folder in folders:
        one, four = ([statistics.median(column) for column in zip(*rows[folder, count])] for count in (1, 4))
        print("%s, %s: %.0f and %.0f a second, %.2f; hundredth %.1f and %.1f ms, %.1f; of four overtaken %.2f, reads %.2f, in vain %.2f; "
              "processor %.1f, %.1f, %.1f and %.1f, %.1f, %.1f ms" % (
                  options.store, folder, one[0], four[0], four[0] / one[0], one[2], four[2], four[2] / one[2], *four[4:7], *one[7:], *four[7:]))


def main():
    if sys.argv[1:2] == ["--count"]:
        serve(sys.argv[2], sys.argv[3:])
    parser = argparse.ArgumentParser(description=__doc__, formatter_class=argparse.RawDescriptionHelpFormatter)
    parser.add_argument("program", metavar="REGISTRYLOG")
    parser.add_argument("--store", choices=["etcd", "postgres"], default="etcd")
    parser.add_argument("--beside", metavar="FOLDER", help="other adapters, to compare")
    parser.add_argument("seconds", nargs="?", type=float, default=4)
    parser.add_argument("turns", nargs="?", type=int, default=3)
    options = parser.parse_args()
    signal.signal(signal.SIGTERM, lambda *_: sys.exit(143))
    folder = tempfile.mkdtemp(prefix="writers-")
    os.chmod(folder, 0o755)
    try:
        with Trial(folder, os.path.dirname(HERE)) as trial:
            trial.stores["trial"] = trial
            measure(trial, options)
    finally:
        shutil.rmtree(folder, ignore_errors=True)


if __name__ == "__main__":
    main()
