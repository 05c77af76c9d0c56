#!/usr/bin/python3
"""How long adapters take to give a long log: long_logs.py [--process REGISTRYLOG] [--store etcd] [--store postgres] [BATCHES ..].

Each store (both without --store) gets logs of so many batches (40,000 and 100,000), a registration each. Then, one after the other: `serve`
until it says `joined`, with a process that only reads; `dump`; and with --process `serve` until that process listens, with the processor
time of both. It ends with status 1 where the log isn't the one that was put in."""
import argparse
import json
import os
import resource
import shutil
import signal
import subprocess
import sys
import tempfile
import time

HERE = os.path.dirname(os.path.realpath(__file__))
sys.path.insert(0, HERE)

from programs import store_of
from stores import free_ports
from trial import Trial

SINK = ["sh", "-c", 'case "$1" in --rules) echo 1;; *) cat > /dev/null; exit 0;; esac', "sink"]
SLOTS = 120                 # of one transaction of etcd


def text_of(value):
    return json.dumps(value, separators=(",", ":"))


def line_of(offset):
    """A registration of a subject and a schema of its own."""
    number = offset + 1
    key = {"keytype": "SCHEMA", "subject": "s%d" % number, "version": 1, "magic": 1}
    value = {"subject": "s%d" % number, "version": 1, "id": number,
             "schema": '{"fields":[],"name":"R%d","type":"record"}' % number, "deleted": False}
    return b"%d\t%s\t%s\n" % (offset, text_of(key).encode(), text_of(value).encode())


def rows_of(first, count, token):
    """For each batch its offset, the token before it, and its own."""
    for offset in range(first, first + count):
        yield offset, token, "long-%d" % offset
        token = "long-%d" % offset


def fill_etcd(store, first, token, count):
    """Puts so many batches in, many at once, behind the one with this token."""
    rows, tail = [], "%d %s" % (first, token)
    for offset, before, own in rows_of(first, count, token):
        rows.append(store.put("slot/%020d" % offset, b"%d %s %s\n%s" % (offset + 1, own.encode(), before.encode(), line_of(offset))))
        if len(rows) == SLOTS or offset == first + count - 1:
            end = "%d %s" % (offset + 1, own)
            if not store.succeeds([store.is_value("tail", tail)], [*rows, store.put("tail", end)]):
                sys.exit("the log isn't what was put in")
            rows, tail = [], end


def fill_postgres(store, first, token, count):
    for begin in range(first, first + count, 1000):
        rows = list(rows_of(begin, min(1000, first + count - begin), token))
        token = rows[-1][2]
        values = [value for offset, before, own in rows for value in (offset, offset, own, before, line_of(offset))]
        store.ask("INSERT INTO registry_batch (first, last, token, before, lines) VALUES " + ",".join(["(%s,%s,%s,%s,%s)"] * len(rows)),
                  values)
    store.ask("ANALYZE registry_batch")


FILL = {"etcd": fill_etcd, "postgres": fill_postgres}


def timed(words, mark):
    """Seconds until standard error has the mark, and the processor seconds of what ran until it was ended."""
    before, began = resource.getrusage(resource.RUSAGE_CHILDREN), time.monotonic()
    adapter = subprocess.Popen(words, stderr=subprocess.PIPE)
    for line in adapter.stderr:
        if mark in line:
            break
    else:
        sys.exit("%s ended with %d" % (words, adapter.wait()))
    took, process = time.monotonic() - began, process_time(adapter.pid)
    adapter.terminate()
    adapter.wait()
    after = resource.getrusage(resource.RUSAGE_CHILDREN)
    return took, after.ru_utime + after.ru_stime - before.ru_utime - before.ru_stime, process


def process_time(adapter):
    """Processor seconds of the adapter's process."""
    used, found = 0, subprocess.run(["ps", "-o", "pid=", "--ppid", str(adapter)], stdout=subprocess.PIPE, check=False).stdout.split()
    for one in found:
        with open("/proc/%d/stat" % int(one), encoding="utf-8") as file:
            fields = file.read().rsplit(")", 1)[1].split()
        used += (int(fields[11]) + int(fields[12])) / os.sysconf("SC_CLK_TCK")
    return used


def dumped(words, count):
    began = time.monotonic()
    with subprocess.Popen([*words, "dump"], stdout=subprocess.PIPE) as done:
        lines = done.stdout.read().splitlines(keepends=True)
    took = time.monotonic() - began
    if done.returncode != 0 or len(lines) != count or lines[-1] != line_of(count - 1):
        sys.exit("WRONG: a dump of %d lines, status %d" % (len(lines), done.returncode))
    return took


def try_store(trial, kind, count, process):
    log = trial.new_log(kind)
    words = [os.path.join(trial.adapters, log.words[0]), *log.words[1:]]
    began, store = time.monotonic(), store_of(kind, words)
    FILL[kind](store, 0, store.begin().token, count)
    print("%s, %d batches, put in in %.1f s" % (kind, count, time.monotonic() - began), flush=True)
    took, used, _ = timed([*words, "serve", "--", *SINK], b"joined as")
    print("%s, %d batches: given in %.1f s, %.1f s of the adapter's processor time" % (kind, count, took, used), flush=True)
    print("%s, %d batches: dumped in %.1f s" % (kind, count, dumped(words, count)), flush=True)
    if process:
        listen = ["--listen", "127.0.0.1:%d" % free_ports(1)[0]]
        took, used, own = timed([*words, "serve", "--", process, "join", *listen], b"joined, next offset %d" % count)
        print("%s, %d batches: ready in %.1f s, %.1f s of the adapter's processor time, %.1f s of the process's" % (
            kind, count, took, used, own), flush=True)


def main():
    parser = argparse.ArgumentParser(description=__doc__, formatter_class=argparse.RawDescriptionHelpFormatter)
    parser.add_argument("--process", metavar="REGISTRYLOG")
    parser.add_argument("--store", action="append", choices=["etcd", "postgres"])
    parser.add_argument("batches", nargs="*", type=int, default=[40000, 100000])
    options = parser.parse_args()
    signal.signal(signal.SIGTERM, lambda *_: sys.exit(143))
    folder = tempfile.mkdtemp(prefix="long-logs-")
    os.chmod(folder, 0o755)
    try:
        with Trial(folder, os.path.dirname(HERE)) as trial:
            trial.stores["trial"] = trial
            for count in options.batches:
                for kind in options.store or ["etcd", "postgres"]:
                    try_store(trial, kind, count, options.process)
    finally:
        shutil.rmtree(folder, ignore_errors=True)


if __name__ == "__main__":
    main()
