"""Trials of `registrylog keep` on real files: keep.py REGISTRYLOG REGISTRYD [NAME..]. Each ends by itself; the status is 1 where
something isn't as it should be.

`kill`      kills the program a hundred times (KILLS in the environment: another number) while four clients register, delete and
            set levels, with compactions among it; after each restart every acknowledged write has to be there
`beside`    kills it as often while one client registers and the file is copied, filtered and compacted beside it, by programs that
            are killed too; and kills starts that cut bytes off behind the log. No copy misses a write that was acknowledged before it
            began, a file that is put in another one's place is whole, and no byte is lost that was cut
`full`      a file system of 256 KB that fills up (wants the right to mount)
`second`    a second process on the file, and a tool that writes to it behind the lock
`cut`       bytes behind the log's empty line, a fault, a log that can't be taken over, a link
`startup`   how long a log of 1,000,000 records takes to be served, beside `registryd fold`
`stall`     the longest wait of a command while a log of 1,000,000 lines is compacted, and what a command costs with its syncs"""
import http.client, json, os, random, resource, shutil, signal, socket, subprocess, sys, tempfile, threading, time

PROGRAM, FOLD, NAMES = sys.argv[1], sys.argv[2], sys.argv[3:] or ["kill", "beside", "full", "second", "cut", "startup", "stall"]
FOLDER = os.path.abspath(tempfile.mkdtemp(dir=os.environ.get("KEEP_FOLDER", ".")))
JSON = {"Content-Type": "application/json"}
wrong, port = 0, 19700


def bad(*words):
    global wrong
    wrong += 1
    if wrong <= 20:
        print("WRONG", *words)


class Kept:
    """A program that serves the file. `said` is what it wrote to its error output, once it has ended."""
    def __init__(self, path, nodes=1, wait=120):
        global port
        port += 4
        self.port = port
        self.errors = tempfile.TemporaryFile()
        new = [] if os.path.exists(path) else ["--new"]
        places = ["--listen", "127.0.0.1:%d" % port, "--nodes", str(nodes)]
        self.process = subprocess.Popen([PROGRAM, "keep", *new, *places, "--quiet", path], stderr=self.errors)
        begun = time.time()
        while time.time() - begun < wait:
            if self.process.poll() is not None:
                break
            if b"serving" in self.text():
                return
            time.sleep(0.002)

    def text(self):
        self.errors.seek(0)
        return self.errors.read()

    def connect(self, node=0):
        return http.client.HTTPConnection("127.0.0.1", self.port + node, timeout=60)

    def end(self, how=signal.SIGTERM):
        self.process.send_signal(how)
        self.process.wait()
        return self.text()


def ask(c, method, path, body=None):
    c.request(method, path, None if body is None else json.dumps(body), JSON if body is not None else {})
    r = c.getresponse()
    return r.status, json.loads(r.read())


def text(name):
    return json.dumps({"type": "record", "name": name, "fields": [{"name": "f", "type": "string"}]}, separators=(",", ":"))


def plain(schema):
    return json.dumps(json.loads(schema), sort_keys=True)


FILLER = '0\t{"keytype":"CONFIG","subject":"filler","magic":0}\t{"compatibilityLevel":"NONE"}\n'
FILLER_LINE = FILLER.rstrip("\n").encode()


def state(c, subject):
    """What stands of a subject: its versions, live or not, each with its id and schema, and its level."""
    status, live = ask(c, "GET", "/subjects/%s/versions" % subject)
    status, every = ask(c, "GET", "/subjects/%s/versions?deleted=true" % subject)
    versions = {}
    for v in every if isinstance(every, list) else []:
        got = ask(c, "GET", "/subjects/%s/versions/%d?deleted=true" % (subject, v))[1]
        versions[v] = (got["id"], plain(got["schema"]), isinstance(live, list) and v in live)
    status, level = ask(c, "GET", "/config/%s" % subject)
    return versions, level.get("compatibilityLevel")


def fits(got, wanted):
    """Whether a state is one that is awaited, where an id that nobody was told is None."""
    if got[1] != wanted[1] or set(got[0]) != set(wanted[0]):
        return False
    return all(g[1:] == w[1:] and w[0] in (None, g[0]) for g, w in ((got[0][v], wanted[0][v]) for v in got[0]))


class Client(threading.Thread):
    """Changes subjects of its own. `states` has what may stand of each: one state, or two where it wasn't told of its last command."""
    def __init__(self, k, kept, node, states, made):
        super().__init__(daemon=True)
        self.k, self.kept, self.node, self.states, self.made, self.told = k, kept, node, states, made, 0

    def run(self):
        rng = random.Random(random.random())
        try:
            c = self.kept.connect(self.node)
            while True:
                subject = "c%d-%d" % (self.k, rng.randrange(4))
                versions, level = self.states.get(subject, [({}, None)])[0]
                what = rng.randrange(8)
                if what < 5 and level not in (None, "NONE"):
                    what = 5
                live = {v for v in versions if versions[v][2]}
                if what < 5:
                    self.made[0] += 1
                    schema = text("R%d_%d" % (self.k, self.made[0]))
                    v = max(versions, default=0) + 1
                    new = dict(versions)
                    new[v] = (None, plain(schema), True)
                    self.states[subject] = [(versions, level), (new, level)]
                    status, got = ask(c, "POST", "/subjects/%s/versions" % subject, {"schema": schema})
                    if status == 200:
                        new[v] = (got["id"], plain(schema), True)
                    else:
                        bad("registering", status, got)
                elif what == 5:
                    to = "NONE" if live or level not in (None, "NONE") else rng.choice(["FULL", "BACKWARD"])
                    new = versions
                    self.states[subject] = [(versions, level), (versions, to)]
                    status, got = ask(c, "PUT", "/config/%s" % subject, {"compatibility": to})
                    level = to
                    if status != 200:
                        bad("level", status, got)
                elif what == 6 and live:
                    new = {v: (i, s, False) for v, (i, s, _) in versions.items()}
                    self.states[subject] = [(versions, level), (new, level)]
                    status, got = ask(c, "DELETE", "/subjects/%s" % subject)
                    if status != 200:
                        bad("delete", status, got)
                elif what == 7 and versions and not live:
                    new = {}
                    self.states[subject] = [(versions, level), (new, level)]
                    status, got = ask(c, "DELETE", "/subjects/%s?permanent=true" % subject)
                    if status != 200:
                        bad("delete for good", status, got)
                else:
                    continue
                self.states[subject] = [(new, level)]
                self.told += 1
        except (OSError, http.client.HTTPException):
            pass


def kill():
    path, kills = FOLDER + "/kill", int(os.environ.get("KILLS", "100"))
    states, made, told, compactions, unsure = [{} for _ in range(4)], [[0] for _ in range(4)], 0, 0, 0
    names = {}
    open(path, "w").write('1\t{"keytype":"CONFIG","subject":null,"magic":0}\t{"compatibilityLevel":"NONE"}\n')
    for turn in range(kills + 1):
        if turn % 2 == 0 and os.path.exists(path):
            # Lines that are all superseded, so that it is compacted after some commands.
            data = open(path).read()
            os.truncate(path, 0)
            with open(path, "r+") as f:
                f.write(FILLER * (99990 - data.count("\n")) + data)
        before = os.stat(path).st_ino
        kept = Kept(path, nodes=3)
        if kept.process.poll() is not None:
            bad("it doesn't start", kept.text())
            return
        c = kept.connect(turn % 3)
        greatest = 0
        for k in range(4):
            for subject, wanted in list(states[k].items()):
                got = state(c, subject)
                found = [w for w in wanted if fits(got, w)]
                if not found:
                    bad("turn", turn, subject, got, wanted)
                unsure += len(wanted) > 1
                states[k][subject] = [got]
                for i, s, _ in got[0].values():
                    greatest = max(greatest, i)
                    if names.setdefault(i, s) != s:
                        bad("id", i, "names two schemas")
        extra = text("Z%d" % turn)
        status, got = ask(c, "POST", "/subjects/z/versions", {"schema": extra})
        old = state(c, "z")[0] if status == 200 else {}
        greatest = max([greatest] + [i for i, s, _ in old.values() if s != plain(extra)])
        if status != 200 or got["id"] <= greatest:
            bad("ids don't go on", turn, got, greatest)
        c.close()
        if turn == kills:
            kept.end()
            break
        clients = [Client(k, kept, k % 3, states[k], made[k]) for k in range(4)]
        [t.start() for t in clients]
        time.sleep(random.random() * 0.6)
        kept.end(signal.SIGKILL)
        [t.join() for t in clients]
        told += sum(t.told for t in clients)
        compactions += os.stat(path).st_ino != before
    fold = subprocess.run([FOLD, "fold"], input=open(path, "rb").read().rstrip(b"\n") + b"\n\n" + b"GET /subjects?deleted=true HTTP/1.1\r\nHost: a\r\n\r\n", capture_output=True)
    body = json.loads(fold.stdout.split(b"\r\n\r\n", 1)[1])
    if sorted(body) != sorted(s for k in range(4) for s in states[k] if states[k][s][0][0]) + ["z"]:
        bad("fold says", body)
    print("killed %d times, %d commands acknowledged, %d times one wasn't told, %d compactions, %d lines in the end" % (
        kills, told, unsure, compactions, open(path).read().count("\n")))


def log_of(data):
    """The lines before the first empty one, and what stands behind it; None where there is no empty line."""
    if data.startswith(b"\n"):
        return b"", data[1:]
    front, end, behind = data.partition(b"\n\n")
    return (front + b"\n", behind) if end else (data, None)


def last_version(data):
    """The greatest version of the subject `n`, where each line of the log is whole; else -1."""
    last, lines = 0, log_of(data)[0].split(b"\n")
    if lines.pop():
        return -1
    for line in lines:
        if line == FILLER_LINE:
            continue
        parts = line.split(b"\t")
        try:
            key = json.loads(parts[1])
            json.loads(parts[2])
        except (IndexError, ValueError):
            return -1
        if key.get("subject") == "n" and key["keytype"] == "SCHEMA":
            last = max(last, key["version"])
    return last


class Counting(threading.Thread):
    """Registers one version after the other: how many were asked for, and how many acknowledged."""
    def __init__(self, kept, told):
        super().__init__(daemon=True)
        self.kept, self.asked, self.told = kept, told, told

    def run(self):
        try:
            c = self.kept.connect()
            while True:
                self.asked += 1
                status, got = ask(c, "POST", "/subjects/n/versions", {"schema": text("N%d_%d" % (self.asked, time.time_ns()))})
                if status != 200:
                    bad("registering", status, got)
                    return
                self.told += 1
        except (OSError, http.client.HTTPException):
            pass


class Readers(threading.Thread):
    """Copies the file, filters it, and compacts it into another file, one after the other, until it is told to end. A program that
    compacts into another file is killed at times."""
    def __init__(self, path, client, counts):
        super().__init__(daemon=True)
        self.path, self.client, self.counts, self.over = path, client, counts, False

    def holds(self, what, data, told, asked):
        got = last_version(data)
        if not told <= got <= asked:
            bad(what, "has", got, "of", told, "to", asked)
        self.counts[what] = self.counts.get(what, 0) + 1

    def run(self):
        other = self.path + ".small"
        before = open(other, "rb").read() if os.path.exists(other) else b""
        while not self.over:
            told = self.client.told
            shutil.copyfile(self.path, self.path + ".copy")
            self.holds("copies", open(self.path + ".copy", "rb").read(), told, self.client.asked)
            told = self.client.told
            ran = subprocess.run([PROGRAM, "compact", "--quiet", self.path], capture_output=True)
            if ran.returncode:
                bad("compact", ran.returncode, ran.stderr)
            self.holds("filtered", ran.stdout, told, self.client.asked)
            ran = subprocess.run([PROGRAM, "compact", "--quiet", "--output", self.path, self.path], capture_output=True)
            if not self.over and ran.stderr != b"log is in use\n":
                bad("compacted in use", ran.returncode, ran.stderr)
            told = self.client.told
            compacting = subprocess.Popen([PROGRAM, "compact", "--quiet", "--output", other, self.path], stderr=subprocess.PIPE)
            if random.random() < 0.7:
                time.sleep(random.random() * 0.02)
                compacting.send_signal(signal.SIGKILL)
            said = compacting.communicate()[1]
            now = open(other, "rb").read() if os.path.exists(other) else b""
            if compacting.returncode == 0 or now != before:
                self.holds("compacted", now, told, self.client.asked)
            elif compacting.returncode != -signal.SIGKILL:
                bad("compacted beside", compacting.returncode, said)
            else:
                self.counts["compacting killed"] = self.counts.get("compacting killed", 0) + 1
            before = now
            if os.path.exists(other + ".new"):
                os.remove(other + ".new")


def cut_beside(path, counts):
    """Starts over bytes behind the log, each of which is killed, until they were cut off; they stand there, or else in the other file.
    A start that has cut them may leave a part of its own behind the log, the mark of ids, which the next one puts into that file."""
    log, behind = log_of(open(path, "rb").read())
    if behind is None:
        return
    behind = behind or b"".join(b"%d\t{\"torn\"" % n for n in range(random.randrange(1, 100_000)))
    open(path, "wb").write(log + b"\n" + behind)
    for _ in range(3):
        process = subprocess.Popen([PROGRAM, "keep", "--listen", "127.0.0.1:19600", "--quiet", path], stderr=subprocess.PIPE)
        time.sleep(random.random() * 0.25)
        process.send_signal(signal.SIGKILL)
        process.communicate()
        counts["starts killed"] = counts.get("starts killed", 0) + 1
        now, still = log_of(open(path, "rb").read())
        if last_version(now) != last_version(log):
            bad("a start that was killed", len(now), len(log))
        if still == behind:
            continue
        counts["of which had cut"] = counts.get("of which had cut", 0) + 1
        if open(path + ".cut", "rb").read() != behind:
            bad("cut", len(behind), len(still or b""), os.stat(path + ".cut").st_size)
        behind = still
        if not behind:
            return


def beside():
    path, kills, told, counts = FOLDER + "/beside", int(os.environ.get("KILLS", "100")), 0, {}
    open(path, "w").write('1\t{"keytype":"CONFIG","subject":null,"magic":0}\t{"compatibilityLevel":"NONE"}\n\n')
    for turn in range(kills + 1):
        if turn % 2 == 0:
            # Lines that are all superseded, so that it is compacted while it is read.
            data = open(path).read()
            open(path, "w").write(FILLER * (99990 - data.count("\n")) + data)
        cut_beside(path, counts)
        before = os.stat(path).st_ino
        kept = Kept(path)
        if kept.process.poll() is not None:
            bad("it doesn't start", kept.text())
            return
        versions = ask(kept.connect(), "GET", "/subjects/n/versions")[1]
        there = len(versions) if isinstance(versions, list) else 0
        if turn and not client.told <= there <= client.asked:
            bad("turn", turn, "has", there, "of", client.told, "to", client.asked)
        if turn == kills:
            kept.end()
            break
        client = Counting(kept, there)
        readers = Readers(path, client, counts)
        client.start()
        readers.start()
        time.sleep(random.random() * 0.8)
        readers.over = True
        kept.end(signal.SIGKILL)
        client.join()
        readers.join()
        told += client.told - there
        counts["compactions"] = counts.get("compactions", 0) + (os.stat(path).st_ino != before)
    print("killed %d times, %d commands acknowledged; %s" % (kills, told, ", ".join("%s %d" % it for it in sorted(counts.items()))))


def full():
    folder = FOLDER + "/full"
    os.mkdir(folder)
    subprocess.run(["mount", "-t", "tmpfs", "-o", "size=256k", "tmpfs", folder], check=True)
    try:
        path = folder + "/log"
        kept = Kept(path)
        c, told, refused = kept.connect(), 0, []
        for n in range(4000):
            status, got = ask(c, "POST", "/subjects/f%d/versions" % n, {"schema": text("F%d" % n)})
            if status == 200:
                told += 1
            else:
                refused.append(got["message"])
                if len(refused) > 3:
                    break
        status, got = ask(c, "GET", "/subjects")
        lookups = len(got)
        said = kept.end()
        if set(refused) != {"Store error: unsettled"} or said.count(b"log lost at offset") != 1 or lookups != told:
            bad("full", refused, said, lookups, told)
        again = Kept(path)
        print("on the full disk: %s" % again.text().decode().strip())
        lookups = len(ask(again.connect(), "GET", "/subjects")[1])
        if lookups not in (told, told + 1):
            bad("lookups on the full disk", lookups, told)
        again.end()
        subprocess.run(["mount", "-o", "remount,size=512k", folder], check=True)
        again = Kept(path)
        c = again.connect()
        got = ask(c, "GET", "/subjects")[1]
        if len(got) not in (told, told + 1) or ask(c, "PUT", "/config", {"compatibility": "FULL"})[0] != 200:
            bad("opened again", len(got), told)
        again.end()
        print("a full disk: %d commands acknowledged, then %s; opened again with %d subjects" % (told, refused[0], len(got)))
    finally:
        subprocess.run(["umount", folder])


def second():
    path = FOLDER + "/second"
    kept = Kept(path)
    other = subprocess.run([PROGRAM, "keep", "--listen", "127.0.0.1:%d" % (port + 2), "--workers", "1", path], capture_output=True)
    if (other.returncode, other.stderr) != (2, b"log is in use\n"):
        bad("second", other)
    c = kept.connect()
    if ask(c, "PUT", "/config", {"compatibility": "FULL"})[0] != 200:
        bad("a command before")
    with open(path, "a") as f:
        f.write("somebody else\n")
    got = [ask(c, "PUT", "/config", {"compatibility": level})[1].get("message") for level in ("NONE", "FULL")]
    level = ask(c, "GET", "/config")[1]
    said = kept.end()
    if got != ["Store error: unsettled"] * 2 or level != {"compatibilityLevel": "FULL"} or said.count(b"log lost at offset 1") != 1:
        bad("appended", got, level, said)
    print("a second process: %r; a file that somebody writes to: %s" % (other.stderr.decode(), got[0]))


def cut():
    line = '1\t{"keytype":"CONFIG","subject":null,"magic":0}\t{"compatibilityLevel":"FULL"}\n'
    path = FOLDER + "/cut"
    open(path, "w").write(line + "\nGET /subjects HTTP/1.1\n")
    os.symlink(path, FOLDER + "/link")
    kept = Kept(FOLDER + "/link")
    level = ask(kept.connect(), "GET", "/config")[1]
    said = kept.end()
    if open(path).read() != line + "\n" or open(path + ".cut").read() != "GET /subjects HTTP/1.1\n" or b"23 bytes" not in said or level != {"compatibilityLevel": "FULL"}:
        bad("cut", said, level)
    fault = FOLDER + "/fault"
    open(fault, "w").write(line + "x\n")
    kept = Kept(fault)
    if (kept.process.poll(), kept.text()) != (2, b"line 2: BadTabs\n") or open(fault).read() != line + "x\n":
        bad("fault", kept.text())
    other = FOLDER + "/other"
    record = '%d\t{"keytype":"SCHEMA","subject":"s","version":%d,"magic":1}\t{"subject":"s","version":%d,"id":%d,"schema":%s,"deleted":false%s}\n'
    open(other, "w").write(record % (0, 1, 1, 1, '"\\"int\\""', "") + record % (1, 2, 2, 1, '"\\"long\\""', "") + record % (2, 3, 3, 2, '"\\"x\\""', ',"schemaType":"PROTOBUF"') + "\n")
    kept = Kept(other)
    print("a log that can't be taken over: %r" % kept.text().decode())
    if kept.process.poll() != 2 or kept.text() != b"opaque record at 2: subject s, version 3\ntwo schemas for id 1\n":
        bad("other", kept.process.poll(), kept.text())
    new = FOLDER + "/new"
    kept = Kept(new)
    said = kept.end()
    if open(new).read() != "\n" or said != b"made a new log\nserving 0 records, next offset 0, 1 bytes\n":
        bad("new", said, open(new).read())


def processor(process):
    """Seconds of processor time of a process that runs."""
    fields = open("/proc/%d/stat" % process.pid).read().rsplit(")", 1)[1].split()
    return (int(fields[11]) + int(fields[12])) / os.sysconf("SC_CLK_TCK")


def big(path, records):
    with open(path, "w") as f:
        for n in range(records):
            f.write('%d\t{"keytype":"SCHEMA","subject":"s%d","version":1,"magic":1}\t{"subject":"s%d","version":1,"id":%d,"schema":"{\\"type\\":\\"record\\",\\"name\\":\\"R%d\\",\\"fields\\":[]}","deleted":false}\n' % (n, n, n, n + 1, n))
        f.write("\n")


def startup():
    path, records = FOLDER + "/startup", 1000000
    big(path, records)
    begun = resource.getrusage(resource.RUSAGE_CHILDREN)
    out = subprocess.run([FOLD, "fold"], input=open(path, "rb").read() + b"GET /schemas/ids/1 HTTP/1.1\r\nHost: a\r\n\r\n", capture_output=True).stdout
    ended = resource.getrusage(resource.RUSAGE_CHILDREN)
    fold = ended.ru_utime + ended.ru_stime - begun.ru_utime - begun.ru_stime
    for nodes in (1, 3):
        kept = Kept(path, nodes=nodes, wait=600)
        spent = processor(kept.process)
        memory = [l for l in open("/proc/%d/status" % kept.process.pid) if l.startswith("VmHWM")][0].split()[1]
        if ask(kept.connect(), "GET", "/schemas/ids/%d" % records)[0] != 200:
            bad("startup", kept.text())
        kept.end()
        print("%d records, %d nodes: served after %.1f s of processor time, %.2f of fold's %.1f s; memory at its peak %s kB" % (records, nodes, spent, spent / fold, fold, memory))
    os.remove(path)


def stall():
    path = FOLDER + "/stall"
    with open(path, "w") as f:
        for n in range(600000):
            f.write('%d\t{"keytype":"SCHEMA","subject":"s%d","version":1,"magic":1}\t{"subject":"s%d","version":1,"id":%d,"schema":"{\\"type\\":\\"record\\",\\"name\\":\\"R%d\\",\\"fields\\":[]}","deleted":false}\n' % (n, n, n, n + 1, n))
        # Fewer than half are superseded, so it is compacted only where it would be too long; a start sees to room for 1,000 lines.
        f.write(FILLER * 398500 + "\n")
    kept = Kept(path, wait=600)
    c, times = kept.connect(), []
    for n in range(2000):
        begun = time.time()
        status, got = ask(c, "PUT", "/config/t%d" % (n % 50), {"compatibility": "FULL" if n // 50 % 2 else "NONE"})
        times.append(time.time() - begun)
        if status != 200:
            bad("stall", got)
    said = kept.end()
    times.sort()
    lines = open(path).read().count("\n") - 1
    if lines > 700000:
        bad("not compacted", lines)
    print("2,000 commands on one connection: %.2f ms each (median), the longest %.0f ms, in which 1,000,000 lines were compacted; %d lines in the end; %s" % (
        times[1000] * 1000, times[-1] * 1000, lines, said.decode().strip()))
    os.remove(path)


for name in NAMES:
    globals()[name]()
print("all as it should be" if not wrong else "%d WRONG" % wrong)
sys.exit(1 if wrong else 0)
