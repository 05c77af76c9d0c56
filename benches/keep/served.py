"""What the trials of slips.py share: a program that serves a file, clients with all that they were told, and file systems of their own."""
import contextlib, http.client, json, os, re, signal, socket, stat, subprocess, sys, tempfile, time

PROGRAM = os.path.abspath(sys.argv[1])
TOP = os.path.dirname(os.path.dirname(os.path.dirname(os.path.abspath(__file__))))
FOLDER = os.path.realpath(tempfile.mkdtemp(prefix="slips-", dir=os.environ.get("SLIPS_FOLDER", ".")))
USED_UP, UNSETTLED = (500, "Store error: numbers used up"), (500, "Store error: unsettled")
NO_LOG = "{}: no log is there. Is its disk mounted, its name right? With --new a new one is made"
IS_LOG = "{}: a log is there already. Without --new it is served"
MARK = '{"keytype":"ID_MARK","magic":0}'
WRONG = []


def bad(*words):
    WRONG.append(words)
    if len(WRONG) <= 40:
        print("WRONG", *words, flush=True)


def say(*words):
    print("  ", *words, flush=True)


def same(what, wanted, got):
    if got != wanted:
        bad(what + ": wanted", wanted, "and got", got)


def read(path):
    with open(path, "rb") as file:
        return file.read()


def write(path, data):
    with open(path, "wb") as file:
        file.write(data)


def run(*words):
    subprocess.run(words, check=True, timeout=60)


# ---- The program

def free_ports(count):
    with contextlib.ExitStack() as stack:
        held = [stack.enter_context(socket.socket()) for _ in range(count)]
        for one in held:
            one.bind(("127.0.0.1", 0))
        return [one.getsockname()[1] for one in held]


class Kept:
    """A program that serves a file, or has ended, once it is made."""
    running = []

    def __init__(self, path, *words, wait=60, **how):
        self.path, self.errors = path, tempfile.TemporaryFile()
        self.port, self.metrics = free_ports(2)
        places = ["--listen", "127.0.0.1:%d" % self.port, "--metrics", "127.0.0.1:%d" % self.metrics]
        self.process = subprocess.Popen([PROGRAM, "keep", *words, *places, "--quiet", path], stdin=subprocess.DEVNULL, stderr=self.errors, **how)
        Kept.running.append(self)
        until = time.monotonic() + wait
        while self.process.poll() is None and not any(line.startswith("serving") for line in self.lines()):
            if time.monotonic() > until:
                bad("it neither serves nor ends within", wait, "seconds:", self.lines())
                self.end()
            time.sleep(0.005)

    def lines(self):
        self.errors.seek(0)
        return self.errors.read().decode().splitlines()

    def serves(self):
        return self.process.poll() is None

    def ask(self, method, path, body=None):
        """The status, and what the body says."""
        return self.ask_at(self.port, method, path, body, json.loads)

    def ask_at(self, port, method, path, body, read_body):
        connection = http.client.HTTPConnection("127.0.0.1", port, timeout=600)
        try:
            fields = {} if body is None else {"Content-Type": "application/json"}
            connection.request(method, path, None if body is None else json.dumps(body), fields)
            response = connection.getresponse()
            return response.status, read_body(response.read())
        except (OSError, ValueError, http.client.HTTPException) as error:
            return 0, {"message": repr(error)}
        finally:
            connection.close()

    def number(self, name):
        """A number of the page of metrics."""
        page = self.ask_at(self.metrics, "GET", "/metrics", None, bytes.decode)[1]
        found = re.search(r"(?m)^%s (\S+)$" % re.escape(name), page) if isinstance(page, str) else None
        return found and int(float(found[1]))

    def ready(self):
        """What /ready says, which the page of metrics says too."""
        status, word = self.ask_at(self.metrics, "GET", "/ready", None, bytes.decode)
        word = word.strip() if isinstance(word, str) else word
        same("the stage in the metrics", 1, self.number('registry_stage{stage="%s"}' % word))
        return status, word

    def end(self, how=signal.SIGKILL):
        self.process.send_signal(how)
        self.process.wait(60)
        return self.lines()

    def held(self):
        """The file that the program has, whatever its name is by now: it is there as long as the program runs."""
        folder = "/proc/%d/fd/" % self.process.pid
        for number in os.listdir(folder):
            if os.readlink(folder + number) == self.path + " (deleted)":
                return folder + number
        bad("the program has no file that was removed")
        return self.path


def refused(line, path, *words, status=2, **how):
    """A start that ends with one line, and changes nothing in the trial's folder."""
    folder = how.pop("folder", FOLDER)
    before = listing(folder)
    kept = Kept(path, *words, **how)
    if kept.serves():
        kept.end()
    same("how a start over %s ends" % path, (status, [line]), (kept.process.returncode, kept.lines()))
    same("what is in the folder after that", before, listing(folder))
    say("%s: status %s" % ("; ".join(kept.lines()), kept.process.returncode))


def mode(path):
    return stat.S_IMODE(os.lstat(path).st_mode)


def listing(folder):
    """Each file below a folder, with its kind, mode, size and time."""
    found = {}
    for place, folders, files in os.walk(folder):
        for name in folders + files:
            about = os.lstat(place + "/" + name)
            found[place + "/" + name] = (about.st_mode, about.st_size, about.st_mtime_ns, about.st_ino)
    return found


# ---- Schemas, and what clients were told of them

def text(name):
    return json.dumps({"type": "record", "name": name, "fields": [{"name": "f", "type": "string"}]}, separators=(",", ":"))


def plain(schema):
    return json.dumps(json.loads(schema), sort_keys=True)


def version_line(offset, subject, number, deleted="false"):
    key = '{"keytype":"SCHEMA","subject":"%s","version":1,"magic":1}' % subject
    return '%d\t%s\t{"subject":"%s","version":1,"id":%d,"schema":%s,"deleted":%s}\n' % (
        offset, key, subject, number, json.dumps(text(subject)), deleted)


def subjects_in(path):
    """The subjects whose version a file has, in the lines before its empty one."""
    front, end, _ = read(path).partition(b"\n\n")
    lines = (front + b"\n" if end else front).split(b"\n")[:-1]
    return {json.loads(line.split(b"\t")[1])["subject"] for line in lines if b'"keytype":"SCHEMA"' in line}


class Clients:
    """Clients that register a schema each under a subject of its own, and what all processes of a trial told them."""
    def __init__(self, given=0):
        """`given` schemas have the ids from 1 on in a log that was made by hand."""
        self.count = given
        self.kept = {"s%d" % n: n for n in range(1, given + 1)}  # what was acknowledged, and the ids
        self.unsure, self.names = set(), {n: s for s, n in self.kept.items()}

    def learn(self, subject, number):
        if self.names.setdefault(number, subject) != subject:
            bad("the id", number, "names the schemas of", self.names[number], "and", subject)

    def register(self, registry, count=1):
        """What so many new schemas are answered, each kind of answer once."""
        answers = []
        for _ in range(count):
            self.count += 1
            subject = "s%d" % self.count
            status, got = registry.ask("POST", "/subjects/%s/versions" % subject, {"schema": text(subject)})
            if status == 200:
                self.learn(subject, got["id"])
                self.kept[subject] = got["id"]
            else:
                self.unsure.add(subject)
            answer = (status, "registered" if status == 200 else got.get("message"))
            answers += [answer] if answer not in answers else []
        return answers

    def look(self, registry):
        """Looks up all that was acknowledged; what wasn't is there whole or not at all."""
        for subject in sorted([*self.kept, *self.unsure]):
            status, got = registry.ask("GET", "/subjects/%s/versions/1" % subject)
            if status == 0:
                return bad("nothing answers:", got)
            if status != 200:
                if subject in self.kept or status != 404:
                    bad("what was acknowledged of", subject, "is answered", status, got)
                continue
            self.learn(subject, got["id"])
            same("the id of " + subject, self.kept.get(subject, got["id"]), got["id"])
            same("the schema of " + subject, plain(text(subject)), plain(got["schema"]))
            status, by_id = registry.ask("GET", "/schemas/ids/%d" % got["id"])
            same("the schema of the id %d" % got["id"], (200, plain(text(subject))), (status, plain(by_id.get("schema", "null"))))

    def loses(self, path):
        """What the slip took from the disk, as the file there says."""
        gone = set(self.kept) - subjects_in(path)
        say("%d of %d acknowledged schemas went with the file that the slip took" % (len(gone), len(self.kept)))
        for subject in gone:
            del self.kept[subject]
            self.unsure.add(subject)


def begin(name, count=3):
    """A new folder with a new log that is served, and clients that registered some schemas."""
    folder = "%s/%s" % (FOLDER, name)
    os.mkdir(folder)
    clients, registry = Clients(), Kept(folder + "/log", "--new")
    same("what a new log says", ["made a new log", "serving 0 records, next offset 0, 1 bytes"], registry.lines())
    same("the first answers", [(200, "registered")], clients.register(registry, count))
    same("/ready", (200, "ready"), registry.ready())
    say("%d schemas were registered" % count)
    return registry, clients


def lost(registry, clients, cause):
    """The next writes are unsettled, one line says why, and lookups go on."""
    offset = registry.number("registry_log_next_offset")
    same("writes to a lost log", [UNSETTLED], clients.register(registry, 2))
    lines = [line for line in registry.lines() if line.startswith("log lost")]
    same("what a lost log says", ["log lost at offset %s: %s" % (offset, cause)], lines)
    say("; ".join(lines) or "nothing was said")
    same("/ready", (503, "lost"), registry.ready())
    clients.look(registry)


def again(path, clients, *words, **how):
    """Starts over the file, and says these words. All that clients were told is there, and writes go on."""
    registry = Kept(path, **how)
    if not registry.serves():
        bad("it isn't served again:", registry.lines())
        return registry
    for word in words:
        same("whether it says " + word, True, word in registry.lines())
    clients.look(registry)
    say("started again, with all %d acknowledged schemas: %s" % (len(clients.kept), "; ".join(registry.lines())))
    same("/ready", (200, "ready"), registry.ready())
    same("writes after a start", [(200, "registered")], clients.register(registry, 2))
    return registry


def commands_of(heading):
    """The commands of the first block of a section of KEEPING."""
    with open(TOP + "/docs/KEEPING.md") as page:
        block = re.search(r"(?ms)^```\n(.*?)^```$", page.read().split("\n%s\n" % heading, 1)[1])[1]
    return [line[2:] for line in block.splitlines() if line.startswith("$ ")]


def do_commands(commands, place):
    """Does them in a shell in that folder, where `registrylog` is the program."""
    os.makedirs(place + "/bin", exist_ok=True)
    if not os.path.exists(place + "/bin/registrylog"):
        os.symlink(PROGRAM, place + "/bin/registrylog")
    ran = subprocess.run(["bash", "-e"], input="\n".join(commands), text=True, cwd=place, capture_output=True, timeout=900,
                         env={**os.environ, "PATH": place + "/bin:" + os.environ["PATH"]})
    for command in commands:
        say("$", command)
    if ran.returncode:
        bad("KEEPING's commands end with", ran.returncode, ran.stderr)


def put_right(registry, clients):
    """Puts the file that the program has back at its path, as KEEPING has it, and starts over it: nothing that was acknowledged is lost."""
    path, about = registry.path, os.stat(registry.held())
    words = {"PID": str(registry.process.pid), "NUMBER": os.path.basename(registry.held()), "FILE": path}
    commands = commands_of("### What a lost log means")
    do_commands([re.sub("|".join(words), lambda word: words[word[0]], command) for command in commands], os.path.dirname(path))
    same("owner and mode of what was put back", (about.st_uid, about.st_mode), (os.stat(path).st_uid, os.stat(path).st_mode))
    registry.end()
    again(path, clients).end()


# ---- File systems

@contextlib.contextmanager
def mounted(place, *words):
    run("mount", *words, place)
    try:
        yield
    finally:
        for registry in Kept.running:
            if registry.serves() and registry.path.startswith(place + "/"):
                registry.end()
        run("umount", place)


@contextlib.contextmanager
def small_disk(name, size="256k"):
    place = "%s/%s" % (FOLDER, name)
    os.mkdir(place)
    with mounted(place, "-t", "tmpfs", "-o", "size=" + size, "tmpfs"):
        yield place


def fill(place):
    with contextlib.suppress(OSError), open(place + "/ballast", "wb", buffering=0) as file:
        while True:
            file.write(bytes(4096))
