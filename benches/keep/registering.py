"""What registrations cost, beside another build: registering.py REGISTRYLOG [OTHER..]. Over a file in memory, for each program in turn,
three times: 8 clients register schemas of 1 kB, each of a subject of its own, and the answers a second and the processor time of one are
counted; and while one client registers schemas of 1 MB, another sets levels, of which the slowest answers are told. It prints a line for
each program and turn, and ends with the ratios of medians to the first program."""
import http.client, json, os, socket, statistics, subprocess, sys, tempfile, threading, time

PROGRAMS = [os.path.abspath(word) for word in sys.argv[1:]]
CLIENTS, EACH, TURNS = 8, 250, 3
TICKS = os.sysconf("SC_CLK_TCK")


def free_port():
    with socket.socket() as one:
        one.bind(("127.0.0.1", 0))
        return one.getsockname()[1]


def schema(name, size):
    fields, length = [], 60
    while length < size:
        fields.append({"name": "field_%d" % len(fields), "type": ["null", "long"], "default": None, "doc": "What it means. " * 10})
        length += 228
    return json.dumps({"type": "record", "name": name, "fields": fields}, separators=(",", ":"))


def ask(client, method, path, body):
    client.request(method, path, json.dumps(body), {"Content-Type": "application/json"})
    answer = client.getresponse()
    text = answer.read()
    if answer.status != 200:
        raise SystemExit("%s %s: %d %s" % (method, path, answer.status, text[:200]))


class Served:
    """A program that serves a new file in memory."""

    def __init__(self, program):
        self.folder, self.port = tempfile.TemporaryDirectory(dir="/dev/shm"), free_port()
        self.process = subprocess.Popen(
            [program, "keep", "--workers", "16", "--listen", "127.0.0.1:%d" % self.port, "--new", self.folder.name + "/log"],
            stdout=subprocess.DEVNULL, stderr=subprocess.DEVNULL)
        for _ in range(200):
            try:
                socket.create_connection(("127.0.0.1", self.port)).close()
                return
            except OSError:
                time.sleep(0.05)

    def client(self):
        return http.client.HTTPConnection("127.0.0.1", self.port, timeout=120)

    def processor(self):
        """Seconds of processor time."""
        with open("/proc/%d/stat" % self.process.pid) as file:
            fields = file.read().rsplit(")", 1)[1].split()
        return (int(fields[11]) + int(fields[12])) / TICKS

    def end(self):
        self.process.kill()
        self.process.wait()
        self.folder.cleanup()


def rate(served):
    """Answers a second, and microseconds of processor time for one."""
    texts = [[schema("R%d_%d" % (k, n), 1_000) for n in range(EACH)] for k in range(CLIENTS)]

    def run(k):
        client = served.client()
        for n in range(EACH):
            ask(client, "POST", "/subjects/s%d-%d/versions" % (k, n), {"schema": texts[k][n]})

    threads = [threading.Thread(target=run, args=(k,)) for k in range(CLIENTS)]
    before, begun = served.processor(), time.monotonic()
    for one in threads:
        one.start()
    for one in threads:
        one.join()
    count = CLIENTS * EACH
    return count / (time.monotonic() - begun), (served.processor() - before) / count * 1e6


def held_up(served):
    """The median and the slowest of a level's command, in milliseconds, beside registrations of 1 MB."""
    texts, over, took = [schema("L%d" % n, 950_000) for n in range(6)], threading.Event(), []

    def register():
        try:
            client = served.client()
            for n, text in enumerate(texts):
                ask(client, "POST", "/subjects/l%d/versions" % n, {"schema": text})
        finally:
            over.set()

    thread = threading.Thread(target=register)
    client = served.client()
    ask(client, "PUT", "/config/x", {"compatibility": "FULL"})
    thread.start()
    while not over.is_set():
        begun = time.monotonic()
        ask(client, "PUT", "/config/x", {"compatibility": "FULL"})
        took.append((time.monotonic() - begun) * 1e3)
        time.sleep(0.001)
    thread.join()
    took.sort()
    return statistics.median(took), took[-1], took[-len(texts)]


def main():
    told = {program: [] for program in PROGRAMS}
    for _ in range(TURNS):
        for program in PROGRAMS:
            served = Served(program)
            rates, holds = rate(served), held_up(served)
            served.end()
            told[program].append((*rates, *holds))
            print("%-24s %6.0f a second, %5.0f us of processor time; beside 1 MB: median %.2f ms, slowest %.1f ms, sixth slowest %.1f ms"
                  % (os.path.basename(program), *rates, *holds), flush=True)
    first = [statistics.median(one[k] for one in told[PROGRAMS[0]]) for k in range(5)]
    for program in PROGRAMS[1:]:
        medians = [statistics.median(one[k] for one in told[program]) for k in range(5)]
        print("%s to %s: rate %.2f, processor time %.2f; slowest beside 1 MB %.1f ms and %.1f ms"
              % (os.path.basename(program), os.path.basename(PROGRAMS[0]), medians[0] / first[0], medians[1] / first[1], medians[3], first[3]))


main()
