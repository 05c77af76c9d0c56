"""How long followers take to listen, and what memory they have then: startup.py REGISTRYLOG REGISTRYD [RECORDS]. A log of so many
versions of schemas of about 1 kB, 20,000 by default, is read by `registrylog follow` with one node and with three, beside
`registryd fold` of the same log. Processor time and the greatest resident memory."""
import http.client, json, os, resource, signal, subprocess, sys, tempfile, time

FOLLOW, FOLD, RECORDS = os.path.abspath(sys.argv[1]), os.path.abspath(sys.argv[2]), int(sys.argv[3]) if len(sys.argv) > 3 else 20_000
folder = tempfile.mkdtemp()
with open(f"{folder}/log", "w") as log:
    for n in range(RECORDS):
        fields = [{"name": f"field_number_{k}", "type": ["null", "string"], "default": None} for k in range(14)]
        text = json.dumps({"type": "record", "name": f"R{n}", "fields": fields}, separators=(",", ":"))
        key = json.dumps({"keytype": "SCHEMA", "subject": f"s{n // 10}", "version": n % 10 + 1, "magic": 1}, separators=(",", ":"))
        value = json.dumps({"subject": f"s{n // 10}", "version": n % 10 + 1, "id": n + 1, "schema": text, "deleted": False}, separators=(",", ":"))
        log.write(f"{n}\t{key}\t{value}\n")
size = os.path.getsize(f"{folder}/log")


def times(pid):
    with open(f"/proc/{pid}/stat") as it:
        parts = it.read().rsplit(")", 1)[1].split()
    return (int(parts[11]) + int(parts[12])) / os.sysconf("SC_CLK_TCK")


def peak(pid):
    with open(f"/proc/{pid}/status") as it:
        return next(int(line.split()[1]) / 1024 for line in it if line.startswith("VmHWM"))


before = resource.getrusage(resource.RUSAGE_CHILDREN)
subprocess.run([FOLD, "fold"], stdin=open(f"{folder}/log"), stdout=subprocess.DEVNULL, check=True)
after = resource.getrusage(resource.RUSAGE_CHILDREN)
print(f"{RECORDS} records, {size / 1e6:.1f} MB; fold {after.ru_utime + after.ru_stime - before.ru_utime - before.ru_stime:.2f} s, {after.ru_maxrss / 1024:.0f} MB")
for nodes in (1, 3):
    begun = time.time()
    p = subprocess.Popen([FOLLOW, "follow", "--listen", "127.0.0.1:19880", "--nodes", str(nodes)], stdin=open(f"{folder}/log"), stderr=subprocess.PIPE)
    while b"following" not in p.stderr.readline():
        pass
    taken = time.time() - begun
    c = http.client.HTTPConnection("127.0.0.1", 19880 + nodes - 1, timeout=10)
    c.request("GET", f"/schemas/ids/{RECORDS}")
    assert c.getresponse().status == 200
    print(f"{nodes} nodes: listens after {taken:.2f} s, {times(p.pid):.2f} s of processor time, {peak(p.pid):.0f} MB, {peak(p.pid) * 1048576 / size:.1f} times the log")
    p.send_signal(signal.SIGKILL)
    p.wait()
