"""What a floor saves at a start: floors.py REGISTRYLOG [SUBJECTS]. So many subjects, 100,000 by default, had one version each, which was
deleted for good, and 1,000 more have one that stands. `registrylog keep` serves that log as it was written, compacted, and compacted
to a floor at its end: lines, bytes, the processor time until it serves, and the memory then."""
import json, os, signal, subprocess, sys, tempfile

PROGRAM, SUBJECTS = os.path.abspath(sys.argv[1]), int(sys.argv[2]) if len(sys.argv) > 2 else 100_000
LIVE = 1_000
folder = tempfile.mkdtemp()


def line(offset, key, value):
    text = "null" if value is None else json.dumps(value, separators=(",", ":"))
    return f"{offset}\t{json.dumps(key, separators=(',', ':'))}\t{text}\n"


def version(n):
    schema = json.dumps({"type": "record", "name": f"R{n}", "fields": []}, separators=(",", ":"))
    return {"subject": f"s{n}", "version": 1, "id": n + 1, "schema": schema, "deleted": False}


lines = []
for n in range(SUBJECTS + LIVE):
    key = {"keytype": "SCHEMA", "subject": f"s{n}", "version": 1, "magic": 1}
    lines.append(line(len(lines), key, version(n)))
    if n < SUBJECTS:
        lines.append(line(len(lines), key, None))
lines.append(line(len(lines), {"keytype": "ID_MARK", "magic": 0}, {"id": SUBJECTS + LIVE}))
with open(f"{folder}/whole", "w") as it:
    it.write("".join(lines))
for name, words in [("compacted", []), ("floored", ["--to", str(len(lines))])]:
    with open(f"{folder}/whole") as given, open(f"{folder}/{name}", "w") as out:
        subprocess.run([PROGRAM, "compact", *words], stdin=given, stdout=out, check=True)
for name in ("whole", "compacted", "floored"):
    path = f"{folder}/{name}"
    with open(path) as it:
        count = sum(1 for _ in it)
    size = os.path.getsize(path)
    p = subprocess.Popen([PROGRAM, "keep", "--listen", "127.0.0.1:19890", path], stderr=subprocess.PIPE)
    said = p.stderr.readline().decode().strip()
    with open(f"/proc/{p.pid}/stat") as it:
        parts = it.read().rsplit(")", 1)[1].split()
    with open(f"/proc/{p.pid}/status") as it:
        memory = next(int(row.split()[1]) / 1024 for row in it if row.startswith("VmRSS"))
    taken = (int(parts[11]) + int(parts[12])) / os.sysconf("SC_CLK_TCK")
    print(f"{name}: {count} lines, {size} bytes; {taken:.2f} s, {memory:.0f} MB; {said}")
    p.send_signal(signal.SIGKILL)
    p.wait()
