"""What the trials of sick processes share: `registrylog join` over a log in a file (by_file.py beside this script), and requests."""
import http.client, json, os, pathlib, signal, subprocess, sys, tempfile, threading, time

from registries import free_port

REGISTRYLOG = sys.argv[1] if len(sys.argv) > 1 else sys.exit("usage: TRIAL.py REGISTRYLOG")
BY_FILE = pathlib.Path(__file__).resolve().parent / "by_file.py"
TYPE = {"Content-Type": "application/vnd.schemaregistry.v1+json"}


def ask(port, method, path, body=None, line=None, timeout=90):
    """The status, the body, and the seconds that it took."""
    it = line or http.client.HTTPConnection("127.0.0.1", port, timeout=timeout)
    begun = time.time()
    it.request(method, path, None if body is None else json.dumps(body), {} if body is None else TYPE)
    reply = it.getresponse()
    text = reply.read().decode()
    if line is None:
        it.close()
    return reply.status, text, round(time.time() - begun, 3)


def register(port, subject, schema, line=None):
    return ask(port, "POST", f"/subjects/{subject}/versions", {"schema": json.dumps(schema)}, line)


def fixed(size, name="F"):
    return {"type": "fixed", "size": size, "name": name}


def new_log():
    log = tempfile.mktemp(prefix="joined-")
    subprocess.run([sys.executable, str(BY_FILE), log, "init"], input=b"", check=True)
    return log


def join(log, *options):
    """A joined process with metrics: its adapter's process, its port, and its port of metrics."""
    port, metrics = free_port(), free_port()
    words = [sys.executable, str(BY_FILE), log, "serve", "--", REGISTRYLOG, "join"]
    words += ["--listen", f"127.0.0.1:{port}", "--metrics", f"127.0.0.1:{metrics}", *options]
    process = subprocess.Popen(words, stderr=subprocess.DEVNULL)
    for _ in range(400):
        try:
            ask(port, "GET", "/subjects")
            return process, port, metrics
        except OSError:
            time.sleep(0.05)
    sys.exit("a joined process doesn't listen")
