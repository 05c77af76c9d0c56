#!/usr/bin/python3
"""An adapter that is silent, and two that leave something unfinished: unfinished.py REGISTRYLOG [NAME..]. One says nothing for 35 s after the base; then
it is ready, is asked by itself within 6 s, answers, and leaves a batch unfinished. The other is ready, and doesn't read a request of 900 kB.
The status is 1 where the process doesn't say so, isn't asked by itself, or doesn't end by itself within 40 s with status 1 and its line."""
import select

from sick import *

wrong = []


def must(what, is_so):
    print("   " if is_so else "WRONG", what, flush=True)
    if not is_so:
        wrong.append(what)


def begin():
    port = free_port()
    process = subprocess.Popen([REGISTRYLOG, "join", "--listen", f"127.0.0.1:{port}"], stdin=subprocess.PIPE, stdout=subprocess.PIPE,
                               stderr=subprocess.PIPE, bufsize=0)
    return process, port


def said_within(process, seconds):
    """What the process says on standard error until then, or until it ends."""
    text, until = b"", time.time() + seconds
    while time.time() < until:
        if select.select([process.stderr], [], [], 0.2)[0]:
            more = os.read(process.stderr.fileno(), 4096)
            text += more
            if not more:
                break
    return text.decode()


def asked_within(process, seconds):
    return bool(select.select([process.stdout], [], [], seconds)[0]) and os.read(process.stdout.fileno(), 4096) == b"\n"


def silent_then_cut():
    process, port = begin()
    process.stdin.write(b"\n")
    must("says that the adapter is silent", "has said nothing for 30 s" in said_within(process, 35))
    process.stdin.write(b"ready\n")
    must("listens", "joined, next offset 0" in said_within(process, 2))
    must("asks by itself", asked_within(process, 6))
    process.stdin.write(b"kept\nbatch\n0\t{\"key")
    begun = time.time()
    must("says that a message wasn't finished", "adapter: a message wasn't finished within 30 s" in said_within(process, 40))
    must("ends with status 1", process.wait(10) == 1)
    must("not before 29 s", time.time() - begun > 29)


def deaf():
    process, port = begin()
    process.stdin.write(b"\nready\n")
    must("asks by itself", asked_within(process, 6))
    process.stdin.write(b"kept\n")
    text = json.dumps({"type": "enum", "name": "E", "symbols": ["symbol_%d" % k for k in range(50_000)]})

    def register_large():
        try:
            ask(port, "POST", "/subjects/s/versions", {"schema": text})
        except (OSError, http.client.HTTPException):
            pass
    threading.Thread(target=register_large, daemon=True).start()
    must("says that a request wasn't read", "adapter: a request wasn't read within 30 s" in said_within(process, 45))
    must("ends with status 1", process.wait(10) == 1)


for trial in (silent_then_cut, deaf):
    if len(sys.argv) < 3 or trial.__name__ in sys.argv[2:]:
        trial()
sys.exit(bool(wrong))
