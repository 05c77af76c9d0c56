#!/usr/bin/python3
"""A batch that is no command's is taken in by a command, 60 times: silent.py REGISTRYLOG. The status is 1 where standard error or /ready doesn't
say so."""
from sick import *

said = ready = 0
for _trial in range(60):
    port, metrics = free_port(), free_port()
    words = [REGISTRYLOG, "join", "--listen", f"127.0.0.1:{port}", "--metrics", f"127.0.0.1:{metrics}"]
    it = subprocess.Popen(words, stdin=subprocess.PIPE, stdout=subprocess.PIPE, stderr=subprocess.PIPE)
    it.stdin.write(b"\nready\n")
    it.stdin.flush()
    assert b"joined" in it.stderr.readline()
    command = threading.Thread(target=lambda: register(port, "s", "int"))
    command.start()
    while it.stdout.readline() != b"\n":
        pass
    # A mark of ids alone, which no command writes; and the answer, at once.
    it.stdin.write(b'batch\n0\t{"keytype":"ID_MARK","magic":0}\t{"id":5}\n\nbehind\n')
    it.stdin.flush()
    command.join()
    time.sleep(0.3)
    status, _word, _seconds = ask(metrics, "GET", "/ready")
    ready += status == 503
    it.stdin.close()
    said += b"not a command" in it.stderr.read()
    it.wait()
print(f"of 60 trials standard error says so in {said}, /ready in {ready}")
sys.exit(said != 60 or ready != 60)
