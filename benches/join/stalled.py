#!/usr/bin/python3
"""The adapter of a joined process is stopped for 45 s: stalled.py REGISTRYLOG. An unknown id is asked for, and four commands come behind it. The
status is 1 where a known id isn't answered within 0.5 s, or a command isn't within 3; it says when /ready was 503, though nobody asked."""
from sick import *

log = new_log()
near, a, _ = join(log)
cut, b, metrics = join(log)
register(a, "l", fixed(1))
time.sleep(0.5)
os.kill(cut.pid, signal.SIGSTOP)
begun, away = time.time(), None
while time.time() - begun < 45:
    if away is None and ask(metrics, "GET", "/ready")[0] == 503:
        away = time.time() - begun
    time.sleep(0.5)
print("unready after", away, "s")
asked = threading.Thread(target=lambda: ask(b, "GET", "/schemas/ids/424242"))
asked.start()
time.sleep(0.1)
known = ask(b, "GET", "/schemas/ids/1")
answers = []
threads = [threading.Thread(target=lambda k=k: answers.append(register(b, f"q{k}", fixed(9_000 + k, "Q")))) for k in range(4)]
for it in threads:
    it.start()
for it in threads:
    it.join()
asked.join()
print("known id:", known, "commands:", sorted(answers))
os.kill(cut.pid, signal.SIGCONT)
time.sleep(2)
print("again:", ask(metrics, "GET", "/ready")[:2], register(b, "after", fixed(77, "A")))
near.terminate()
cut.terminate()
sys.exit(known[2] > 0.5 or any(seconds > 3 for _status, _text, seconds in answers))
