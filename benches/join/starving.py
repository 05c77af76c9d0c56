#!/usr/bin/python3
"""Clients ask a joined process for an unknown id over and over, so that each of them waits for the store, while another one registers:
starving.py REGISTRYLOG. The status is 1 where a registration isn't done."""
from sick import *


def beside(options, clients, pause, count):
    process, port, _metrics = join(new_log(), *options)
    over = False

    def flood():
        line = http.client.HTTPConnection("127.0.0.1", port, timeout=90)
        while not over:
            ask(port, "GET", "/schemas/ids/999999", None, line)
            time.sleep(pause)

    threads = [threading.Thread(target=flood) for _ in range(clients)]
    for it in threads:
        it.start()
    time.sleep(0.3)
    answers = {}
    for k in range(count):
        status, text, _seconds = register(port, f"s{k}", fixed(k + 1))
        key = status if status == 200 else (status, text[:60])
        answers[key] = answers.get(key, 0) + 1
        time.sleep(0.01)
    over = True
    for it in threads:
        it.join()
    process.terminate()
    process.wait()
    print(f"{options} {clients} clients, pause {pause} s: {answers}", flush=True)
    return answers.get(200, 0) == count


good = [beside([], n, 0, 40) for n in (0, 3, 6)]
good += [beside([], 12, 0.1, 60), beside(["--workers", "16"], 15, 0, 60), beside(["--workers", "16"], 32, 0, 60)]
sys.exit(not all(good))
