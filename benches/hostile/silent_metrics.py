"""Silent connections at the port for metrics: silent_metrics.py REGISTRYLOG. 200 connections that send nothing stand open while `/ready` is
asked, ten times. It prints the slowest answer, and ends with status 1 if that took more than 0.5 s, or if one wasn't `ready`."""
import http.client, os, socket, subprocess, sys, tempfile, time

PROGRAM = os.path.abspath(sys.argv[1])
COUNT = 200


def free_port():
    with socket.socket() as one:
        one.bind(("127.0.0.1", 0))
        return one.getsockname()[1]


def ready(port):
    begun = time.monotonic()
    client = http.client.HTTPConnection("127.0.0.1", port, timeout=30)
    try:
        client.request("GET", "/ready")
        answer = client.getresponse()
        return time.monotonic() - begun, (answer.status, answer.read())
    except (OSError, http.client.HTTPException) as error:
        return time.monotonic() - begun, error
    finally:
        client.close()


def open_some(port, text):
    held = []
    for _ in range(COUNT):
        one = socket.create_connection(("127.0.0.1", port), timeout=5)
        if text:
            one.sendall(text)
        held.append(one)
    return held


def beside(port, text, within):
    slowest, right = 0, True
    for _ in range(10):
        held = open_some(port, text)
        took, answer = ready(port)
        slowest, right = max(slowest, took), right and answer == (200, b"ready\n")
        for one in held:
            one.close()
    print("beside %d that sent %r: at most %.3f s, %s" % (COUNT, text, slowest, "ready" if right else "WRONG"), flush=True)
    return right and slowest <= within


def main():
    with tempfile.TemporaryDirectory() as folder:
        port, metrics = free_port(), free_port()
        process = subprocess.Popen([PROGRAM, "keep", "--listen", "127.0.0.1:%d" % port, "--metrics", "127.0.0.1:%d" % metrics, "--new", folder + "/log"],
                                   stdout=subprocess.DEVNULL, stderr=subprocess.DEVNULL)
        try:
            for _ in range(100):
                if ready(metrics)[1] == (200, b"ready\n"):
                    break
                time.sleep(0.1)
            return 0 if beside(metrics, b"", 0.5) else 1
        finally:
            process.kill()
            process.wait()


sys.exit(main())
