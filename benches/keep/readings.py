"""How often a schema's text is read for one request: readings.py REGISTRYLOG. The program runs under valgrind's callgrind, which counts the
calls of the function that reads a text, and the same requests are made twice as often in a second run. What is printed is the difference of
the two runs for one request of a kind. It wants a program with its symbols, as `rt run` builds it."""
import http.client, json, os, re, signal, socket, subprocess, sys, tempfile, time

PROGRAM = os.path.abspath(sys.argv[1])
READING = re.compile(r"^c?fn=\((\d+)\)(?: (.*))?$")
NAME = "avro_schema::schema::Schema::read_if_any"


def free_port():
    with socket.socket() as one:
        one.bind(("127.0.0.1", 0))
        return one.getsockname()[1]


def schema(number):
    return json.dumps({"type": "record", "name": "R%d" % number, "fields": [{"name": "f%d" % k, "type": "long", "default": 0} for k in range(9)]})


def ask(client, method, path, body=None):
    client.request(method, path, None if body is None else json.dumps(body), {"Content-Type": "application/json"})
    answer = client.getresponse()
    return answer.status, answer.read()


def registration(client, number):
    return ask(client, "POST", "/subjects/s%d/versions" % number, {"schema": schema(number)})


def live_schema(client, number):
    return ask(client, "POST", "/subjects/s0/versions", {"schema": schema(0)})


def next_version(client, number):
    field = {"name": "n%d" % number, "type": ["null", "int"], "default": None}
    fields = [{"name": "f", "type": "long", "default": 0}, field]
    return ask(client, "POST", "/subjects/v/versions", {"schema": json.dumps({"type": "record", "name": "V", "fields": fields})})


def invalid_text(client, number):
    status, body = ask(client, "POST", "/subjects/i/versions", {"schema": '{"type":"record","name":"%d"}' % number})
    return 200 if status == 422 else status, body


def soft_delete(client, number):
    return ask(client, "DELETE", "/subjects/s%d/versions/1" % number)


def imported(client, number):
    return ask(client, "POST", "/subjects/m/versions", {"schema": schema(5000 + number), "id": 5000 + number, "version": number + 1})


KINDS = {
    "a registration of a new subject": (None, registration),
    "a registration of a further version": (None, next_version),
    "a registration of what is live": (lambda client, _: registration(client, 0), live_schema),
    "a registration of what is no schema": (None, invalid_text),
    "a registration with an id": (lambda client, _: ask(client, "PUT", "/mode/m", {"mode": "IMPORT"}), imported),
    "a soft delete of a version": (lambda client, times: [registration(client, k) for k in range(times)], soft_delete),
}


def calls_in(path):
    """The calls of the function that reads a text, whoever makes them."""
    number, of_reading, count = None, None, 0
    with open(path) as lines:
        is_call = False
        for line in lines:
            found = READING.match(line)
            if found and found[2] and NAME in found[2]:
                number = found[1]
            if line.startswith("cfn="):
                of_reading = found and found[1] == number
            elif line.startswith("calls=") and of_reading:
                count += int(line[6:].split()[0])
    return count


def readings(before, request, times):
    with tempfile.TemporaryDirectory() as folder:
        port, out = free_port(), folder + "/out"
        process = subprocess.Popen(
            ["valgrind", "-q", "--tool=callgrind", "--callgrind-out-file=" + out, PROGRAM, "keep", "--listen", "127.0.0.1:%d" % port, "--new", folder + "/log"],
            stdout=subprocess.DEVNULL, stderr=subprocess.DEVNULL)
        client = http.client.HTTPConnection("127.0.0.1", port, timeout=60)
        for _ in range(300):
            try:
                client.connect()
                break
            except OSError:
                time.sleep(0.2)
        if before:
            before(client, 8)
        for number in range(times):
            status, body = request(client, number)
            if status != 200:
                sys.exit("%s: %s" % (status, body))
        process.send_signal(signal.SIGTERM)
        process.wait(60)
        return calls_in(out)


def main():
    for kind, (before, request) in KINDS.items():
        few, many = readings(before, request, 4), readings(before, request, 8)
        print("%-40s %.2f readings" % (kind, (many - few) / 4), flush=True)


main()
