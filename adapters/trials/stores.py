"""Stores that a test starts on ports of 127.0.0.1, and ends."""
import base64
import ctypes
import glob
import http.client
import json
import os
import pwd
import signal
import socket
import subprocess
import threading
import time

from pace import slow, times
from seats import Wrong, expect


def free_ports(count):
    """Ports that nobody listens at now."""
    sockets = [socket.socket() for _ in range(count)]
    for one in sockets:
        one.bind(("127.0.0.1", 0))
    ports = [one.getsockname()[1] for one in sockets]
    for one in sockets:
        one.close()
    return ports


def patience():
    """An adapter's option: how long a store may be silent."""
    return ["--timeout", "%g" % slow(2)]


def wait_for(holds, limit, what):
    until = time.monotonic() + slow(limit)
    while not holds():
        if time.monotonic() > until:
            raise Wrong("in vain for %d s: %s" % (slow(limit), what))
        time.sleep(0.05)


def is_stopped(process):
    """Whether each of its threads has stopped, which takes a moment on a busy machine."""
    states = []
    for path in glob.glob("/proc/%d/task/*/stat" % process):
        with open(path, encoding="utf-8") as file:
            states.append(file.read().rsplit(")", 1)[1].split()[0])
    return set(states) == {"T"}


# etcd

class Etcd:
    """A cluster of etcd. On a busy machine its members are as patient with each other as adapters are with it."""

    def __init__(self, trial, members=3, words=(), tls=None):
        self.trial, self.words_more, self.tls = trial, list(words), tls
        self.beats = ["--heartbeat-interval", "%d" % slow(100), "--election-timeout", "%d" % slow(1000)]
        self.folder = trial.new_folder("etcd")
        ports = free_ports(2 * members)
        self.clients, self.peers = ports[:members], ports[members:]
        self.scheme = "https" if tls else "http"
        self.members = [None] * members
        for number in range(members):
            self.start(number)
        trial.later(self.end)
        wait_for(lambda: self.leader() is not None, 60, "a leader of etcd")

    def start(self, number):
        """Starts a member, for the first time or again."""
        url = "%s://127.0.0.1:%d" % (self.scheme, self.clients[number])
        peer = "http://127.0.0.1:%d"
        cluster = ",".join("m%d=%s" % (place, peer % port) for place, port in enumerate(self.peers))
        with open(os.path.join(self.folder, "log%d" % number), "ab") as log:
            self.members[number] = subprocess.Popen(
                ["etcd", "--name", "m%d" % number, "--data-dir", os.path.join(self.folder, "m%d" % number), "--listen-client-urls", url,
                 "--advertise-client-urls", url, "--listen-peer-urls", peer % self.peers[number], "--initial-advertise-peer-urls",
                 peer % self.peers[number], "--initial-cluster", cluster, "--initial-cluster-state", "new", "--logger", "zap",
                 "--max-request-bytes", "10000000", "--auto-compaction-retention", "1h", *self.beats, *self.words_more],
                stdout=log, stderr=log)

    def urls(self, *numbers):
        return ",".join("%s://127.0.0.1:%d" % (self.scheme, self.clients[number]) for number in numbers or range(len(self.clients)))

    def words(self, prefix, *numbers):
        """The beginning of an adapter's command line, for some members or all."""
        return ["join-etcd", *patience(), "--endpoints", self.urls(*numbers), "--prefix", prefix]

    def ask(self, number, path, message, token=None):
        """What a member answers to a message of its gateway."""
        if self.tls:
            connection = http.client.HTTPSConnection("127.0.0.1", self.clients[number], timeout=slow(30), context=self.tls)
        else:
            connection = http.client.HTTPConnection("127.0.0.1", self.clients[number], timeout=slow(30))
        try:
            connection.request("POST", path, json.dumps(message), {"Authorization": token} if token else {})
            return json.loads(connection.getresponse().read())
        finally:
            connection.close()

    def put(self, key, value):
        """Whether it was done."""
        message = {"key": base64.b64encode(key.encode()).decode(), "value": base64.b64encode(value).decode()}
        try:
            return "header" in self.ask(0, "/v3/kv/put", message)
        except (OSError, ValueError, http.client.HTTPException):
            return False

    def value(self, key):
        found = self.ask(0, "/v3/kv/range", {"key": base64.b64encode(key.encode()).decode()}).get("kvs", [])
        return base64.b64decode(found[0]["value"]) if found else None

    def names(self, prefix):
        """The keys that begin so."""
        begin, end = (base64.b64encode(text.encode()).decode() for text in (prefix, prefix[:-1] + chr(ord(prefix[-1]) + 1)))
        found = self.ask(0, "/v3/kv/range", {"key": begin, "range_end": end, "keys_only": True}).get("kvs", [])
        return [base64.b64decode(one["key"]).decode() for one in found]

    def drop(self, key):
        self.ask(0, "/v3/kv/deleterange", {"key": base64.b64encode(key.encode()).decode()})

    def leader(self):
        """The number of the member that leads, and none where none says so."""
        for number in range(len(self.clients)):
            try:
                said = self.ask(number, "/v3/maintenance/status", {})
            except (OSError, ValueError, http.client.HTTPException):
                continue
            if said.get("leader") not in (None, "0") and said["leader"] == said["header"]["member_id"]:
                return number
        return None

    def stop(self, *numbers):
        for number in numbers:
            self.members[number].send_signal(signal.SIGSTOP)
        for number in numbers:
            wait_for(lambda: is_stopped(self.members[number].pid), 20, "a member that stops")

    def go_on(self, *numbers):
        for number in numbers:
            self.members[number].send_signal(signal.SIGCONT)

    def kill(self, number):
        self.members[number].kill()
        self.members[number].wait()

    def restart(self, number):
        self.kill(number)
        self.start(number)

    def end(self):
        for number in range(len(self.members)):
            self.kill(number)


# PostgreSQL

def postgres_programs():
    """Where PostgreSQL's programs are, and none where they aren't."""
    return max(glob.glob("/usr/lib/postgresql/*/bin"), default=None, key=lambda path: int(path.split("/")[4]))


class Postgres:
    """A server of PostgreSQL, or a second one that follows another. It doesn't run as root."""

    def __init__(self, trial, first=None, settings=()):
        self.trial, self.folder = trial, trial.new_folder("postgres")
        self.port, self.data = free_ports(1)[0], os.path.join(self.folder, "data")
        self.user = {}
        if os.getuid() == 0:
            names = {one.pw_name for one in pwd.getpwall()}
            account = pwd.getpwnam("postgres" if "postgres" in names else "nobody")
            self.user = {"user": account.pw_uid, "group": account.pw_gid, "extra_groups": []}
            os.chown(self.folder, account.pw_uid, account.pw_gid)
        if first is None:
            self.run("initdb", "-D", self.data, "-U", "admin", "-A", "trust", "-E", "UTF8", "--locale", "C")
            with open(os.path.join(self.data, "postgresql.conf"), "a", encoding="utf-8") as file:
                file.write("unix_socket_directories = ''\nlisten_addresses = '127.0.0.1'\n%s\n" % "\n".join(settings))
        else:
            self.run("pg_basebackup", "-D", self.data, "-R", "-d",
                     "host=127.0.0.1 port=%d user=admin application_name=second" % first.port)
        self.server = None
        self.start()
        trial.later(self.end)

    def run(self, program, *words):
        done = subprocess.run([os.path.join(postgres_programs(), program), *words], stdout=subprocess.PIPE, stderr=subprocess.STDOUT,
                              cwd=self.folder, **self.user)
        expect(done.returncode == 0, program, *words, done.stdout.decode())

    def start(self):
        with open(os.path.join(self.folder, "log"), "ab") as log:
            self.server = subprocess.Popen([os.path.join(postgres_programs(), "postgres"), "-D", self.data, "-p", str(self.port)],
                                           stdout=log, stderr=log, cwd=self.folder, **self.user)
        wait_for(self.answers, 60, "PostgreSQL")

    def answers(self):
        return subprocess.run([os.path.join(postgres_programs(), "pg_isready"), "-q", "-h", "127.0.0.1", "-p", str(self.port)],
                              check=False).returncode == 0

    def sql(self, *texts):
        """What psql prints of these statements, without headings."""
        words = [word for text in texts for word in ("-c", text)]
        done = subprocess.run(["psql", "-X", "-q", "-A", "-t", "-v", "ON_ERROR_STOP=1", "-h", "127.0.0.1", "-p", str(self.port),
                               "-U", "admin", "-d", "postgres", *words],
                              stdout=subprocess.PIPE, stderr=subprocess.STDOUT, check=False, timeout=slow(30))
        expect(done.returncode == 0, texts, done.stdout.decode())
        return done.stdout.decode().strip()

    def dsn(self, schema, user="admin", port=None, more=""):
        return "host=127.0.0.1 port=%s dbname=postgres user=%s options=-csearch_path=%s %s" % (port or self.port, user, schema, more)

    def words(self, schema, user="admin", port=None, more=""):
        """The beginning of an adapter's command line."""
        return ["join-postgres", *patience(), "--dsn", self.dsn(schema, user, port, more)]

    def processes(self):
        """The server's processes, the first one last."""
        children = subprocess.run(["ps", "-o", "pid=", "--ppid", str(self.server.pid)], stdout=subprocess.PIPE, check=False).stdout.split()
        return [int(one) for one in children] + [self.server.pid]

    def stop(self):
        for process in reversed(self.processes()):
            self.signal(process, signal.SIGSTOP)

    def go_on(self):
        for process in self.processes():
            self.signal(process, signal.SIGCONT)

    @staticmethod
    def signal(process, number):
        try:
            os.kill(process, number)
        except ProcessLookupError:
            pass

    def crash(self):
        """Ends it as a crash does: nothing is written any more."""
        self.server.send_signal(signal.SIGQUIT)
        self.server.wait()

    def end(self):
        if self.server.poll() is None:
            self.go_on()
            self.crash()


# Kafka

class Brokers:
    """Brokers that librdkafka makes up, in this process. They keep messages in memory."""

    def __init__(self, trial, count=3):
        self.library = library = ctypes.CDLL("librdkafka.so.1")
        for name in ("conf_new", "new", "mock_cluster_new"):
            getattr(library, "rd_kafka_" + name).restype = ctypes.c_void_p
        library.rd_kafka_mock_cluster_bootstraps.restype = ctypes.c_char_p
        said = ctypes.create_string_buffer(512)
        settings = ctypes.c_void_p(library.rd_kafka_conf_new())
        library.rd_kafka_conf_set(settings, b"log_level", b"0", said, ctypes.c_size_t(len(said)))
        handle = library.rd_kafka_new(0, settings, said, ctypes.c_size_t(len(said)))
        expect(handle, "no librdkafka:", said.value)
        self.cluster = ctypes.c_void_p(library.rd_kafka_mock_cluster_new(ctypes.c_void_p(handle), count))
        self.names = library.rd_kafka_mock_cluster_bootstraps(self.cluster).decode()
        trial.later(lambda: library.rd_kafka_mock_cluster_destroy(self.cluster))
        self.count = count

    def new_topic(self, name):
        self.library.rd_kafka_mock_topic_create(self.cluster, name.encode(), 1, self.count)

    def words(self, topic):
        return ["join-kafka", *patience(), "--brokers", self.names, "--topic", topic]

    def stop(self, *numbers):
        for number in numbers:
            self.library.rd_kafka_mock_broker_set_down(self.cluster, number)

    def go_on(self, *numbers):
        for number in numbers:
            self.library.rd_kafka_mock_broker_set_up(self.cluster, number)

    def lead(self, topic, number):
        """Makes this broker the leader of a topic."""
        self.library.rd_kafka_mock_partition_set_leader(self.cluster, topic.encode(), 0, number)

    def answer_after(self, milliseconds):
        """Has all brokers do what they are asked at once, and answer so much later."""
        for number in range(1, self.count + 1):
            self.library.rd_kafka_mock_broker_set_rtt(self.cluster, number, milliseconds)


# What lies between

class Gate:
    """A way to a store. Once it is told a mark, data to the store with that mark in it are treated otherwise:
    hold: they wait until they are released, also where who sent them is gone;
    mute: they go on, and instead of the answer the connection ends;
    deny: they go on, and a made-up answer comes instead of the store's;
    drip: they go on, and the answer comes a byte at a time."""

    def __init__(self, trial, port, answer=b""):
        self.port_behind, self.answer = port, answer
        self.mark, self.act, self.released, self.met = b"", "pass", threading.Event(), threading.Event()
        self.listener = socket.socket()
        self.listener.bind(("127.0.0.1", 0))
        self.listener.listen(50)
        self.port = self.listener.getsockname()[1]
        trial.later(self.listener.close)
        threading.Thread(target=self.accept, daemon=True).start()

    def treat(self, act, mark=b""):
        self.released.clear()
        self.met.clear()
        self.mark, self.act = mark, act

    def release(self):
        """Sends on what is held, and passes on what comes from now on."""
        self.act = "pass"
        self.released.set()

    def accept(self):
        while True:
            try:
                near, _ = self.listener.accept()
                far = socket.create_connection(("127.0.0.1", self.port_behind))
            except OSError:
                return
            act = {"now": "pass"}
            threading.Thread(target=self.forth, args=(near, far, act), daemon=True).start()
            threading.Thread(target=self.back, args=(near, far, act), daemon=True).start()

    def forth(self, near, far, act):
        try:
            while True:
                data = near.recv(1 << 20)
                if not data:
                    break
                if self.act != "pass" and self.mark in data:
                    act["now"] = self.act
                    self.met.set()
                    if self.act == "hold":
                        self.released.wait(slow(60))
                far.sendall(data)
            if act["now"] == "hold":
                time.sleep(3)           # a server may drop a request whose sender is seen to be gone
            far.shutdown(socket.SHUT_WR)
        except OSError:
            pass

    def back(self, near, far, act):
        try:
            while True:
                data = far.recv(1 << 20)
                if act["now"] == "deny":
                    near.sendall(self.answer)
                if not data or act["now"] in ("mute", "deny"):
                    break
                for byte in data if act["now"] == "drip" else ():
                    near.sendall(bytes([byte]))
                    time.sleep(0.2 * max(1, times() / 4))
                if act["now"] != "drip":
                    near.sendall(data)
            near.shutdown(socket.SHUT_RDWR)
        except OSError:
            pass
