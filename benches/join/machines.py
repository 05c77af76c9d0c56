"""Machines for cluster.py, which are network namespaces on a bridge of their own where this machine makes such, and else only names; and
what runs on them: members of etcd, and nginx with examples/nginx-joined.conf. It ends what it began."""
import http.client
import json
import os
import re
import shutil
import signal
import subprocess
import time

from registries import NOBODY, Wrong, expect, free_port, send

HERE = os.path.dirname(os.path.realpath(__file__))
CONFIGURATION = os.path.join(HERE, "..", "..", "examples", "nginx-joined.conf")


def ip(*words, check=True):
    done = subprocess.run(["ip", *words], stdout=subprocess.DEVNULL, stderr=subprocess.PIPE, check=False)
    expect(done.returncode == 0 or not check, "ip", *words, done.stderr.decode())
    return done.returncode == 0


class Machine:
    """`address` is the one that it has. What runs on it is started by `popen`."""

    def __init__(self, net, name, number):
        self.net, self.name, self.running = net, name, []
        self.address = "127.0.0.1"
        if net.is_real:
            self.space, self.cable, self.address = net.name + name, net.name + name, "%s.%d" % (net.subnet, number)
            ip("netns", "add", self.space)
            ip("-n", self.space, "link", "add", "eth0", "type", "veth", "peer", "name", self.cable, "netns", net.hub)
            ip("-n", net.hub, "link", "set", self.cable, "master", "bridge", "up")
            ip("-n", self.space, "addr", "add", self.address + "/24", "dev", "eth0")
            ip("-n", self.space, "link", "set", "eth0", "up")
            ip("-n", self.space, "link", "set", "lo", "up")

    def words(self, words):
        return ["ip", "netns", "exec", self.space, *words] if self.net.is_real else list(words)

    def popen(self, words, **more):
        self.running = [one for one in self.running if one.poll() is None]
        self.running.append(subprocess.Popen(self.words(words), **more))
        return self.running[-1]

    # Faults: each gives what ends it

    def cut(self):
        """Nothing comes in or goes out."""
        ip("-n", self.net.hub, "link", "set", self.cable, "down")
        return lambda: ip("-n", self.net.hub, "link", "set", self.cable, "up")

    def mute(self, *others):
        """What these others send arrives, and no answer goes back to them."""
        for other in others:
            ip("-n", self.space, "route", "replace", "blackhole", other.address + "/32")
        return lambda: [ip("-n", self.space, "route", "del", "blackhole", other.address + "/32", check=False) for other in others]


class Net:
    """Machines. `is_real`: each has a network of its own."""

    def __init__(self, wants_spaces):
        self.name, self.machines = "zr%d" % (os.getpid() % 100000), []
        self.subnet, self.hub = "10.213.%d" % (os.getpid() % 250), self.name + "h"
        self.is_real = bool(wants_spaces and shutil.which("ip") and os.getuid() == 0 and ip("netns", "add", self.hub, check=False))
        if self.is_real:
            try:
                ip("-n", self.hub, "link", "add", "bridge", "type", "bridge")
                ip("-n", self.hub, "link", "set", "bridge", "up")
                ip("link", "add", self.name, "type", "veth", "peer", "name", "host", "netns", self.hub)
                ip("-n", self.hub, "link", "set", "host", "master", "bridge", "up")
                ip("addr", "add", self.subnet + ".254/24", "dev", self.name)
                ip("link", "set", self.name, "up")
            except Wrong as fault:
                print("no machines of their own: %s" % fault, flush=True)
                self.end()
                self.is_real = False

    def add(self, name):
        self.machines.append(Machine(self, name, len(self.machines) + 1))
        return self.machines[-1]

    def end(self):
        for machine in self.machines:
            for one in machine.running:
                send(one.pid, signal.SIGCONT)
                one.kill()
                one.wait()
        if self.is_real:
            ip("link", "del", self.name, check=False)
            for machine in self.machines:
                ip("netns", "del", machine.space, check=False)
            ip("netns", "del", self.hub, check=False)


class Etcd:
    """Three members of etcd, a machine each."""

    def __init__(self, net, folder):
        self.folder, self.members = folder, [None] * 3
        self.machines = [net.add("m%d" % number) for number in range(3)]
        self.ports = [(2379, 2380) if net.is_real else (free_port(), free_port()) for _ in range(3)]
        for number in range(3):
            self.start(number)
        self.await_leader()

    def url(self, number, kind=0):
        return "http://%s:%d" % (self.machines[number].address, self.ports[number][kind])

    def words(self):
        """The beginning of an adapter's command line."""
        return ["join-etcd", "--endpoints", ",".join(map(self.url, range(3))), "--prefix", "/registry"]

    def start(self, number):
        cluster = ",".join("m%d=%s" % (one, self.url(one, 1)) for one in range(3))
        with open(os.path.join(self.folder, "etcd%d" % number), "ab") as log:
            self.members[number] = self.machines[number].popen(
                ["etcd", "--name", "m%d" % number, "--data-dir", os.path.join(self.folder, "m%d" % number),
                 "--listen-client-urls", self.url(number), "--advertise-client-urls", self.url(number),
                 "--listen-peer-urls", self.url(number, 1), "--initial-advertise-peer-urls", self.url(number, 1),
                 "--initial-cluster", cluster, "--initial-cluster-state", "new", "--logger", "zap", "--max-request-bytes", "10000000",
                 "--auto-compaction-retention", "1h"], stdout=log, stderr=log)

    def leader(self):
        """The member that leads, and None where none says so."""
        for number in range(3):
            line = http.client.HTTPConnection(self.machines[number].address, self.ports[number][0], timeout=2)
            try:
                line.request("POST", "/v3/maintenance/status", "{}")
                said = json.loads(line.getresponse().read())
            except (*NOBODY, ValueError):
                continue
            finally:
                line.close()
            if said.get("leader") not in (None, "0") and said["leader"] == said["header"]["member_id"]:
                return number
        return None

    def await_leader(self, limit=60):
        until = time.monotonic() + limit
        while self.leader() is None:
            expect(time.monotonic() < until, "etcd has no leader")
            time.sleep(0.1)

    def kill(self, *numbers):
        for number in numbers:
            self.members[number].kill()
            self.members[number].wait()
        return lambda: [self.start(number) for number in numbers]

    def stop(self, *numbers):
        for number in numbers:
            self.members[number].send_signal(signal.SIGSTOP)
        return lambda: [self.members[number].send_signal(signal.SIGCONT) for number in numbers]


class Nginx:
    """nginx with the configuration of the examples, without TLS, passwords and the page. It says in X-Registry who answered."""

    def __init__(self, folder, places):
        self.place = ("127.0.0.1", free_port())
        with open(CONFIGURATION, encoding="utf-8") as file:
            text = file.read()
        text, count = re.subn(r"(?m)^( *)server 10\.0\.0\.\d:8081( .*)\n", "", text)
        expect(count == 6, CONFIGURATION, "has other addresses than it had")
        servers = "".join("server %s:%d max_fails=1 fail_timeout=2s; " % place for place in places)
        text = re.sub(r"(zone \w+ 64k;)", lambda zone: servers + zone[1], text)
        text = re.sub(r"(?m)^ *(ssl_certificate|ssl_certificate_key|ssl_protocols|auth_basic|auth_basic_user_file|add_header|user|pid|include) .*\n",
                      "", text)
        text = text.replace("listen 443 ssl http2;", "listen 127.0.0.1:%d; add_header X-Registry $upstream_addr always;" % self.place[1])
        spool = "".join("%s_temp_path %s/%s; " % (name, folder, name) for name in ("client_body", "proxy", "fastcgi", "uwsgi", "scgi"))
        text = text.replace("http {", "http { access_log off; " + spool, 1)
        path = os.path.join(folder, "nginx.conf")
        with open(path, "w", encoding="utf-8") as file:
            file.write("daemon off; pid %s/nginx.pid; user root;\n" % folder + text)
        self.child = subprocess.Popen(["nginx", "-e", os.path.join(folder, "nginx.errors"), "-c", path])

    def end(self):
        self.child.terminate()
        try:
            self.child.wait(5)
        except subprocess.TimeoutExpired:
            self.child.kill()
            self.child.wait()


def missing_packages(store):
    wanted = {"nginx-light": shutil.which("nginx"), "iproute2": shutil.which("ip")}
    if store == "etcd":
        wanted["etcd-server"] = shutil.which("etcd")
    else:
        there = subprocess.run(["/usr/bin/python3", "-c", "import psycopg2"], stderr=subprocess.DEVNULL, check=False).returncode == 0
        wanted.update({"python3-psycopg2": there, "postgresql": os.path.isdir("/usr/lib/postgresql") and shutil.which("psql"),
                       "procps": shutil.which("ps")})
    return [name for name, there in wanted.items() if not there]
