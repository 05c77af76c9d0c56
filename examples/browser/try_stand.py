"""A registry, a follower and nginx for try.py, in a folder of their own, and what is asked of them without a browser."""
import base64, json, os, re, shutil, ssl, subprocess, time, urllib.error, urllib.parse, urllib.request

HERE = os.path.dirname(os.path.abspath(__file__))
FRONT = int(os.environ.get("PORT", 19543))
WRITER, FOLLOWER = FRONT + 1, FRONT + 2
LOGIN = "someone:secret"


class Stand:
    def __init__(self, program, folder):
        self.program, self.folder = os.path.abspath(program), folder
        self.front = f"https://localhost:{FRONT}"
        self.processes = {}
        try:
            self.take_log([])
            self.start_nginx()
        except BaseException:
            self.close()
            raise

    def path(self, name):
        return os.path.join(self.folder, name)

    # ---- processes

    def begin(self, name, *words, **more):
        self.processes[name] = subprocess.Popen(words, stderr=open(self.path(f"{name}.errors"), "a"), **more)
        return self.processes[name]

    def await_port(self, port):
        for _ in range(600):
            try:
                return urllib.request.urlopen(f"http://127.0.0.1:{port}/mode", timeout=5).read()
            except OSError:
                time.sleep(0.1)
        raise SystemExit(f"nothing listens at port {port}")

    def start_writer(self):
        self.begin("writer", self.program, "keep", "--quiet", "--listen", f"127.0.0.1:{WRITER}", self.path("log"))
        self.await_port(WRITER)

    def start_follower(self):
        tail = self.begin("tail", self.program, "tail", self.path("log"), stdout=subprocess.PIPE)
        self.begin("follower", self.program, "follow", "--listen", f"127.0.0.1:{FOLLOWER}", stdin=tail.stdout)
        self.await_port(FOLLOWER)

    def take_log(self, lines):
        """Goes on with another log."""
        self.end("writer", "tail", "follower")
        with open(self.path("log"), "w") as file:
            file.writelines(lines)
            file.write("\n")
        self.start_writer()
        self.start_follower()

    def signal(self, number):
        for name in ["writer", "follower"]:
            self.processes[name].send_signal(number)

    def end(self, *names):
        for name in names:
            process = self.processes.pop(name, None)
            if process:
                process.terminate() if name == "nginx" else process.kill()
                process.wait()

    def start_nginx(self):
        shutil.copytree(HERE, self.path("share/registry/browser"))
        subprocess.run(["openssl", "req", "-x509", "-newkey", "rsa:2048", "-nodes", "-days", "2", "-subj", "/CN=localhost", "-addext",
                        "subjectAltName=DNS:localhost", "-keyout", self.path("registry.key"), "-out", self.path("registry.crt")],
                       check=True, stderr=subprocess.DEVNULL)
        self.password(LOGIN.split(":")[1])
        with open(self.path("nginx.conf"), "w") as file:
            file.write(self.nginx_settings())
        self.begin("nginx", "nginx", "-e", self.path("nginx.errors"), "-c", self.path("nginx.conf"), "-g", "daemon off;")
        for _ in range(100):
            if os.path.exists(self.path("nginx.pid")):
                return
            time.sleep(0.1)
        raise SystemExit(open(self.path("nginx.errors")).read())

    def nginx_settings(self):
        """../nginx.conf at other ports, with the page's settings from a file that the trial writes."""
        with open(os.path.join(HERE, "../nginx.conf")) as file:
            text = file.read()
        log = f"log_format tried '$request_method $request_uri $status $upstream_addr'; access_log {self.path('asked')} tried;"
        spool = "".join(f"{name}_temp_path {self.path(name)}; " for name in ["client_body", "proxy", "fastcgi", "uwsgi", "scgi"])
        user = subprocess.run(["id", "-un"], check=True, capture_output=True, text=True).stdout.strip()
        changes = [
            (r"(?m)^user .*", f"user {user};"), (r"/run/nginx\.pid", self.path("nginx.pid")), (r"(?m)^http \{", f"http {{ {log} {spool}"),
            (r"(upstream registry_writer \{[^}]*?)127\.0\.0\.1:8081", rf"\g<1>127.0.0.1:{WRITER}"),
            (r"(upstream registry_followers \{[^}]*?server )127\.0\.0\.1:8081", rf"\g<1>127.0.0.1:{FOLLOWER}"),
            (r"listen 443 ", f"listen 127.0.0.1:{FRONT} "), (r"registry\.example", "localhost"),
            (r"/etc/nginx/registry", self.path("registry")), (r"/usr/share", self.path("share")),
            (r"location = /browser/settings\.json \{[^}]*\}", ""),
        ]
        for pattern, words in changes:
            text = re.sub(pattern, words, text)
        assert f"127.0.0.1:{WRITER}" in text and f"127.0.0.1:{FOLLOWER}" in text, "nginx.conf has other upstreams"
        return text

    def password(self, word):
        with open(self.path("registry.users"), "w") as file:
            subprocess.run(["htpasswd", "-nbB", LOGIN.split(":")[0], word], check=True, stdout=file)
        with open(self.path("registry.writers"), "w") as file:
            file.write(LOGIN.split(":")[0] + " true;\n")

    def settings(self, given):
        """Writes the page's settings: an object, a text that may be none, or None for no file."""
        path = self.path("share/registry/browser/settings.json")
        if given is None:
            return os.path.exists(path) and os.remove(path)
        with open(path, "w") as file:
            file.write(given if isinstance(given, str) else json.dumps(given))

    def asked(self):
        """What nginx was asked so far."""
        with open(self.path("asked")) as file:
            return file.read().splitlines()

    def close(self):
        self.end(*list(self.processes))

    # ---- what is asked

    def ask(self, method, path, body=None):
        """The status and the answer of the writer."""
        data = None if body is None else json.dumps(body).encode()
        request = urllib.request.Request(f"http://127.0.0.1:{WRITER}{path}", data, method=method)
        request.add_header("Content-Type", "application/json")
        try:
            with urllib.request.urlopen(request) as answer:
                return answer.status, json.load(answer)
        except urllib.error.HTTPError as error:
            return error.code, json.load(error)

    def register(self, subject, schema):
        status, answer = self.ask("POST", f"/subjects/{urllib.parse.quote(subject, safe='')}/versions", {"schema": json.dumps(schema)})
        assert status == 200, answer
        return answer["id"]

    def await_follower(self, path, wanted):
        for _ in range(300):
            try:
                with urllib.request.urlopen(f"http://127.0.0.1:{FOLLOWER}{path}") as answer:
                    if json.load(answer) == wanted:
                        return
            except urllib.error.HTTPError:
                pass
            time.sleep(0.1)
        raise SystemExit(f"the follower doesn't catch up with {path}")
