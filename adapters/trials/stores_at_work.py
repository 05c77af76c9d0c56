"""Cases of one store's own ways: rights, room, TLS, a second server, and what an append rests on."""
import base64
import os
import ssl
import subprocess
import sys
import time

from pace import slow
from programs import CLASSES
from seats import HERE, expect
from stores import Etcd, Postgres, patience, wait_for
from trial import Log, case, rules_command

OWN = set()         # cases that have a store of their own


def own(function):
    OWN.add(function)
    return function


@case("etcd", "postgres", "kafka")
def what_follows_what(trial, kind):
    """The store's own append: nothing but a batch behind the last token, at the next offset, is appended."""
    log = trial.new_log(kind)
    words = [sys.executable, os.path.join(HERE, "direct.py"), os.path.join(trial.adapters, log.words[0]), CLASSES[kind], *log.words[1:]]
    done = subprocess.run(words, stdout=subprocess.PIPE, stderr=subprocess.STDOUT, check=False, timeout=slow(60))
    expect(done.returncode == 0, done.stdout.decode())


# Room

@own
@case("etcd")
def no_space(trial, kind):
    """A database of etcd that is full: appends are declined, checks go on, and it goes on once there is room."""
    store = Etcd(trial, members=1, words=["--quota-backend-bytes", "16000000"])
    log = trial.new_log(kind, store=store)
    seat = log.seat().ready()
    for _ in range(40):
        # On a slow machine one of so many bytes may be lost: it is kept then, or isn't.
        answer = seat.append("z" * 1000000)
        if answer == "declined":
            break
    expect(answer == "declined" and "space exceeded" in seat.said(), answer, seat.said())
    expect(seat.append() == "declined" and seat.check() == "kept", seat.said())
    log.agree([seat])
    alarms = ["etcdctl", "--endpoints", store.urls()]
    for words in (["del", "--prefix", "nothing"], ["alarm", "disarm"]):
        subprocess.run(alarms + words, check=True, stdout=subprocess.DEVNULL, env={**os.environ, "ETCDCTL_API": "3"})
    store.words_more = []
    store.restart(0)
    wait_for(lambda: store.leader() is not None, 20, "etcd again")
    until = time.monotonic() + slow(60)
    while seat.append() != "kept":
        expect(time.monotonic() < until, seat.said())
    log.agree([seat])


@case("postgres")
def no_space(trial, kind):
    """A disk that is full, as far as the server says so: appends are declined, checks go on."""
    store, log = trial.store(kind), trial.new_log(kind)
    seat = log.seat().ready()
    store.sql("SET search_path = %s" % log.name, "CREATE FUNCTION full_disk() RETURNS trigger LANGUAGE plpgsql AS "
              "$$BEGIN RAISE EXCEPTION 'no room' USING ERRCODE = '53100'; END$$",
              "CREATE TRIGGER full_disk BEFORE INSERT ON registry_batch EXECUTE FUNCTION full_disk()")
    expect(seat.append() == "declined" and seat.check() == "kept", seat.said())
    store.sql("DROP TRIGGER full_disk ON %s.registry_batch" % log.name)
    expect(seat.append() == "kept", seat.said())
    log.agree([seat])


# Rights and TLS

def certificate(folder, name, signer=None):
    """A key and a certificate for 127.0.0.1: an authority's own, or signed by one. It has no common name, since etcd's gateway refuses a
    client's that has one, where authentication is enabled."""
    path = os.path.join(folder, name)
    words = ["-subj", "/O=%s" % name, "-newkey", "rsa:2048", "-nodes", "-keyout", path + ".key"]
    quiet = {"check": True, "stdout": subprocess.DEVNULL, "stderr": subprocess.DEVNULL}
    if signer is None:
        subprocess.run(["openssl", "req", "-x509", "-days", "2", *words, "-out", path + ".crt"], **quiet)
        return path
    with open(path + ".names", "w", encoding="utf-8") as file:
        file.write("subjectAltName=IP:127.0.0.1,DNS:localhost\n")
    subprocess.run(["openssl", "req", *words, "-out", path + ".csr"], **quiet)
    subprocess.run(["openssl", "x509", "-req", "-days", "2", "-in", path + ".csr", "-CA", signer + ".crt", "-CAkey", signer + ".key",
                    "-CAcreateserial", "-extfile", path + ".names", "-out", path + ".crt"], **quiet)
    return path


@own
@case("etcd")
def rights_and_tls(trial, kind):
    """TLS with client certificates, users and passwords: a user that may write, one that may only read, and who may nothing."""
    folder = trial.new_folder("keys")
    authority, stranger = certificate(folder, "authority"), certificate(folder, "stranger")
    member, client = certificate(folder, "member", authority), certificate(folder, "client", authority)
    context = ssl.create_default_context(cafile=authority + ".crt")
    context.load_cert_chain(client + ".crt", client + ".key")
    store = Etcd(trial, members=1, tls=context, words=["--cert-file", member + ".crt", "--key-file", member + ".key", "--client-cert-auth",
                                                       "--trusted-ca-file", authority + ".crt"])
    tls = ["--cacert", authority + ".crt", "--cert", client + ".crt", "--key", client + ".key"]
    make_users(store, folder, {"writer": 2, "reader": 0})

    def words(name, password="secret", prefix="/registry", more=tls):
        file = os.path.join(folder, "password-%s-%s" % (name, password))
        with open(file, "w", encoding="utf-8") as text:
            text.write(password + "\n")
        return ["join-etcd", *patience(), "--endpoints", store.urls(), "--prefix", prefix, "--user", name, "--password-file", file, *more]
    log = Log(trial, words("writer"), "/registry")
    log.run("init", "--empty", command=rules_command(1))
    writer, reader = log.seat().ready(), log.seat(words("reader")).ready()
    expect(writer.append() == "kept", writer.said())
    reader.wait_until(lambda: reader.next == 1)
    expect(reader.append() == "declined" and reader.check() == "kept", reader.said())
    for wrong, status in ((words("writer", password="wrong"), 2), (words("writer", prefix="/other"), 2),
                          (words("writer", more=["--cacert", stranger + ".crt", *tls[2:]]), 1), (words("writer", more=tls[:2]), 2)):
        said = Log(trial, wrong, "").run("dump", status=status)[1]
    expect("wants a client's certificate" in said, said)
    log.agree([writer, reader])


def make_users(store, folder, users):
    """Users of etcd, with passwords `secret`: of each, what it may do with keys under /registry/ (0 reads, 2 reads and writes)."""
    def ask(path, **message):
        answer = store.ask(0, "/v3/auth/" + path, message)
        expect("error" not in answer, path, answer)
    begin, end = (base64.b64encode(text).decode() for text in (b"/registry/", b"/registry0"))
    ask("user/add", name="root", password="secret")
    ask("user/grant", user="root", role="root")
    for name, kind in users.items():
        ask("user/add", name=name, password="secret")
        ask("role/add", name=name)
        ask("role/grant", name=name, perm={"permType": kind, "key": begin, "range_end": end})
        ask("user/grant", user=name, role=name)
    ask("enable")


@own
@case("postgres")
def rights_and_tls(trial, kind):
    """TLS with a verified name, a user that only serves, one that only reads, and an authority that signed nothing."""
    folder = trial.new_folder("keys")
    authority, stranger = certificate(folder, "authority"), certificate(folder, "stranger")
    member = certificate(folder, "localhost", authority)
    store = Postgres(trial, settings=["password_encryption = 'scram-sha-256'"])
    for ending in (".crt", ".key"):
        with open(member + ending, "rb") as file:
            path = os.path.join(store.data, "server" + ending)
            with open(path, "wb") as copy:
                os.chmod(path, 0o600)
                copy.write(file.read())
            if store.user:
                os.chown(path, store.user["user"], store.user["group"])
    store.sql("ALTER SYSTEM SET ssl = on", "CREATE SCHEMA registry", "CREATE USER server", "CREATE USER reader", "SELECT pg_reload_conf()")
    time.sleep(0.5)

    def words(user, root=authority):
        return store.words("registry", user=user, more="sslmode=verify-full sslrootcert=%s.crt" % root)
    log = Log(trial, words("admin"), "registry")
    log.run("init", "--empty", command=rules_command(1))
    store.sql("GRANT USAGE ON SCHEMA registry TO server, reader", "GRANT SELECT ON ALL TABLES IN SCHEMA registry TO server, reader",
              "GRANT INSERT ON registry.registry_batch TO server")
    server, reader = log.seat(words("server")).ready(), log.seat(words("reader")).ready()
    expect(server.append() == "kept", server.said())
    reader.wait_until(lambda: reader.next == 1)
    expect(reader.append() == "declined" and reader.check() == "kept", reader.said())
    Log(trial, words("server"), "").run("trim", status=2)
    Log(trial, words("server", stranger), "").run("dump", status=1)
    Log(trial, words("nobody"), "").run("dump", status=1)
    log.agree([server, reader])


@case("kafka")
def leader_moves(trial, kind):
    """Another broker leads: it is found, by who asks for the end, who reads and who writes."""
    store, log = trial.store(kind), trial.new_log(kind)
    seat, other = log.seats(2)
    for broker in (1, 2, 3, 1):
        store.lead(log.name, broker)
        for ask in (seat.check, seat.append, other.check):
            until = time.monotonic() + slow(60)
            while ask() not in ("kept", "behind"):
                expect(time.monotonic() < until, "under another leader:", seat.said(), other.said())
    log.agree([seat, other])


# A second server of PostgreSQL

@own
@case("postgres")
def second_server(trial, kind):
    """A synchronous second server: it is stopped, the first one crashes and starts again meanwhile, and then the second one takes over."""
    first = Postgres(trial)
    second = Postgres(trial, first=first)
    first.sql("ALTER SYSTEM SET synchronous_standby_names = 'second'", "SELECT pg_reload_conf()", "CREATE SCHEMA registry")
    wait_for(lambda: "sync" == first.sql("SELECT sync_state FROM pg_stat_replication"), 20, "a synchronous server")
    dsn = ("host=127.0.0.1,127.0.0.1 port=%d,%d dbname=postgres user=admin options=-csearch_path=registry target_session_attrs=read-write"
           % (first.port, second.port))
    log = Log(trial, ["join-postgres", *patience(), "--dsn", dsn], "registry")
    log.run("init", "--empty", command=rules_command(1))
    seat, other = log.seats(2, patience=3)
    expect(seat.append() == "kept", seat.said())
    other.wait_until(lambda: other.next == seat.next)
    second.stop()
    answer = seat.append("waits")
    expect(answer == "lost", answer, seat.said())
    expect(other.next == 1, "a batch was given that is on one server alone")
    first.crash()
    first.start()
    time.sleep(3)
    expect(first.sql("SELECT count(*) FROM registry.registry_batch") == "3", "the first server doesn't show what it has alone")
    expect(seat.append("behind it") == "declined" and other.check() == "declined", seat.said(), other.said())
    expect((seat.next, other.next) == (1, 1), "a batch was given that is on one server alone")
    second.go_on()
    until = time.monotonic() + slow(60)
    while seat.append() != "kept":
        expect(time.monotonic() < until, seat.said())
    seat.wait_until(lambda: any(b"waits" in line for line in seat.log))
    first.crash()
    second.run("pg_ctl", "promote", "-D", second.data)
    second.sql("ALTER SYSTEM SET synchronous_standby_names = ''", "SELECT pg_reload_conf()")
    until = time.monotonic() + slow(60)
    while seat.append() != "kept":
        expect(time.monotonic() < until, seat.said())
    log.agree([seat, other])
