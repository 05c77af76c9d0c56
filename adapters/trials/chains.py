"""Cases of the chain of batches, of outcomes that aren't known, and of what adapters say."""
import threading
import time

from pace import slow
from seats import expect, note, whole
from stores import Gate, patience
from trial import case, rules_command

STORES = ("etcd", "postgres", "kafka")
NO_SPACE = (b"HTTP/1.1 429 Too Many Requests\r\nContent-Type: application/json\r\nContent-Length: 68\r\n\r\n"
            b'{"error":"etcdserver: mvcc: database space exceeded","code":8}      ')


def count(seats):
    """How often seats were given each answer."""
    answers = [answer for seat in seats for _, answer in seat.requests if answer]
    return {answer: answers.count(answer) for answer in sorted(set(answers))}


def write_for(seats, seconds, enough, while_writing=lambda: None):
    """All seats append all the time, each as fast as it can, until there were enough of each of these answers; meanwhile something else is
    done."""
    faults, ended = [], threading.Event()

    def write(seat):
        try:
            while not ended.is_set():
                if seat.append() in ("declined", "lost"):
                    time.sleep(0.2)
        except Exception as fault:
            faults.append(fault)
    threads = [threading.Thread(target=write, args=(seat,)) for seat in seats]
    for thread in threads:
        thread.start()
    began = time.monotonic()
    while_writing()
    while not faults and time.monotonic() < began + slow(60) and (
            time.monotonic() < began + seconds or any(count(seats).get(answer, 0) < least for answer, least in enough.items())):
        time.sleep(0.1)
    ended.set()
    for thread in threads:
        thread.join()
    if faults:
        raise faults[0]
    counts = count(seats)
    expect(all(counts.get(answer, 0) >= least for answer, least in enough.items()), counts)
    return counts


@case(*STORES)
def eight_writers(trial, kind):
    """Eight writers at once: each batch that was kept stands once, and each that was behind doesn't."""
    log = trial.new_log(kind, note(0, "first") + note(4, "a gap before it"))
    seats = log.seats(8)
    counts = write_for(seats, 4, {"kept": 3, "behind": 3})
    expect(set(counts) == {"kept", "behind"}, counts)
    lines = log.agree(seats)
    expect(lines == counts["kept"] + 2, counts, lines)
    return "%d lines, %s" % (lines, counts)


@case(*STORES)
def equal_bytes(trial, kind):
    """Two processes ask for the same bytes at the same offset: one is told kept, the other behind."""
    log = trial.new_log(kind)
    one, other = log.seats(2)
    for number in range(30):
        for seat in (one, other):
            seat.wait_until(lambda seat=seat: seat.next == number)
            seat.send([note(number, "round %d" % number)])
        answers = sorted((one.answer(), other.answer()))
        expect(answers == ["behind", "kept"], answers)
    expect(log.run("dump")[0].count(b"\n") == 30, "not a line each round")


def gated(trial, kind, log, gate):
    """The words for the same log through a gate."""
    store = trial.store(kind)
    if kind == "etcd":
        return ["join-etcd", *patience(), "--endpoints", "http://127.0.0.1:%d" % gate.port, "--prefix", log.name]
    return store.words(log.name, port=gate.port, more="sslmode=disable")


def gate_to(trial, kind):
    store = trial.store(kind)
    return Gate(trial, store.clients[0] if kind == "etcd" else store.port, NO_SPACE)


MARKS = {"etcd": b"requestPut", "postgres": b"INSERT"}


@case("etcd", "postgres")
def answer_is_cut(trial, kind):
    """The store appends, and its answer is cut off: the same request is tried again, and found to stand."""
    log, gate = trial.new_log(kind), gate_to(trial, kind)
    seat = log.seat(gated(trial, kind, log, gate)).ready()
    expect(seat.append() == "kept", seat.said())
    gate.treat("mute", MARKS[kind])
    seat.send([note(1, "cut")])
    expect(gate.met.wait(slow(10)), "the request didn't come by")
    time.sleep(0.3)
    gate.release()
    answer = seat.answer()
    expect(answer == "kept", answer, seat.said())
    expect(seat.append() == "kept", seat.said())
    log.agree([seat])


@case("etcd")
def done_and_refused(trial, kind):
    """The store appends, and says that it has no space: the adapter looks, and finds it."""
    log, gate = trial.new_log(kind), gate_to(trial, kind)
    seat = log.seat(gated(trial, kind, log, gate)).ready()
    gate.treat("deny", MARKS[kind])
    seat.send([note(0, "denied")])
    expect(gate.met.wait(slow(10)), "the request didn't come by")
    gate.act = "pass"
    answer = seat.answer()
    expect(answer == "kept", answer, seat.said())
    log.agree([seat])


@case("etcd", "postgres")
def arrives_late(trial, kind):
    """A request is held on its way until its process was told lost. Then it comes to stand, and is given; or it comes behind another."""
    log, gate = trial.new_log(kind), gate_to(trial, kind)
    seat, other = log.seat(gated(trial, kind, log, gate), patience=2).ready(), log.seats(1)[0]
    for is_first in (True, False):
        gate.treat("hold", MARKS[kind])
        at = seat.next
        seat.send([note(at, "late %s" % is_first)])
        answer = seat.answer()
        expect(answer == "lost", answer, seat.said())
        if not is_first:
            expect(other.append() == "kept", other.said())
        gate.release()
        seat.wait_until(lambda: seat.next == at + 1)
        other.wait_until(lambda: other.next == at + 1)
        expect((b"late %s" % str(is_first).encode() in seat.log[-1]) == is_first, seat.log[-1])
        expect(seat.check() == "kept" and seat.append() == "kept", seat.said())
        other.wait_until(lambda: other.next == at + 2)
    expect("lost, it may come to stand" in seat.said(), seat.said())
    log.agree([seat, other])


@case(*STORES)
def no_contact(trial, kind):
    """Stopped while a request is out (of etcd two members of three, those that don't lead), and continued after it was told lost."""
    store, log = trial.store(kind), trial.new_log(kind)
    leader = store.leader() if kind == "etcd" else None
    followers = [number for number in range(3) if number != leader] if kind == "etcd" else []
    seat = log.seat(store.words(log.name, leader) if kind == "etcd" else None, patience=2).ready()
    expect(seat.append() == "kept" and seat.check() == "kept", seat.said())
    if kind == "kafka":
        store.answer_after(60000)
    else:
        store.stop(*followers)
    try:
        first = [seat.append("while it is out"), seat.check()]
        began = time.monotonic()
        second = [seat.append(), seat.check()]
        took = time.monotonic() - began
    finally:
        if kind == "kafka":
            store.answer_after(0)
            store.stop(1, 2, 3)
            store.go_on(1, 2, 3)
        else:
            store.go_on(*followers)
    expect(first == ["lost", "declined"] and second == ["declined", "declined"], first, second, seat.said())
    expect(took < slow(15), "two refusals took", took)
    until = time.monotonic() + slow(60)
    while seat.check() == "declined":
        expect(time.monotonic() < until, "no contact again:", seat.said())
    while seat.append() != "kept":
        expect(time.monotonic() < until, "nothing is kept:", seat.said())
    expect("store unreachable" in seat.said() and "store reached" in seat.said(), seat.said())
    log.agree([seat])
    return "the late batch %s" % ("came to stand" if any(b"while it is out" in line for line in seat.log) else "didn't come to stand")


@case("etcd")
def leaders_fall(trial, kind):
    """Leaders and other members are killed and stopped beside five writers."""
    store, log = trial.store(kind), trial.new_log(kind)
    seats = log.seats(5)

    def strike():
        for number in range(6):
            leader = store.leader()
            if leader is None:
                leader = number % 3
            victim = leader if number % 3 < 2 else (leader + 1) % 3
            if number % 2:
                store.stop(victim)
                time.sleep(2)
                store.go_on(victim)
            else:
                store.kill(victim)
                time.sleep(1)
                store.start(victim)
            time.sleep(1)
    counts = write_for(seats, 12, {"kept": 21}, strike)
    return "%d lines, %s" % (log.agree(seats), counts)


@case("postgres", "kafka")
def servers_fall(trial, kind):
    """The server is crashed and stopped, or brokers are, beside five writers."""
    store, log = trial.store(kind), trial.new_log(kind)
    seats = log.seats(5)

    def strike():
        for number in range(4):
            if kind == "kafka":
                store.stop(1 + number % 3)
                time.sleep(1.5)
                store.go_on(1 + number % 3)
            elif number % 2:
                store.stop()
                time.sleep(2.5)
                store.go_on()
            else:
                store.crash()
                time.sleep(0.5)
                store.start()
            time.sleep(1.5)
    counts = write_for(seats, 10, {"kept": 11}, strike)
    return "%d lines, %s" % (log.agree(seats), counts)


@case(*STORES)
def large_batches(trial, kind):
    """20,000 lines in a batch, 2 MB in one, more than the store takes, and a history of large ones."""
    log = trial.new_log(kind)
    seat, other = log.seats(2, patience=10)
    expect(seat.append(count=20000) == "kept", seat.said())
    expect(seat.append("x" * 2000000) == "kept", seat.said())
    answer = seat.append("x" * 1000000, count=11)
    expect(answer == ("kept" if kind == "postgres" else "declined"), answer, seat.said())
    for _ in range(5 if kind != "kafka" else 0):        # mock brokers forget what is above 5 MB
        expect(seat.append("y" * 900000, count=2) == "kept", seat.said())
    other.wait_until(lambda: other.next == seat.next)
    late = log.seat().ready()
    log.agree([seat, other, late])


@case("etcd", "postgres")
def put_back(trial, kind):
    """The store was put back by a batch: an adapter that was given it ends, whether it asks or looks; another one goes on."""
    store, log = trial.store(kind), trial.new_log(kind)
    asks, looks = log.seats(2)
    expect(asks.append() == "kept" and asks.append() == "kept", asks.said())
    looks.wait_until(lambda: looks.next == 2)
    for seat in (asks, looks):
        seat.adapter.send_signal(19)
    if kind == "etcd":
        slot = store.value("%s/slot/%020d" % (log.name, 1)).split(b"\n")[0].split()
        store.put(log.name + "/tail", b"1 " + slot[2])
        store.drop("%s/slot/%020d" % (log.name, 1))
    else:
        store.sql("DELETE FROM %s.registry_batch WHERE first = 1" % log.name)
    expect(log.seats(1)[0].next == 1, "where the store was put back to")
    asks.send([note(2, "behind what is gone")])
    for seat in (asks, looks):
        seat.adapter.send_signal(18)
    expect(asks.status() == 2 and looks.status() == 2, "status", asks.said(), looks.said())
    for seat in (asks, looks):
        expect("has lost what was given up to offset 2" in seat.said() or "nothing at offset 2" in seat.said(), seat.said())
    expect(log.run("dump")[0].count(b"\n") == 1, "a batch was appended behind what is gone")


@case("etcd")
def lagging_member(trial, kind):
    """A member is stopped, written past, continued, and read alone: it doesn't answer a check by what it has."""
    store, log = trial.store(kind), trial.new_log(kind)
    leader = store.leader()
    lagging = (leader + 1) % 3
    writer = log.seat(store.words(log.name, leader)).ready()
    reader = log.seat(store.words(log.name, lagging), patience=2).ready()
    answers = []
    for _ in range(12):
        expect(reader.check() in ("kept", "behind"), reader.said())
        reader.wait_until(lambda: reader.next == writer.next)
        store.stop(lagging)
        try:
            expect(writer.append() == "kept", writer.said())
            reader.send([])
            time.sleep(0.1)
            expect(reader.next < writer.next, "a stopped member answers")
        finally:
            store.go_on(lagging)
        answers.append(reader.answer())
        expect(answers[-1] != "kept" or reader.next_then == writer.next, "a check was answered without a batch that was acknowledged before")
        reader.wait_until(lambda: reader.next == writer.next)
    log.agree([writer, reader])
    return "%d behind, %d declined" % (answers.count("behind"), answers.count("declined"))


@case(*STORES)
def checks(trial, kind):
    """A check says whether something came, and gives it first."""
    log = trial.new_log(kind)
    writer = log.seats(1)[0]
    reader = log.seats(1)[0]
    expect(reader.check() == "kept", reader.said())
    for _ in range(10):
        reader.adapter.send_signal(19)
        expect(writer.append() == "kept", writer.said())
        reader.send([])
        reader.adapter.send_signal(18)
        reader.answer()
        expect(reader.next == writer.next, "answered before what was acknowledged was given")
    log.agree([writer, reader])
    if kind == "kafka":                 # a question for the topic's end doesn't wait for the consumer that reads: that takes 0.1 s
        expect(is_fast(reader.check) and is_fast(writer.append), "checks or appends wait")


def is_fast(ask):
    """Whether it takes less than 0.05 s: at one of ten times or more, since the machine may be busy."""
    for _ in range(int(slow(10))):
        began = time.monotonic()
        expect(ask() == "kept", "not kept")
        if time.monotonic() - began < 0.05:
            return True
    return False


@case(*STORES)
def hints(trial, kind):
    """A batch is given soon to who doesn't look by itself, since the store gives a hint."""
    log = trial.new_log(kind)
    writer, reader = log.seats(1)[0], log.seat(poll=6000).ready()
    until = time.monotonic() + slow(60)
    while reader.next == 0:             # until it watches
        expect(time.monotonic() < until and writer.append() == "kept", writer.said(), reader.said())
        time.sleep(1)
    for _ in range(3):
        expect(writer.append() == "kept", writer.said())
        reader.wait_until(lambda: reader.next == writer.next, 20)
    log.agree([writer, reader])


@case(*STORES)
def words_and_statuses(trial, kind):
    """A second init, bases that are none, empty or cut, other rules, no log, and a process that isn't there."""
    log = trial.new_log(kind, note(0, "x"))
    store, command = trial.store(kind), rules_command(1)
    expect("there is a log" in log.run("init", "--empty", command=command, status=2)[1])
    version = (b'0\t{"keytype":"SCHEMA","subject":"s","version":1,"magic":1}\t'
               b'{"subject":"s","version":1,"id":5,"schema":"\\"int\\"","deleted":false}\n')
    mark = b'1\t{"keytype":"ID_MARK","magic":0}\t{"id":4}\n'
    deleted, other = (version + b'1\t' + version.split(b"\t")[1] + b"\tnull\n",
                      version.replace(b'"schema":"\\"int\\""', b'"schemaType":"PROTOBUF"') + b'1\t' + version.split(b"\t")[1] + b"\tnull\n")
    for text, said in ((b"0\tx\n", "line 1 isn't a line"), (b"00\ta\tb\n", "line 1"), (b"0\ta\tb\n\n1\ta\tb\n", "line 2"),
                       (version, "owes a mark"), (version + mark, "owes a mark"), (deleted, "owes a mark"), (other, "owes a mark")):
        expect(said in log.run("init", text=text + b"\nend 1 1\n", command=command, status=2)[1], text)
    text, other = whole(note(0, "x") + note(1, "y")), whole(note(0, "z"))
    for cut, said in ((b"", "no line behind"), (note(0, "x"), "no line behind"), (note(0, "x") + b"\n", "no line behind"),
                      (text[:-1], "a part is missing"), (text[len(note(0, "x")):], "a part is missing"), (text + b"\n", "a part is missing"),
                      (text.replace(b"end 2 2", b"end 2 3"), "a part is missing"), (b"\nend 0 0\n", "is empty"),
                      (note(0, "x") + other, "a part is missing"), (other + text, "line 2"), (text.replace(b"\n\n", b"\n"), "no line behind")):
        expect(said in log.run("init", text=cut, command=command, status=2)[1], cut)
        expect(kind == "kafka" or said in log.run("rebase", text=cut, status=2)[1], cut)
    expect("isn't empty" in log.run("init", "--empty", text=text, command=command, status=2)[1])
    log.run("dump", "--empty", status=2)
    log.run("init", "--whole", text=text, command=command, status=2)
    if kind == "postgres":
        store.sql("CREATE SCHEMA %sempty" % log.name)
    if kind == "kafka":
        store.new_topic(log.name + "empty")
    empty = type(log)(trial, store.words(log.name + "empty"), log.name + "empty")
    expect("put one in with init" in empty.run("dump", status=2)[1])
    seat = log.seat(rules=2)
    expect(seat.status() == 2 and "this log is of rules 1, and the process has rules 2" in seat.said(), seat.said())
    expect("doesn't say its rules" in log.run("serve", command=["/nowhere"], status=2)[1])
    expect("doesn't print a number" in log.run("serve", command=["echo"], status=2)[1])
    log.run("serve", status=2)
    log.run("rebase", "--registry", "http://127.0.0.1:1", status=2)
    if kind == "kafka":
        expect("only grows" in log.run("rebase", status=2)[1] and "only grows" in log.run("trim", status=2)[1])
    expect(log.run("dump")[0] == note(0, "x"), "the log isn't what was put in")
    expect(log.run("dump", "--whole")[0] == whole(note(0, "x")), "another end is said than was put in")
