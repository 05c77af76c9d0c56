"""Appends by a store's own calls what no adapter would ask for, and says what was appended.

    direct.py PROGRAM CLASS WORDS.."""
import concurrent.futures
import sys
import time
import types

from long_logs import fill_etcd
from programs import load


def says_overtaken(joining):
    """An adapter says once where it begins to be overtaken often, and once where that ends."""
    said, say = [], joining.say
    joining.say = said.append
    adapter = joining.Adapter(None, [], 1, 1)
    for answer in [joining.BEHIND] * 120 + [joining.KEPT] * 120:
        adapter.count(answer)
    joining.say = say
    if [text.split(":")[0] for text in said] != ["overtaken often", "no longer overtaken often"]:
        sys.exit("said: %s" % said)


class Told:
    """A store with so many batches behind what was told, which counts its reads, and a process that is told them."""
    is_all, has_ended, is_asking = True, False, False

    def __init__(self, joining, poll=60):
        self.joining, self.reads, self.tokens, self.told = joining, 0, [], []
        self.adapter = joining.Adapter(self, [], 1, poll)
        self.adapter.next, self.adapter.tail, self.adapter.process, self.adapter.looked = 0, "", self, time.monotonic()

    def read(self, at, token):
        self.reads += 1
        return [self.joining.Batch(place, place + 1, self.tokens[place], self.tokens[place - 1] if place else "", b"%d\ta\tb\n" % place)
                for place in range(at, len(self.tokens))]

    def append_or_read(self, batch):
        if batch.first == len(self.tokens):
            self.tokens.append(batch.token)
            return None
        return self.read(batch.first, batch.before)

    def give(self, data):
        self.told.append(data.split(b"\n")[0])

    def after(self, *hints, request=None):
        """How often it reads upon these hints, with a request behind them, and what the process is told."""
        self.reads, self.told = 0, []
        for hint in hints:
            self.adapter.wake(hint)
        if request is not None:
            self.is_asking = True
            self.adapter.events.put([b"%d\ta\tb\n" % request] if request >= 0 else [])
        while not self.adapter.events.empty():
            self.adapter.turn()
        return self.reads, self.told


def passes_over_hints(joining):
    """A hint is read for unless what it names was told, several by one read, and a request that waits reads for them. Hints that are no
    news don't put off the look without one."""
    one, batch, steps = Told(joining), b"batch", []
    steps.append(("its own append", one.after(request=0), (0, [b"kept"])))
    steps.append(("a hint of that", one.after(one.tokens[0]), (0, [])))
    one.tokens += ["a", "b", "c"]
    steps.append(("three hints", one.after("a", "b", "c"), (1, [batch] * 3)))
    steps.append(("the same again", one.after("b", "c", "a"), (0, [])))
    steps.append(("a hint without a token", one.after(""), (1, [])))
    one.tokens.append("d")
    steps.append(("one of news among others", one.after("c", "d", "a"), (1, [batch])))
    one.tokens.append("e")
    steps.append(("an append behind a hint", one.after("e", request=5), (1, [batch, b"behind"])))
    steps.append(("an append behind a hint of what was told", one.after("e", request=6), (0, [b"kept"])))
    one.tokens.append("f")
    steps.append(("an overtaken append, and its hint", one.after(request=7), (1, [batch, b"behind"])))
    steps.append(("that hint", one.after("f"), (0, [])))
    one.tokens.append("g")
    steps.append(("a check behind a hint", one.after("g", request=-1), (1, [batch, b"behind"])))
    one.tokens.append("h")
    one.is_all = False
    steps.append(("a read that may not be all", one.after("h"), (2, [batch])))
    one.is_all, one.adapter.looked = True, time.monotonic() - 61
    one.tokens.append("i")
    steps.append(("news without a hint, and hints of what was told", one.after("h", "g"), (1, [batch])))
    wrong = [step for step in steps if step[1] != step[2]]
    if wrong:
        sys.exit("hints: %s" % wrong)


def trims_between(store, another):
    """A trim that comes between a base's pieces and the base: that isn't put in."""
    name, are_there = store.put_pieces(b"0\ta\tb\n")
    another.trim()
    if store.succeeds([*are_there], [store.put("base", "1 token " + name)]):
        sys.exit("a base was put in whose pieces a trim had dropped")


def gives_what_overtook(store, another, program, at):
    """An append that was overtaken gives what stands in its place, and a read says whether that was all."""
    line = b"%d\tdirect\tb\n"
    if another.append_or_read(program.Batch(at, at + 1, "eight", "seven", line % at)) is not None:
        sys.exit("not appended")
    found = store.append_or_read(program.Batch(at, at + 1, "nine", "seven", line % at))
    if [batch[:4] for batch in found or []] != [(at, at + 1, "eight", "seven")] or not store.is_all:
        sys.exit("overtaken by %s, all: %s" % (found, store.is_all))
    if store.append_or_read(program.Batch(at + 1, at + 2, "ten", "eight", line % (at + 1))) is not None or another.read(
            at + 2, "ten") or not another.is_all:
        sys.exit("not the last")


def refuses_what_forgets(program, store):
    """A topic that forgets is refused as its brokers tell of it; where they don't, there is a warning."""
    told, said = {}, []

    class Admin:
        def __init__(self, settings):
            pass

        @staticmethod
        def describe_configs(resources, **more):
            answer = concurrent.futures.Future()
            answer.set_result({name: types.SimpleNamespace(value=value) for name, value in told.items()})
            return {resources[0]: answer}
    store.check_topic()                 # of brokers that don't say: this once said a warning, of theirs
    program.AdminClient, program.say = Admin, said.append
    keeps = {"cleanup.policy": "delete", "retention.ms": "-1", "retention.bytes": "-1", "segment.ms": "7"}
    for name, value in (("", ""), ("cleanup.policy", "compact"), ("cleanup.policy", "compact,delete"), ("retention.ms", "604800000"),
                        ("retention.bytes", "1000000")):
        told.clear()
        told.update({**keeps, name: value})
        try:
            store.check_topic()
            refusal = ""
        except program.Broken as fault:
            refusal = str(fault)
        if bool(name) != ("%s=%s" % (name, value) in refusal and bool(refusal)) or said:
            sys.exit("%s=%s: %s %s" % (name, value, refusal, said))


def reads_little(store, at, token):
    """A long log is read by few requests, each of which has etcd count no more slots than it may give."""
    fill_etcd(store, at, token, 2000)
    counts, end, post = [], at + 2000, store.post

    def noted(path, message):
        answer = post(path, message)
        counts.extend(int((one.get("response_range") or one.get("responseRange")).get("count", 0)) for one in answer["responses"])
        return answer
    store.post = noted
    while at < end:
        batches = store.read(at, token)
        if store.is_all != (batches[-1].next == end):
            sys.exit("a read up to %d of %d says of itself that it is all: %s" % (batches[-1].next, end, store.is_all))
        for batch in batches:
            if (batch.first, batch.before) != (at, token):
                sys.exit("batch %s doesn't follow %d %s" % (batch[:4], at, token))
            at, token = batch.next, batch.token
    if store.read(at, token) or max(counts) > 256 or len(counts) > 45:
        sys.exit("to read 2000 batches etcd counted %s" % counts)


def main():
    path, name = sys.argv[1:3]
    program = load(path)
    options = program.make_parser().parse_args(sys.argv[3:] + ["dump"])
    store = getattr(program, name)(options)
    base = store.begin()

    def append(at, count, token, before):
        lines = b"".join(b"%d\tdirect\t%s\n" % (at + place, token.encode()) for place in range(count))
        return store.append(program.Batch(at, at + count, token, before, lines))
    at = base.next
    steps = [
        ("first", append(at, 3, "one", base.token), True),
        ("behind a token that never was", append(at + 3, 1, "two", "nobody"), False),
        ("behind a token that is no longer the last", append(at + 3, 1, "three", base.token), False),
        ("within a batch", append(at + 1, 1, "four", "one"), False),
        ("over a gap", append(at + 5, 1, "five", "one"), False),
        ("where a batch stands", append(at, 1, "six", base.token), False),
        ("second", append(at + 3, 1, "seven", "one"), True),
        ("the same again", append(at + 3, 1, "seven", "one"), None),
    ]
    for what, was_appended, is_right in steps:
        if is_right is not None and was_appended != is_right:
            sys.exit("%s: %s" % (what, "appended" if was_appended else "not appended"))
    another = getattr(program, name)(options)
    tokens = [batch.token for batch in another.read(another.begin().next, base.token)]
    if tokens != ["one", "seven"]:
        sys.exit("the log has %s" % tokens)
    says_overtaken(sys.modules["joining"])
    passes_over_hints(sys.modules["joining"])
    gives_what_overtook(store, another, program, at + 4)
    if name == "Kafka":
        refuses_what_forgets(program, store)
    if name == "Etcd":
        trims_between(store, another)
        reads_little(store, at + 6, "ten")


main()
