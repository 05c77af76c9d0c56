"""Logs made by hand for lawful.py: `lawful.py --test`. Each case has words of what is wrong with it, which the checker has to say, or none
where all is right."""
import copy
import json
import random
import re

from lawful import Registry, Unlawful, check, command_of

SCHEMAS = ['"int"', '"long"', '"string"',
           '{"fields":[{"name":"a","type":"int"}],"name":"R","type":"record"}',
           '{"fields":[{"default":0,"name":"b","type":"int"},{"name":"a","type":"long"}],"name":"R","type":"record"}']
REGISTER = "/subjects/%s/versions"
CASES = []


def case(wrong=None):
    def keep(function):
        CASES.append((function, wrong))
        return function
    return keep


class Made:
    """A log, and the requests that made it, one after the other, a second each."""

    def __init__(self):
        self.registry, self.batches, self.requests, self.now = Registry(), [], [], 0

    def note(self, method, path, body, status, answer, asked=None, had=0):
        self.now += 1
        self.requests.append({"method": method, "path": path, "body": body, "asked": self.now if asked is None else asked,
                              "had": self.now + 0.5 if had == 0 else had, "status": status, "answer": answer})
        return self.requests[-1]

    def ask(self, method, path, body=None, **more):
        """Carries a command out as it should be."""
        verdict = self.registry.decide(command_of(method, path, body))
        answer = verdict.body
        if verdict.status == 409:
            answer = {**answer, "message": answer["message"] + ", at /: TYPE_MISMATCH"}
        self.write(verdict.records)
        return self.note(method, path, body, verdict.status, answer, **more)

    def write(self, records):
        lines = self.registry.lines_of(records)
        for line in lines:
            self.registry.take(line)
        if lines:
            self.batches.append(lines)

    def register(self, subject, schema, **more):
        return self.ask("POST", REGISTER % subject, {"schema": schema}, **more)


def usual():
    """A bit of all that is."""
    made = Made()
    made.register("s", SCHEMAS[0])
    made.register("s", SCHEMAS[1])
    made.register("t", SCHEMAS[1])
    made.register("s", SCHEMAS[1])
    made.register("s", SCHEMAS[2])                          # 409
    made.ask("PUT", "/config/s", {"compatibility": "full_transitive"})
    made.register("s", SCHEMAS[3])                          # 409
    made.ask("DELETE", "/config/s")
    made.register("r", SCHEMAS[3])
    made.register("r", SCHEMAS[4])
    made.ask("DELETE", "/subjects/r/versions/1")
    made.ask("DELETE", "/subjects/r/versions/1?permanent=true")
    made.ask("DELETE", "/subjects/r/versions/1?permanent=true")     # 40402
    made.ask("DELETE", "/subjects/s/versions/latest")
    made.ask("DELETE", "/subjects/s")
    made.ask("DELETE", "/subjects/s?permanent=true")
    made.ask("PUT", "/mode/s", {"mode": "IMPORT"})
    made.ask("POST", REGISTER % "s", {"schema": SCHEMAS[2], "id": 77, "version": 3})
    made.ask("POST", REGISTER % "s", {"schema": SCHEMAS[0], "id": 77})      # the id names another schema
    made.ask("DELETE", "/mode/s")
    made.ask("PUT", "/mode", {"mode": "READONLY"})
    made.register("s", SCHEMAS[0])                          # 42205
    made.ask("PUT", "/mode", {"mode": "READWRITE"})
    made.register("u", SCHEMAS[0])
    return made


@case()
def all_is_right():
    made = usual()
    made.note("GET", "/schemas/ids/77", None, 200, {"schema": SCHEMAS[2]})
    return made


@case()
def unsettled_and_done():
    made = usual()
    made.register("v", SCHEMAS[0])
    made.requests[-1].update(status=500, answer={"error_code": 50001, "message": "Store error: unsettled"})
    made.register("v", SCHEMAS[0])
    return made


@case()
def unsettled_and_done_later():
    made = usual()
    late = made.note("DELETE", "/subjects/u", None, None, None, had=None)
    made.register("u", SCHEMAS[1])
    made.write(made.registry.decide(("delete_subject", "u", False)).records)
    made.ask("DELETE", "/subjects/u?permanent=true")
    assert late["had"] is None
    return made


@case()
def done_behind_a_gateway():
    """nginx had no answer and said so; the process did it all the same."""
    made = usual()
    made.register("v", SCHEMAS[0])
    made.requests[-1].update(status=502, answer={"error_code": 502, "message": "No answer from the registry, which may have done what was asked"})
    made.register("v", SCHEMAS[0])
    made.note("DELETE", "/subjects/v", None, 504, {"error_code": 504, "message": "No answer from the registry in time"})
    made.register("v", SCHEMAS[0])
    return made


@case()
def unsettled_and_never_done():
    made = usual()
    made.note("POST", REGISTER % "w", {"schema": SCHEMAS[0]}, 500, {"error_code": 50001, "message": "Store error: unsettled"})
    made.note("POST", REGISTER % "w", {"schema": SCHEMAS[0]}, 503, {"error_code": 50302, "message": "Store error: declined"})
    made.ask("DELETE", "/subjects/w")
    return made


@case()
def two_register_the_same():
    """One writes, the other reads; who was answered first may have done either."""
    made = usual()
    answer = made.register("w", SCHEMAS[0], asked=100, had=102)["answer"]
    made.note("POST", REGISTER % "w", {"schema": SCHEMAS[0]}, 200, answer, asked=99, had=101)
    made.ask("DELETE", "/subjects/w", asked=103, had=104)
    return made


@case()
def deleted_between():
    """Live at first, deleted by another one meanwhile, and written again: the registration has to be found to have written."""
    made = usual()
    made.register("w", SCHEMAS[0])
    made.ask("DELETE", "/subjects/w/versions/1", asked=101, had=102)
    made.register("w", SCHEMAS[0], asked=100, had=103)
    made.ask("DELETE", "/subjects/w/versions/2", asked=104, had=105)
    return made


@case()
def answered_without_the_store():
    made = usual()
    answer = made.register("w", SCHEMAS[0])["answer"]
    made.ask("DELETE", "/subjects/w")
    made.note("POST", REGISTER % "w", {"schema": SCHEMAS[0]}, 200, answer)
    made.ask("DELETE", "/subjects/w?permanent=true")
    return made


@case("isn't what was asked")
def acknowledged_and_missing():
    made = usual()
    made.register("w", SCHEMAS[0])
    before = copy.deepcopy(made.registry)
    made.register("w", SCHEMAS[1])
    made.batches.pop()
    made.registry = before
    made.ask("DELETE", "/subjects/w")
    made.requests[-1]["answer"] = [1, 2]
    return made


@case("answered rightly at no place")
def acknowledged_and_missing_at_the_end():
    made = usual()
    made.register("w", SCHEMAS[0])
    made.batches.pop()
    return made


@case("answered rightly at no place")
def one_delete_acknowledged_twice():
    made = usual()
    made.register("w", SCHEMAS[0])
    made.ask("DELETE", "/subjects/w/versions/1", asked=100, had=101)
    made.note("DELETE", "/subjects/w/versions/1", None, 200, 1, asked=100, had=102)
    return made


@case("asked by nobody")
def done_twice():
    made = usual()
    made.ask("PUT", "/config/w", {"compatibility": "NONE"})
    made.write(made.registry.decide(("set_level", "w", "NONE")).records)
    return made


@case("asked by nobody")
def nobody_asked():
    made = usual()
    made.write(made.registry.decide(("register", "w", SCHEMAS[0], None, None)).records)
    return made


@case("asked by nobody")
def declined_and_done():
    made = usual()
    made.register("w", SCHEMAS[0])
    made.requests[-1].update(status=503, answer={"error_code": 50302, "message": "Store error: declined"})
    return made


@case("answered rightly at no place")
def refused_from_an_older_state():
    """The subject was there, and whoever asked afterwards was told that it isn't."""
    made = usual()
    made.register("w", SCHEMAS[0])
    made.note("DELETE", "/subjects/w", None, 404, {"error_code": 40401, "message": "Subject not found"})
    return made


@case("which is right at no place before it")
def refused_from_an_older_state_before_a_write():
    made = usual()
    made.register("w", SCHEMAS[0])
    made.note("DELETE", "/subjects/w/versions/2", None, 404, {"error_code": 40401, "message": "Subject not found"})
    made.register("x", SCHEMAS[0])
    return made


@case("which is right at no place before it")
def written_in_another_order():
    made = usual()
    made.note("PUT", "/config/w", {"compatibility": "NONE"}, 200, {"compatibility": "NONE"})
    made.ask("PUT", "/config/w", {"compatibility": "FULL"})
    made.write(made.registry.decide(("set_level", "w", "NONE")).records)
    return made


@case("isn't what was asked")
def another_reply():
    made = usual()
    made.register("w", SCHEMAS[0])
    made.requests[-1]["answer"] = {"id": 5}
    return made


@case("answered rightly at no place")
def another_refusal():
    made = usual()
    made.ask("DELETE", "/subjects/none")
    made.requests[-1]["answer"] = {"error_code": 40404, "message": "Subject is soft-deleted"}
    return made


@case("names two schemas")
def an_id_twice():
    made = usual()
    made.register("w", '"bytes"')
    made.batches[-1] = [re.sub('"id":[0-9]+', '"id":77', made.batches[-1][0])]
    return made


@case("isn't what was asked")
def an_id_that_was_given_away():
    made = usual()
    assert made.register("w", '"bytes"')["answer"] == {"id": 79}
    made.ask("DELETE", "/subjects/w")
    made.ask("DELETE", "/subjects/w?permanent=true")
    made.register("w", '"bytes"')
    made.batches[-1] = [re.sub('"id":[0-9]+', '"id":79', made.batches[-1][0])]
    return made


@case("isn't what was asked")
def another_version():
    made = usual()
    made.register("w", SCHEMAS[0])
    made.batches[-1] = [made.batches[-1][0].replace('"version":1', '"version":2')]
    return made


@case("isn't what was asked")
def no_mark():
    made = usual()
    made.register("w", SCHEMAS[0])
    made.ask("DELETE", "/subjects/w")
    made.ask("DELETE", "/subjects/w?permanent=true")
    lines = made.batches[-1]
    made.batches[-1] = [lines[1].replace("%d\t" % (made.registry.next - 1), "%d\t" % (made.registry.next - 2), 1)]
    return made


@case("doesn't begin at offset")
def a_gap():
    made = usual()
    made.register("w", SCHEMAS[0])
    made.batches[-1] = [made.batches[-1][0].replace("%d\t" % (made.registry.next - 1), "%d\t" % made.registry.next, 1)]
    return made


@case("isn't what was asked")
def against_the_level():
    made = usual()
    made.register("w", SCHEMAS[0])
    made.write([({"keytype": "SCHEMA", "subject": "w", "version": 2, "magic": 1},
                 {"subject": "w", "version": 2, "id": 77, "schema": SCHEMAS[2], "deleted": False})])
    made.note("POST", REGISTER % "w", {"schema": SCHEMAS[2]}, 200, {"id": 77})
    return made


@case("isn't what was asked")
def imported_over_another():
    made = usual()
    made.ask("PUT", "/mode/s?force=true", {"mode": "IMPORT"})
    made.write([({"keytype": "SCHEMA", "subject": "s", "version": 3, "magic": 1},
                 {"subject": "s", "version": 3, "id": 90, "schema": SCHEMAS[0], "deleted": False})])
    made.note("POST", REGISTER % "s", {"schema": SCHEMAS[0], "id": 90, "version": 3}, 200, {"id": 90})
    return made


@case("another schema in the log than a lookup gave")
def another_text():
    made = usual()
    made.note("GET", "/schemas/ids/77", None, 200, {"schema": SCHEMAS[0]})
    return made


@case("answered rightly at no place")
def an_id_that_never_was():
    """A registration that is answered without the store, by an id that was never live there."""
    made = usual()
    made.register("w", SCHEMAS[0])
    made.ask("DELETE", "/subjects/w")
    made.note("POST", REGISTER % "w", {"schema": SCHEMAS[0]}, 200, {"id": 99})
    return made


# Histories at random

def random_command(chance):
    subject, schema, version = chance.choice("st"), chance.choice(SCHEMAS[:3]), chance.choice([1, 2, 3, "latest"])
    body = {"schema": schema}
    if chance.random() < 0.2:
        body.update(id=chance.randrange(1, 9), **({"version": chance.randrange(1, 4)} if chance.random() < 0.7 else {}))
    return chance.choice([("POST", REGISTER % subject, body)] * 4 + [
        ("DELETE", "/subjects/%s/versions/%s" % (subject, version), None), ("DELETE", "/subjects/%s/versions/%s?permanent=true" % (subject, version), None),
        ("DELETE", "/subjects/" + subject, None), ("DELETE", "/subjects/%s?permanent=true" % subject, None),
        ("PUT", "/config/" + subject, {"compatibility": chance.choice(["NONE", "FULL"])}), ("DELETE", "/config/" + subject, None),
        ("PUT", "/mode/%s?force=true" % subject, {"mode": chance.choice(["IMPORT", "READWRITE", "READWRITE"])}), ("DELETE", "/mode/" + subject, None)])


def at_random(seed):
    """A lawful history of eight clients, whose commands overlap and clash."""
    chance, made, free, asked = random.Random(seed), Made(), [0.0] * 8, []
    for number in range(200):
        client = chance.randrange(8)
        began = free[client] + chance.random()
        moment = began + chance.choice([0.1, 1, 5]) * chance.random()
        free[client] = moment + chance.choice([0.1, 1, 5]) * chance.random()
        asked.append((moment, number, began, free[client], random_command(chance)))
    older = made.registry
    for moment, number, began, had, (method, path, body) in sorted(asked, key=lambda one: one[0]):
        fate = chance.random()
        if number % 40 == 0:
            older = copy.deepcopy(made.registry)
        if fate < 0.05:             # its client heard nothing of it
            if fate < 0.03:
                made.write(made.registry.decide(command_of(method, path, body)).records)
            made.note(method, path, body, None, None, asked=began, had=None)
        elif fate < 0.1:
            there = older.decide(command_of(method, path, body))
            if method == "POST" and "id" not in body and there.status == 200 and not there.records:
                made.note(method, path, body, 200, there.body, asked=began, had=had)     # answered without the store, from an older state
        else:
            made.ask(method, path, body, asked=began, had=had)
    return made


def change(made, chance):
    """Changes an answer that something hangs on: of a delete, or a refusal for what isn't there."""
    for _ in range(1000):
        said = chance.choice(made.requests)
        if said["method"] == "DELETE" and said["status"] == 200 and "subjects" in said["path"]:
            said.update(status=404, answer={"error_code": 40401, "message": "Subject not found"})
            return
    raise AssertionError("nothing to change")


def histories():
    """Lawful ones, of which none may be refused, and the same with one answer changed, of which most are refused."""
    refused = changed = 0
    for seed in range(60):
        made = at_random(seed)
        try:
            check([], made.batches, made.requests)
        except Unlawful as fault:
            refused += 1
            print("WRONG history %d is refused: %s" % (seed, fault))
        change(made, random.Random(seed))
        try:
            check([], made.batches, made.requests)
        except Unlawful:
            changed += 1
    print("60 lawful histories, %d refused; with one answer changed %d refused" % (refused, changed))
    return refused + (changed < 45)


def main():
    wrong = histories()
    for function, words in CASES:
        made = function()
        try:
            check([], made.batches, json.loads(json.dumps(made.requests)))
            said = None
        except Unlawful as fault:
            said = str(fault)
        is_right = said is None if words is None else words in (said or "")
        wrong += not is_right
        print("%s %s: %s" % ("ok   " if is_right else "WRONG", function.__name__, " ".join((said or "lawful").split())[:150]))
    print("%d logs, %d went wrong" % (len(CASES), wrong))
    return 1 if wrong else 0
