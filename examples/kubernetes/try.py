#!/usr/bin/python3
"""Checks the manifests of this folder without a cluster: try.py [REGISTRYLOG]

Each object has only fields that its kind has, with values of their types; what one object names in another is there; the rules are those of
../alerts.yml; the script that makes a log makes one only where it is to. With REGISTRYLOG, the program, it then runs the commands of etcd.yaml,
new-log.yaml and join.yaml as they stand, with addresses of this machine in place of the pods' names: three members and three processes, of
which one each is killed.

It wants Debian's packages python3-kubernetes, which has the kinds of Kubernetes 1.22, and python3-yaml, and for the commands etcd-server. The
status is 1 where something isn't as it should be."""
import datetime
import json
import os
import re
import subprocess
import sys
import tempfile
import time
import urllib.request
from pathlib import Path

import kubernetes.client
import yaml

HERE = Path(__file__).resolve().parent
TOP = HERE.parent.parent
KINDS = {"Service": "V1Service", "StatefulSet": "V1StatefulSet", "NetworkPolicy": "V1NetworkPolicy", "Job": "V1Job",
         "PodDisruptionBudget": "V1PodDisruptionBudget"}
VERSIONS = {"Service": "v1", "StatefulSet": "apps/v1", "NetworkPolicy": "networking.k8s.io/v1", "Job": "batch/v1",
            "PodDisruptionBudget": "policy/v1", "ServiceMonitor": "monitoring.coreos.com/v1", "PrometheusRule": "monitoring.coreos.com/v1"}
PLAIN = {"str": str, "int": int, "bool": bool, "float": (int, float), "object": object, "datetime": str}


def ok(what):
    print("ok", what, flush=True)


def wrong(what):
    print("WRONG", what, flush=True)
    sys.exit(1)


def same(what, wanted, got):
    ok(what) if wanted == got else wrong(f"{what}: wanted {wanted!r}, got {got!r}")


# What each kind may have

def check(kind, value, at):
    """The value is of the kind, by the names that kubernetes.client has: a class, list[..], dict(str, ..) or a plain type."""
    if listed := re.fullmatch(r"list\[(.*)\]", kind):
        isinstance(value, list) or wrong(f"{at} is no list")
        for number, part in enumerate(value):
            check(listed[1], part, f"{at}[{number}]")
    elif mapped := re.fullmatch(r"dict\(str, (.*)\)", kind):
        isinstance(value, dict) or wrong(f"{at} is no map")
        for name, part in value.items():
            check(mapped[1], part, f"{at}.{name}")
    elif kind in PLAIN:
        # YAML has true and false as numbers of Python's too.
        is_bool = isinstance(value, bool)
        isinstance(value, PLAIN[kind]) and (not is_bool or kind in ("bool", "object")) or wrong(f"{at} is no {kind}: {value!r}")
    else:
        check_object(getattr(kubernetes.client, kind), value, at)


def check_object(model, value, at):
    isinstance(value, dict) or wrong(f"{at} is no map")
    fields = {written: name for name, written in model.attribute_map.items()}
    for written, part in value.items():
        written in fields or wrong(f"{at} has no field {written}")
        check(model.openapi_types[fields[written]], part, f"{at}.{written}")
    try:
        # It refuses what is missing, and what is out of its range.
        model(**{fields[written]: part for written, part in value.items()})
    except ValueError as fault:
        wrong(f"{at}: {fault}")


def check_kinds(objects):
    for file, thing in objects:
        kind, name = thing["kind"], thing["metadata"]["name"]
        same(f"{file}: {kind} {name}", VERSIONS.get(kind), thing["apiVersion"])
        if kind in KINDS:
            check_object(getattr(kubernetes.client, KINDS[kind]), thing, name)
        elif kind == "ServiceMonitor":
            same("its fields", [{"selector", "endpoints"}, {"port", "interval"}], [set(thing["spec"]), set(thing["spec"]["endpoints"][0])])


# What objects name in others

def of_kind(objects, *kinds):
    return [thing for _, thing in objects if thing["kind"] in kinds]


def selects(selector, labels):
    return all(labels.get(name) == value for name, value in selector.items())


def check_names(file, objects):
    workloads = of_kind(objects, "StatefulSet", "Job")
    pods = [it["spec"]["template"] for it in workloads]
    services = {it["metadata"]["name"]: it["spec"] for it in of_kind(objects, "Service")}
    for name, spec in services.items():
        [pod] = [it for it in pods if selects(spec["selector"], it["metadata"]["labels"])]
        ports = {port["name"] for container in pod["spec"]["containers"] for port in container["ports"]}
        for port in spec["ports"]:
            str(port.get("targetPort", port["name"])) in ports or wrong(f"{file}: the service {name} leads to no port of its pods")
    for workload in workloads:
        check_pod(f"{file}: {workload['metadata']['name']}", workload, services)
    for policy in of_kind(objects, "NetworkPolicy"):
        any(selects(policy["spec"]["podSelector"]["matchLabels"], it["metadata"]["labels"]) for it in pods) or wrong(f"{file}: a policy for no pod")
    for budget in of_kind(objects, "PodDisruptionBudget"):
        [it for it in pods if selects(budget["spec"]["selector"]["matchLabels"], it["metadata"]["labels"])] or wrong(f"{file}: a budget for no pod")
    ok(f"{file}: what its objects name in others")


def check_pod(at, workload, services):
    spec, template = workload["spec"], workload["spec"]["template"]
    pod, labels = template["spec"], template["metadata"]["labels"]
    if workload["kind"] == "StatefulSet":
        selects(spec["selector"]["matchLabels"], labels) or wrong(f"{at} doesn't select its own pods")
        services[spec["serviceName"]].get("clusterIP") == "None" or wrong(f"{at}: its pods have no names")
    volumes = {it["metadata"]["name"] for it in spec.get("volumeClaimTemplates", [])}
    pod["securityContext"]["runAsNonRoot"] and pod["securityContext"]["runAsUser"] >= 10000 or wrong(f"{at} may run as root")
    pod["enableServiceLinks"] is False or wrong(f"{at} gets a variable for each service, which may be named as a setting")
    for term in pod.get("affinity", {}).get("podAntiAffinity", {}).get("requiredDuringSchedulingIgnoredDuringExecution", []):
        selects(term["labelSelector"]["matchLabels"], labels) or wrong(f"{at}: pods that are kept apart from others")
    for container in pod["containers"] + pod.get("initContainers", []):
        check_container(f"{at}, {container['name']}", container, volumes)


def check_container(at, container, volumes):
    own = {"allowPrivilegeEscalation": False, "readOnlyRootFilesystem": True, "capabilities": {"drop": ["ALL"]}}
    same(f"{at}: what it may do", own, container["securityContext"])
    {it["name"] for it in container.get("volumeMounts", [])} <= volumes or wrong(f"{at}: a volume that isn't there")
    ports = {port["name"] for port in container.get("ports", [])}
    for probe in ("startupProbe", "readinessProbe"):
        if probe in container:
            container[probe]["httpGet"]["port"] in ports or wrong(f"{at}: {probe} asks at no port")
    if container["image"].startswith("zoprenat/"):
        same(f"{at}: its image", f"zoprenat/registry:{(TOP / 'VERSION').read_text().strip()}", container["image"])
        settings = set(re.findall(r'"(REGISTRY_[A-Z_]+)"', (TOP / "crates/log_arguments/src/settings.rt").read_text()))
        unknown = {it["name"] for it in container.get("env", [])} - settings - {"FRESH_UNTIL"}
        unknown and wrong(f"{at}: {unknown} set nothing")


# The script that makes a log

def try_new_log(objects):
    [keeper] = of_kind(objects, "StatefulSet")
    [maker] = keeper["spec"]["template"]["spec"]["initContainers"]
    now = datetime.datetime.utcnow()
    soon, past = [(now + datetime.timedelta(minutes=by)).strftime("%Y-%m-%dT%H:%M:%SZ") for by in (15, -1)]
    for what, files, until, status, left in (
            ("an empty volume without a mark", {}, "", 1, {}),
            ("an empty volume whose mark is over", {}, past, 1, {}),
            ("an empty volume with a mark that is no time", {}, "tomorrow", 1, {}),
            ("an empty volume with a mark", {}, soon, 0, {"log": "\n"}),
            ("a volume with a log", {"log": "1\n\n"}, "", 0, {"log": "1\n\n"}),
            ("a volume with a log and a mark", {"log": "1\n\n"}, soon, 0, {"log": "1\n\n"}),
            ("a volume with other files", {"data": ""}, soon, 1, {"data": ""}),
            ("a volume on which a log was begun", {"log.new": ""}, soon, 0, {"log": "\n"})):
        with tempfile.TemporaryDirectory() as folder:
            for name, text in files.items():
                Path(folder, name).write_text(text)
            Path(folder, "lost+found").mkdir()
            words = [word.replace("/var/lib/registry", folder) for word in maker["command"]]
            came = subprocess.run(words, env={**os.environ, "FRESH_UNTIL": until}, capture_output=True).returncode
            found = {it.name: it.read_text() for it in Path(folder).iterdir() if it.is_file()}
            same(f"a start on {what}", (status, left), (came, found))


# The commands of etcd.yaml, new-log.yaml and join.yaml

class Commands:
    """The commands of the manifests, on this machine: member N of etcd at 127.0.7.N, process N at 127.0.8.N."""

    def __init__(self, program, folder):
        self.folder, self.running = Path(folder), {}
        self.path = f"{folder}:{TOP / 'adapters'}:{os.environ['PATH']}"
        Path(folder, "registrylog").symlink_to(Path(program).resolve())

    def words(self, words, number):
        text = "\0".join(words).replace("$(NAME)", f"etcd-{number}").replace("/data", f"{self.folder}/data{number}")
        text = text.replace("//0.0.0.0:", f"//127.0.7.{number + 1}:")
        return re.sub(r"etcd-(\d)\.etcd:", lambda found: f"127.0.7.{int(found[1]) + 1}:", text).split("\0")

    def environment(self, container, number):
        own = {it["name"]: it["value"].replace("0.0.0.0", f"127.0.8.{number + 1}") for it in container.get("env", []) if "value" in it}
        return {"PATH": self.path, "PYTHONDONTWRITEBYTECODE": "1", **own}

    def start(self, workload, number):
        [container] = workload["spec"]["template"]["spec"]["containers"]
        name = f"{workload['metadata']['name']}-{number}"
        with open(self.folder / f"{name}.said", "ab") as said:
            self.running[name] = subprocess.Popen(self.words(container.get("command") or container["args"], number), stdin=subprocess.DEVNULL,
                                                  stdout=said, stderr=said, env=self.environment(container, number), cwd=self.folder)
        return self.running[name]

    def kill(self, name):
        self.running[name].kill()
        self.running.pop(name).wait()

    def end(self):
        for process in self.running.values():
            process.kill()
        for process in self.running.values():
            process.wait()


def asked(number, path, body=None):
    request = urllib.request.Request(f"http://127.0.8.{number + 1}:8081{path}", None if body is None else json.dumps(body).encode(),
                                     {} if body is None else {"Content-Type": "application/json"})
    try:
        with urllib.request.urlopen(request, timeout=10) as answer:
            return json.load(answer)
    except OSError as fault:
        return str(fault)


def await_answer(what, wanted, ask):
    until = time.monotonic() + 120
    while (got := ask()) != wanted:
        time.monotonic() < until or wrong(f"{what}: wanted {wanted!r}, got {got!r}")
        time.sleep(0.5)
    ok(what)


def try_commands(objects, program):
    found = {(it["kind"], it["metadata"]["name"]): it for _, it in objects["etcd.yaml"] + objects["new-log.yaml"] + objects["join.yaml"]}
    members, maker, joined = found["StatefulSet", "etcd"], found["Job", "registry-new-log"], found["StatefulSet", "registry"]
    with tempfile.TemporaryDirectory() as folder:
        commands = Commands(program, folder)
        try:
            for number in range(3):
                commands.start(members, number)
                commands.start(joined, number)
            await_answer("new-log.yaml makes the log", 0, lambda: commands.start(maker, 0).wait())
            same("a second time it doesn't", 2, commands.start(maker, 0).wait())
            # Those that began before there was a log have ended, and a cluster starts them again.
            for number in range(3):
                commands.running[f"registry-{number}"].poll() is None or commands.start(joined, number)
            for number in range(3):
                await_answer(f"process {number} answers", {"compatibilityLevel": "BACKWARD"}, lambda: asked(number, "/config"))
            schema = {"schema": '"int"'}
            same("a registration at one", {"id": 1}, asked(0, "/subjects/s/versions", schema))
            for number in (1, 2):
                await_answer(f"the schema at process {number}", schema, lambda: asked(number, "/schemas/ids/1"))
            commands.kill("etcd-0")
            commands.kill("registry-0")
            await_answer("a registration without the first node", {"id": 2}, lambda: asked(1, "/subjects/s/versions", {"schema": '"long"'}))
            await_answer("it is at the other process", {"schema": '"long"'}, lambda: asked(2, "/schemas/ids/2"))
            commands.start(members, 0)
            commands.start(joined, 0)
            await_answer("and at the first one, once that is back", {"schema": '"long"'}, lambda: asked(0, "/schemas/ids/2"))
        finally:
            commands.end()


def main():
    objects = {}
    for path in sorted(HERE.glob("*.yaml")):
        objects[path.name] = [(path.name, it) for it in yaml.safe_load_all(path.read_text(encoding="utf-8"))]
    for file, things in objects.items():
        check_kinds(things)
        check_names(file, things)
    rules = next(it for _, it in objects["monitoring.yaml"] if it["kind"] == "PrometheusRule")
    same("monitoring.yaml: the rules of alerts.yml", yaml.safe_load((HERE.parent / "alerts.yml").read_text(encoding="utf-8")), rules["spec"])
    try_new_log(objects["keep.yaml"])
    if sys.argv[1:]:
        try_commands(objects, sys.argv[1])
    print("all as it should be")


if __name__ == "__main__":
    main()
