#!/bin/bash
# Has Prometheus watch a registry with alerts.yml and dashboard.json, fills the registry's disk under load, kills it, starts it on the full
# disk, mends it, and looks which alerts come and go: docs/DEPLOY.md.
#
#   try-metrics.sh REGISTRYLOG
#
# REGISTRYLOG is the program. Its log stands in a file system of 512 KiB in memory where this user may mount one, and else under a limit
# on the size of files. All listen on 127.0.0.1, at ports from 19501 on. It ends after two minutes or so, and at most some ten. What the
# alerts wait for ("for:") is made one second here, and Prometheus looks twice a second. It wants Debian's packages prometheus, curl and
# python3. The status is 1 where something isn't as it should be.
set -euo pipefail

here=$(dirname "$(readlink -f "${BASH_SOURCE[0]}")")
program=$(readlink -f "$1")
registry=127.0.0.1:19501 metrics=127.0.0.1:19502 prometheus=127.0.0.1:19503
folder=$(mktemp -d)
declare -A processes=()
mounted=''

# ---- bringing it up

end() {
    kill -9 "${processes[$1]}" 2>/dev/null || true
    wait "${processes[$1]}" 2>/dev/null || true
    unset "processes[$1]"
}

finish() {
    local name
    for name in "${!processes[@]}"; do end "$name"; done
    [ -z "$mounted" ] || umount "$folder/disk"
    rm -rf "$folder"
}
trap finish EXIT

ok() { echo "ok $*"; }
wrong() { echo "WRONG $*"; tail -n 5 "$folder"/*.err; exit 1; }
# same WHAT WANTED GOT
same() { [[ $3 == "$2" ]] && ok "$1" || wrong "$1: wanted $2, got ${3:0:400}"; }

# await WHAT COMMAND ..: until the command succeeds, a minute at most.
await() {
    local what=$1 tries
    shift
    for tries in $(seq 300); do
        if "$@" >/dev/null 2>&1; then ok "$what" && return; fi
        sleep 0.2
    done
    wrong "$what: not within a minute"
}

make_disk() {
    mkdir "$folder/disk"
    if mount -t tmpfs -o size=512k,mode=700 registry "$folder/disk" 2>/dev/null; then
        mounted=yes
        ok "a small file system in memory"
    else
        ok "a limit on the size of files, since this user can't mount"
    fi
    echo >"$folder/disk/log"
}

# run_registry [LIMIT]: with a limit of so many KiB on its files, where there is no small file system.
run_registry() {
    (
        # Without a handler a write past the limit would end the process.
        trap '' XFSZ
        [ -n "$mounted" ] || [ $# = 0 ] || ulimit -f "$1"
        exec "$program" keep --quiet --listen "$registry" --metrics "$metrics" "$folder/disk/log" 2>>"$folder/registry.err"
    ) &
    processes[registry]=$!
}

start_registry() {
    run_registry "$@"
    await "the registry is ready" curl -sf "http://$metrics/ready"
}

start_prometheus() {
    sed -E 's/^( +for:) .*/\1 1s/' "$here/alerts.yml" >"$folder/alerts.yml"
    cat >"$folder/prometheus.yml" <<END_OF_SETTINGS
global: {scrape_interval: 500ms, evaluation_interval: 500ms}
rule_files: [alerts.yml]
scrape_configs:
  - job_name: registry
    static_configs: [{targets: ["$metrics"]}]
END_OF_SETTINGS
    promtool check config "$folder/prometheus.yml" >"$folder/checked" 2>&1 || wrong "the settings: $(cat "$folder/checked")"
    prometheus --config.file="$folder/prometheus.yml" --storage.tsdb.path="$folder/data" --web.listen-address="$prometheus" \
        >"$folder/prometheus.err" 2>&1 &
    processes[prometheus]=$!
    await "Prometheus reaches the registry" holds 'up{job="registry"} == 1'
}

# ---- what is asked of Prometheus

query() { promtool query instant "http://$prometheus" "$1"; }
# Whether an expression gives anything.
holds() { [ -n "$(query "$1")" ]; }
firing() { query 'count by (alertname) (ALERTS{alertstate="firing"})' | sed -E 's/.*alertname="(\w+)".*/\1/' | sort | paste -sd ' '; }
fires() { [[ " $(firing) " == *" $1 "* ]]; }
fires_nothing() { [ -z "$(firing)" ]; }

# ---- load

# load NAME COUNT SIZE: registers so many schemas of so many bytes in the subject NAME, reads each twice, and prints how many were
# acknowledged and how many declined. It ends ten requests after the first one that was.
cat >"$folder/load.py" <<'END_OF_LOAD'
import http.client
import json
import sys

place, name, count, size = sys.argv[1], sys.argv[2], int(sys.argv[3]), int(sys.argv[4])
line = http.client.HTTPConnection(place, timeout=60)


def ask(method, path, body=None):
    line.request(method, path, body, {"Content-Type": "application/json"})
    response = line.getresponse()
    return response.status, json.loads(response.read())


kept = refused = 0
for number in range(count):
    schema = {"type": "record", "name": "R", "fields": [{"name": "f%d" % number, "type": "int", "default": 0, "doc": "x" * size}]}
    status, said = ask("POST", "/subjects/%s/versions" % name, json.dumps({"schema": json.dumps(schema)}))
    if status != 200:
        assert said["error_code"] == 50001, said
        refused += 1
        if refused > 10:
            break
        continue
    kept += 1
    for _ in range(2):
        assert ask("GET", "/schemas/ids/%d" % said["id"])[0] == 200
print(kept, refused)
END_OF_LOAD
load() { timeout 120 python3 "$folder/load.py" "$registry" "$@"; }
# The number of a sample; 0 where the page has none.
count_of() { curl -s "http://$metrics/metrics" | awk -v "sample=$1" '$1 == sample { number = $2 } END { print number + 0 }'; }

# ---- the trial

try_rules() {
    promtool check rules "$here/alerts.yml" >"$folder/checked" 2>&1 || wrong "alerts.yml: $(cat "$folder/checked")"
    promtool test rules "$here/alerts-test.yml" >"$folder/checked" 2>&1 || wrong "alerts-test.yml: $(cat "$folder/checked")"
    same "each alert has a case" "$(sed -n 's/^ *- alert: //p' "$here/alerts.yml" | sort)" \
        "$(sed -n 's/^ *- alertname: //p' "$here/alerts-test.yml" | sort -u)"
}

try_page() {
    curl -s "http://$metrics/metrics" >"$folder/page"
    same "promtool has nothing to say of the page" '' "$(promtool check metrics <"$folder/page" 2>&1)"
}

# Each expression of the dashboard is one, and each family of the page stands in one.
try_dashboard() {
    local expressions number=0 expression family
    expressions=$(python3 -c 'import json, sys
for panel in json.load(open(sys.argv[1]))["panels"]:
    for target in panel.get("targets", []):
        print(target["expr"].replace("$job", "registry").replace("$__rate_interval", "10s"))' "$here/dashboard.json")
    while IFS= read -r expression; do
        query "$expression" >"$folder/checked" 2>&1 || wrong "dashboard.json: $expression: $(cat "$folder/checked")"
        number=$((number + 1))
    done <<<"$expressions"
    for family in $(sed -n 's/^# TYPE \(\w*\) .*/\1/p' "$folder/page"); do
        grep -q "\b$family" <<<"$expressions" || wrong "dashboard.json doesn't show $family"
    done
    ok "the dashboard's $number expressions, and all $(grep -c '^# TYPE' "$folder/page") families in them"
}

try_load() {
    local before after
    local commands='registry_http_requests_total{class="command",method="POST",route="/subjects/{subject}/versions",status="200"}'
    before=$(count_of "$commands")
    same "100 schemas under load" "100 0" "$(load first 100 20)"
    after=$(count_of "$commands")
    same "the page counts these commands" 100 "$((after - before))"
    same "and their batches" "$after" "$(count_of 'registry_log_batches_total{outcome="kept"}')"
    await "Prometheus has the count" holds "$commands == $after"
    same "what fires while all is well" '' "$(firing)"
}

try_full_disk() {
    local given
    given=$(load second 200 8000)
    [[ $given =~ ^[0-9]+\ [1-9] ]] && ok "the disk is full after ${given% *} more" || wrong "the disk isn't full after $given"
    same "what /ready says then" lost "$(curl -s "http://$metrics/ready")"
    await "RegistryLogLost fires, since the disk is full" fires RegistryLogLost
    same "lookups go on" 200 "$(curl -s -o "$folder/checked" -w '%{http_code}' "http://$registry/schemas/ids/1")"
    echo "firing: $(firing)"
}

try_kill() {
    end registry
    await "RegistryDown fires, since the registry was killed" fires RegistryDown
    echo "firing: $(firing)"
}

# A start that has to write, on the full disk: what a killed write left behind the log finds no room elsewhere.
try_full_start() {
    [ -n "$mounted" ] || return 0
    run_registry
    await "a start on the full disk serves" curl -s -o "$folder/checked" "http://$registry/schemas/ids/1"
    same "what /ready says then" declined "$(curl -s "http://$metrics/ready")"
    await "RegistryDiskFull fires, since the disk is full" fires RegistryDiskFull
    same "registering then" "0 11" "$(load fourth 20 20)"
    end registry
    echo "firing: $(firing)"
}

try_mending() {
    [ -z "$mounted" ] || mount -o remount,size=8m "$folder/disk"
    start_registry
    same "registering goes on" "20 0" "$(load third 20 20)"
    # Errors before count until five minutes have passed.
    await "these are gone once it was mended and started" mended
    echo "firing: $(firing)"
}
mended() { ! fires RegistryLogLost && ! fires RegistryDiskFull && ! fires RegistryDown; }

[ $# = 1 ] || { echo "usage: $0 REGISTRYLOG" >&2; exit 2; }
try_rules
make_disk
start_registry 512
start_prometheus
try_page
try_dashboard
try_load
try_full_disk
try_kill
try_full_start
try_mending
echo "all as it should be"
