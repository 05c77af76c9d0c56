#!/bin/bash
# Tries an image's file, as ./package --image makes it, without an engine: it is read in both of its forms, unpacked, and run in namespaces of
# its own, with a root that can't be written to, without capabilities, as another user than the image's; it is asked, told to end under load
# and started again: docs/DEPLOY.md.
#
#   try-image.sh IMAGE
#
# It runs as root, and wants Debian's packages skopeo, umoci, curl, iproute2 and python3. Where podman is there it loads the image too, and runs
# it if it runs any. The status is 1 where something isn't as it should be.
set -euo pipefail
image=$(readlink -f "$1")
folder=$(mktemp -d -p /var/tmp)
running= first=
finish() {
    [ -z "$first" ] || kill -KILL "$first" 2>/dev/null || true
    wait
    rm -rf --one-file-system "$folder"
}
trap finish EXIT
ok() { echo "ok $*"; }
wrong() { echo "WRONG $*"; tail -n 5 "$folder/said" 2>/dev/null; exit 1; }
# same WHAT WANTED GOT
same() { [[ $3 == "$2" ]] && ok "$1" || wrong "$1: wanted $2, got ${3:0:300}"; }

# ---- what the file has

config() { python3 -c 'import json, sys; value = json.load(open(sys.argv[1]))["config"]; print(*eval(sys.argv[2]), sep="\n")' "$folder/config" "$1"; }

try_forms() {
    [ "$(stat -c %s "$image")" -lt 120000000 ] || wrong "the file has $(stat -c %s "$image") bytes"
    ok "the file has $(($(stat -c %s "$image") / 1000000)) MB"
    skopeo inspect --config "oci-archive:$image" >"$folder/config"
    skopeo inspect --config "docker-archive:$image" >"$folder/dockers"
    same "both forms have the same settings" "$(python3 -m json.tool --sort-keys "$folder/config")" "$(python3 -m json.tool --sort-keys "$folder/dockers")"
    same "its user" "10001:10001" "$(config '[value["User"]]')"
    same "its volume" /var/lib/registry "$(config 'value["Volumes"]')"
    skopeo copy --quiet "oci-archive:$image" "oci:$folder/layout:image"
    umoci --log=warn raw unpack --image "$folder/layout:image" "$folder/root"
    rm -r "$folder/layout"
    ok "it is unpacked, to $(du -sm "$folder/root" | cut -f 1) MB"
}

try_contents() {
    same "the checksums of PROVED" $'registryd: OK\nregistrylog: OK' \
        "$(cd "$folder/root/usr/bin" && grep '  registry' ../share/doc/registry/PROVED | sha256sum -c)"
    same "a log in the image" '' "$(ls -A "$folder/root/var/lib/registry")"
    same "devices in the image" '' "$(find "$folder/root" -xdev -type b -o -xdev -type c)"
    same "files that only their owner may run as such" '' "$(find "$folder/root/usr/share/registry" -not -perm -o=r)"
    chroot "$folder/root" /usr/bin/python3 -B -c 'import ssl, http.client, psycopg2, confluent_kafka' || wrong "what the adapters need"
    ok "what the adapters need"
}

# ---- running it

# start WORDS ..: the image with these words in place of its own, over the volume.
start() {
    local words environment
    mapfile -t words < <(config 'value["Entrypoint"]' && if (($#)); then printf '%s\n' "$@"; else config 'value["Cmd"]'; fi)
    mapfile -t environment < <(config 'value["Env"]')
    unshare --mount --pid --net --ipc --uts --fork --kill-child bash -c '
        set -e
        root=$1 volume=$2
        shift 2
        mount --make-rprivate /
        mount --bind "$root" "$root"
        mount --bind "$volume" "$root/var/lib/registry"
        mount -t proc proc "$root/proc"
        mount -t tmpfs -o mode=755 dev "$root/dev"
        for name in null zero urandom; do touch "$root/dev/$name"; mount --bind "/dev/$name" "$root/dev/$name"; done
        mount -o remount,bind,ro "$root"
        ip link set lo up
        exec chroot "$root" /usr/bin/setpriv --reuid 12345 --regid 12345 --clear-groups --bounding-set=-all --inh-caps=-all --no-new-privs \
            /usr/bin/env -i "$@"' bash "$folder/root" "$folder/volume" "${environment[@]}" "${words[@]}" >>"$folder/said" 2>&1 &
    running=$!
    first=''
    while [ -z "$first" ]; do
        first=$(pgrep -P "$running" || true)
        kill -0 "$running" 2>/dev/null || return 0
    done
}

inside() { nsenter --target "$first" --net "$@"; }
ask() { inside curl -s --max-time 10 "$@"; }
health() { nsenter --target "$first" --net --root --mount --wdns=/ /usr/share/registry/health.sh 2>&1 || true; }

await_health() {
    local tries
    for tries in $(seq 300); do
        [ -n "$(health)" ] || { ok "$1" && return; }
        kill -0 "$running" 2>/dev/null || break
        sleep 0.2
    done
    wrong "$1: $(health)"
}

# How many seconds pass until it has ended that gets TERM.
seconds_to_end() {
    local before after
    before=$(date +%s%N)
    kill -TERM "$1"
    wait "$running" || true
    after=$(date +%s%N)
    running=''
    echo $(((after - before + 999999999) / 1000000000))
}

# Registers schemas until it is cut off, and notes the ids that were given.
register_many() {
    local number answer
    for number in $(seq 2 100000); do
        answer=$(ask --json "{\"schema\":\"{\\\"type\\\":\\\"fixed\\\",\\\"name\\\":\\\"f\\\",\\\"size\\\":$number}\"}" http://127.0.0.1:8081/subjects/t$number/versions 2>/dev/null) ||
            return 0
        [[ $answer =~ ^\{\"id\":([0-9]+)\}$ ]] && echo "${BASH_REMATCH[1]} $number" >>"$folder/given"
    done
}

end_under_load() {
    local writer took id number count=0
    : >"$folder/given"
    register_many &
    writer=$!
    sleep 2
    took=$(seconds_to_end "$1")
    wait "$writer" 2>/dev/null || true
    [ "$took" -le "$2" ] || wrong "$3 ended after $took seconds"
    start
    await_health "it starts again after $3"
    while read -r id number; do
        [[ $(ask "http://127.0.0.1:8081/schemas/ids/$id") == *"\\\"size\\\":$number"* ]] || wrong "id $id, which was acknowledged, is lost"
        count=$((count + 1))
    done <"$folder/given"
    [ "$count" -gt 0 ] || wrong "nothing was acknowledged before $3"
    ok "$3 within $2 s, and all of $count acknowledged schemas are there"
}

try_running() {
    mkdir "$folder/volume" "$folder/podman-volume"
    chown 12345:12345 "$folder/volume"
    chown 10001:10001 "$folder/podman-volume"
    start
    wait "$running" && wrong "a start without a log" || same "the status of a start without a log" 2 "$?"
    start registrylog keep --new /var/lib/registry/log
    await_health "it is in health"
    same "a registration" '{"id":1}' "$(ask --json '{"schema":"\"int\""}' http://127.0.0.1:8081/subjects/s/versions)"
    same "what it may do" "0000000000000000" "$(sed -n 's/^CapBnd:\t//p' "/proc/$(pgrep -P "$first")/status")"
    same "who runs it" 12345 "$(stat -c %u "/proc/$first")"
    same "what is below the init" registrylog "$(cat "/proc/$(pgrep -P "$first")/comm")"
    end_under_load "$first" 6 "TERM to the image"
    end_under_load "$(pgrep -P "$first")" 1 "TERM to the program"
    same "the schema of the beginning" '{"schema":"\"int\""}' "$(ask http://127.0.0.1:8081/schemas/ids/1)"
    # What a write left that was cut off is put into log.cut.
    same "what else is on the volume" 'log log.lock' "$(ls "$folder/volume" | grep -vx log.cut | paste -sd ' ')"
    kill -STOP "$(pgrep -P "$first")"
    same "its health while the program stands still" 'no answer within 4 seconds' "$(health)"
    kill -CONT "$(pgrep -P "$first")"
    [ "$(seconds_to_end "$first")" -le 6 ] || wrong "the end"
}

engine() { podman --root "$folder/podman" --runroot "$folder/podman-run" --storage-driver vfs "$@" 2>"$folder/podman.said"; }

# By either of Debian's runtimes, under limits that also a machine with few rights may set.
try_podman() {
    local name runtime before limits=(--read-only --cap-drop all --network none --ulimit nofile=512:512 --ulimit nproc=512:512)
    command -v podman >/dev/null || { echo "podman isn't there"; return 0; }
    name=$(engine load --quiet --input "$image" | sed 's/^Loaded image: //') || { echo "podman loads nothing here: $(tail -n 1 "$folder/podman.said")"; return 0; }
    ok "podman loads it as $name"
    for runtime in crun runc; do
        ! engine --runtime "$runtime" run --rm "${limits[@]}" "$name" registrylog --version >"$folder/version" || break
    done
    grep -q '^registrylog ' "$folder/version" || { echo "podman runs nothing here: $(tail -n 1 "$folder/podman.said")"; return 0; }
    engine --runtime "$runtime" run --detach --name trial "${limits[@]}" --volume "$folder/podman-volume:/var/lib/registry" "$name" \
        registrylog keep --new /var/lib/registry/log >"$folder/id" || wrong "podman: $(tail -n 1 "$folder/podman.said")"
    for _ in $(seq 100); do
        ! engine --runtime "$runtime" exec trial /usr/share/registry/health.sh >"$folder/health" || break
        sleep 0.2
    done
    same "its health under podman" '' "$(cat "$folder/health")"
    before=$(date +%s)
    engine --runtime "$runtime" stop --time 20 trial >"$folder/id"
    [ $(($(date +%s) - before)) -le 6 ] || wrong "podman stopped it after $(($(date +%s) - before)) seconds"
    same "the status after podman's stop" 143 "$(engine inspect trial --format '{{.State.ExitCode}}')"
    engine rm --force trial >"$folder/id"
}

try_forms
try_contents
try_running
try_podman
echo "all as it should be"
