#!/bin/bash
# Makes the package, installs it in a fresh Debian, and looks at the outcome of each step: of which tree a gate's log has to be, whose the
# parts are, what is there, completion, serving by the unit's line as its user, a kill, a start without a log, an upgrade beside a kept log and the way back, removal and purging: docs/DEPLOY.md.
#
#   try-package.sh            makes it twice, in this clone and in another, and says whether both are the same; then tries it
#   try-package.sh made       makes it so, and doesn't install it
#   try-package.sh PACKAGE    tries that one
#
# It runs as root, and wants Debian's packages mmdebstrap, systemd-container and lintian, and a network. Where FRESH_ROOT is set, a
# copy of that folder is the fresh Debian. The status is 1 where something isn't as it should be.
set -euo pipefail
here=$(dirname "$(readlink -f "${BASH_SOURCE[0]}")")
top=$(dirname "$here")
folder=$(mktemp -d -p /var/tmp)
root=$folder/root
trap 'rm -rf --one-file-system "$folder"' EXIT
. "$here/fresh-debian.sh"
wrong() { echo "WRONG $*"; exit 1; }

# The package is the same from another clone with other settings, and isn't made of a changed tree.
make_twice() {
    local clone=$folder/clone
    "$top/package"
    git clone -q "$top" "$clone"
    mkdir "$clone/out"
    cp -p "$top"/out/registry{log,d}{,.built} "$clone/out/"
    (umask 077 && TZ=Asia/Tokyo LANG=C "$clone/package")
    cmp "$top"/out/registry_*~unproved_amd64.deb "$clone"/out/registry_*~unproved_amd64.deb || wrong "two packages of one commit differ"
    echo "ok the package is the same again"
    echo >>"$clone/README.md"
    ! "$clone/package" 2>"$folder/said" || wrong "a changed tree was packed"
    grep -q 'the tree was changed' "$folder/said" || wrong "a changed tree: $(cat "$folder/said")"
    echo "ok a changed tree is refused"
}

# A package has the version alone only with the gate's log of its tree.
try_gates() {
    local top=$folder/clone version log=$folder/gate.log
    git -C "$top" checkout -q README.md
    version=$(<"$top/VERSION")
    [ -f "$top/out/registry_$version~unproved_amd64.deb" ] || wrong "a package without a gate's log: $(ls "$top/out")"
    refuse_gate "a log of another tree" "another tree" 'tree: 0123' '9 passed, 0 failed'
    refuse_gate "a log without a tree" "another tree" '9 passed, 0 failed'
    refuse_gate "a gate that failed" "isn't that of a whole rt ci" "tree: $("$top/packaging/tree-sum")" '8 passed, 1 failed'
    printf '%s\n' 'commit: 4567' "tree: $("$top/packaging/tree-sum")" '9 passed, 0 failed' >"$log"
    "$top/package" --gate "$log"
    [ "$(dpkg-deb -f "$top/out/registry_${version}_amd64.deb" Version)" = "$version" ] || wrong "a package with a gate's log"
    dpkg-deb --fsys-tarfile "$top/out/registry_${version}_amd64.deb" | tar -xO ./usr/share/doc/registry/PROVED |
        grep -qx 'gate: 9 passed, 0 failed commit: 4567' || wrong "what PROVED says of the gate"
    echo "ok only the gate's log of this tree gives a version without ~unproved"
}

# refuse_gate WHAT SAID LINE ..
refuse_gate() {
    printf '%s\n' "${@:3}" >"$folder/gate.log"
    ! "$folder/clone/package" --gate "$folder/gate.log" 2>"$folder/said" || wrong "$1 was taken"
    grep -q -- "$2" "$folder/said" || wrong "$1: $(cat "$folder/said")"
}

# Each crate of the kit that crates.txt names, and that has a notice beside it, has it in the copyright file.
try_notices() {
    local kit crate count=0 said=$folder/copyright
    kit=$(dirname "$(dirname "$(readlink -f "$(command -v rt)")")")
    dpkg-deb --fsys-tarfile "$package" | tar -xO ./usr/share/doc/registry/copyright >"$said"
    for crate in $(sed 's/#.*//; s/.*://' "$top/crates.txt" | tr ' ' '\n' | sort -u); do
        [ ! -d "$top/crates/$crate" ] && compgen -G "$kit/rattle/$crate/LICENSE*" >/dev/null || continue
        grep -qxF "Files: kit/$crate/*" "$said" || wrong "the notice of $crate isn't in the package"
        count=$((count + 1))
    done
    [ "$count" -gt 5 ] || wrong "only $count crates have notices"
    # The words of the notices, without the form of the lines.
    tr -d ' .\n' <"$said" >"$said.words"
    for crate in serde_json matchit http mio; do
        grep -qF "$(cat "$kit/rattle/$crate"/LICENSE{,-MIT} 2>/dev/null | tr -d ' .\n')" "$said.words" || wrong "the notice of $crate isn't whole"
    done
    echo "ok the notices of $count crates that crates.txt names are there, and those of the crates below"
}

look_over() {
    lintian --allow-root --fail-on error "$package" || wrong "lintian finds errors"
    echo "ok lintian finds no error"
}

inside() { systemd-nspawn --quiet --register=no --keep-unit --pipe --directory "$root" "$@" 2>"$folder/said" || { cat "$folder/said"; wrong "$1"; }; }

# What runs there, without a network but for its own loopback. No systemd runs there: a unit is started by its own line.
write_trial() {
    cat >"$root/trial/run.sh" <<'END_OF_TRIAL'
#!/bin/bash
set -euo pipefail
same() { [[ $3 == "$2" ]] && echo "ok $1" || { echo "WRONG $1: wanted $2, got ${3:0:300}"; exit 1; }; }
has() { [[ $3 == *"$2"* ]] && echo "ok $1" || { echo "WRONG $1: wanted $2, got ${3:0:300}"; exit 1; }; }
unit() { echo "/lib/systemd/system/$1.service"; }
ask() { curl -s --retry 100 --retry-connrefused --retry-delay 1 --retry-max-time 120 "$@"; }
register() { ask --json "{\"schema\":\"\\\"$1\\\"\"}" "http://127.0.0.1:$port/subjects/$1/versions"; }
schema() { ask "http://127.0.0.1:$1/schemas/ids/$2"; }
version() { dpkg-query -W -f '${Version} ${Status}' registry; }
sum() { sha256sum <"$log"; }
log=/var/lib/registry/log
port=8081
units=(registrylog registrylog-follow registrylog-join)

# Runs a unit's line as its user, with the words of its file of options.
start() {
    local line user options
    # A line that goes on, and a $ that is systemd's $$.
    line=$(sed -e ':next' -e '/\\$/ { N; s/\\\n *//; b next }' "$(unit "$1")" | sed -n 's/^ExecStart=//p' | sed 's/\$\$/$/g')
    user=$(sed -n 's/^User=//p' "$(unit "$1")")
    options=$(sed -n 's/^EnvironmentFile=-\?//p' "$(unit "$1")")
    setsid runuser -u "$user" -- bash -c "set -a; . $options; umask 027; exec $line" >"/trial/$1.said" 2>&1 &
}

end() {
    pkill -KILL -x registrylog || true
    while pgrep -x registrylog >/dev/null; do sleep 0.1; done
}

words_of() { registrylog $1 --help | grep -oE -e "$2" | sort | paste -sd ' '; }

# What completion gives for a command line whose last word is begun.
completed() {
    COMP_WORDS=("$@") COMP_CWORD=$(($# - 1))
    _registrylog registrylog "${COMP_WORDS[COMP_CWORD]}" "${COMP_WORDS[COMP_CWORD - 1]}"
    printf '%s\n' "${COMPREPLY[@]}" | sort | paste -sd ' '
}

try_installed() {
    same "nothing runs" '' "$(pgrep -l registry || true)"
    same "units" "disabled disabled disabled" "$(systemctl is-enabled "${units[@]}" 2>&1 | paste -sd ' ' || true)"
    same "the user" "registry /usr/sbin/nologin" "$(getent passwd registry | cut -d : -f 1,7 | tr : ' ')"
    same "the folder" "registry registry 750" "$(stat -c '%U %G %a' /var/lib/registry)"
    same "the log, an empty line" "registry registry 640 1 0" "$(stat -c '%U %G %a %s' "$log") $(tr -d '\n' <"$log" | wc -c)"
    same "the checksums of PROVED" $'registryd: OK\nregistrylog: OK' "$(cd /usr/bin && grep '  registry' /usr/share/doc/registry/PROVED | sha256sum -c)"
    same "the tools on the path" 4 "$(cd /usr/bin && find -L check-schemas copy-registry dump-topic registry-diff -type f -perm 755 | wc -l)"
    same "the units' faults" '' "$(systemd-analyze verify --man=no "${units[@]/%/.service}" 2>&1)"
    for name in "${units[@]}"; do
        systemd-analyze security --offline=true --threshold=20 --no-pager "$(unit "$name")" | grep Overall
    done
}

try_completion() {
    local command
    . /usr/share/bash-completion/completions/registrylog
    same "completion of commands" "$(words_of '' '^  [a-z]+' | tr -s ' ' | sed 's/^ //') " "$(completed registrylog '' | sed 's/--[a-z]* *//g') "
    for command in $(words_of '' '^  [a-z]+'); do
        [ "$command" != help ] || continue
        same "completion of $command" "$(words_of "$command" '^ +(-., )?--[a-z]+' | grep -oE -e '--[a-z]+' | sort | paste -sd ' ')" "$(completed registrylog "$command" --)"
    done
    . /usr/share/bash-completion/completions/registryd
    COMP_WORDS=(registryd '') COMP_CWORD=1
    _registryd registryd ''
    same "completion of registryd" "fold serve sketch" "$(printf '%s\n' "${COMPREPLY[@]}" | sort | paste -sd ' ')"
    same "completion of a value" '' "$(completed registrylog keep --nodes '')"
    cd /trial
    same "completion of a file" higher.deb "$(completed registrylog check high)"
    same "completion of a file behind an option without a value" higher.deb "$(completed registrylog keep --new high)"
    same "completion of a begun command" compact "$(completed registrylog comp)"
}

try_serving() {
    start registrylog
    same "registering" '{"id":1}' "$(register int)"
    same "reading" '{"schema":"\"int\""}' "$(schema 8081 1)"
    same "who has the log" "registry registry 640" "$(stat -c '%U %G %a' "$log")"
    start registrylog-follow
    same "reading at the follower" '{"schema":"\"int\""}' "$(schema 8082 1)"
    end
    pkill -f follow-loop.sh
    start registrylog
    same "reading after a kill" '{"schema":"\"int\""}' "$(schema 8081 1)"
    same "registering after a kill" '{"id":2}' "$(register long)"
    end
    sed -i '/^KEEP_OPTIONS/s/8081/9081/' /etc/default/registrylog
    port=9081
    start registrylog
    same "registering at another port" '{"id":3}' "$(register string)"
}

# A port for metrics is there only where one is named.
try_metrics() {
    same "what a start without metrics waits for" 0 "$(/usr/share/registry/await-ready.sh && echo 0)"
    same "metrics at no port" '' "$(curl -s http://127.0.0.1:9082/ready || true)"
    end
    sed -i '/^KEEP_METRICS/s/""/"--metrics 127.0.0.1:9082"/' /etc/default/registrylog
    start registrylog
    same "waiting for the start" 0 "$(MAINPID=$$ timeout 60 /usr/share/registry/await-ready.sh --metrics 127.0.0.1:9082 && echo 0)"
    same "waiting for it with a =" 0 "$(MAINPID=$$ timeout 60 /usr/share/registry/await-ready.sh --metrics=127.0.0.1:9082 && echo 0)"
    same "what /ready says then" ready "$(curl -s http://127.0.0.1:9082/ready)"
    has "the page of metrics" "registry_ready 1" "$(curl -s http://127.0.0.1:9082/metrics)"
    same "reading then" '{"schema":"\"string\""}' "$(curl -s http://127.0.0.1:9081/schemas/ids/3)"
    end
    same "waiting for what has ended" 1 "$(MAINPID=$! /usr/share/registry/await-ready.sh --metrics 127.0.0.1:9082 2>/trial/awaited || echo $?)"
    same "waiting for that with a =" 1 "$(MAINPID=$! /usr/share/registry/await-ready.sh --metrics=127.0.0.1:9082 2>/trial/awaited || echo $?)"
    start registrylog
}

# A joined process whose adapter isn't named says so, with the status after which it isn't started again; an adapter gets its words.
try_joined() {
    local status=0
    start registrylog-join
    wait "$!" || status=$?
    same "the status without an adapter" 2 "$status"
    same "what it says" "JOIN_ADAPTER is empty: name an adapter in /etc/default/registrylog" "$(cat registrylog-join.said)"
    echo 'JOIN_ADAPTER="/bin/echo adapter --prefix /registry"' >>/etc/default/registrylog
    start registrylog-join
    wait "$!"
    same "what an adapter gets" "adapter --prefix /registry serve -- /usr/bin/registrylog join --listen 127.0.0.1:8081" "$(cat registrylog-join.said)"
    sed -i '$d' /etc/default/registrylog
}

# A start without a log makes none.
try_without_log() {
    mv "$log" kept
    end
    start registrylog
    wait "$!" && same "a start without a log" refused done || same "the status of a start without a log" 2 "$?"
    same "what it says" "$log: no log is there. Is its disk mounted, its name right? With --new a new one is made" "$(cat registrylog.said)"
    mv kept "$log"
    start registrylog
    same "reading once the log is back" '{"schema":"\"int\""}' "$(schema 9081 1)"
}

try_upgrade() {
    local before
    before=$(sum)
    mv "$log" kept
    dpkg -i higher.deb >upgrade.said 2>&1
    same "what an upgrade makes where no log is" '' "$(ls "$log" 2>/dev/null || true)"
    mv kept "$log"
    has "the higher version" "+higher install ok installed" "$(version)"
    same "the log after an upgrade" "$before" "$(sum)"
    same "the old program goes on" '{"schema":"\"int\""}' "$(schema 9081 1)"
    end
    start registrylog
    same "the options stay" '{"schema":"\"long\""}' "$(schema 9081 2)"
    same "registering after an upgrade" '{"id":4}' "$(register bytes)"
    end
    dpkg -i registry.deb >back.said 2>&1
    start registrylog
    same "reading after going back" '{"schema":"\"bytes\""}' "$(schema 9081 4)"
    end
}

try_removal() {
    local before
    before=$(sum)
    has "what removing says" "registry: what was kept in /var/lib/registry stays there" "$(dpkg -r registry 2>&1)"
    same "the programs" '' "$(ls /usr/bin/registry* 2>/dev/null || true)"
    same "the log after removing" "$before" "$(sum)"
    has "the options after removing" KEEP_OPTIONS "$(cat /etc/default/registrylog)"
    has "what purging says" "registry: what was kept in /var/lib/registry stays there" "$(dpkg -P registry 2>&1 </dev/null)"
    same "the log after purging" "$before" "$(sum)"
    same "the options after purging" '' "$(ls /etc/default/registrylog 2>/dev/null || true)"
    same "whose it is after purging" "registry registry" "$(stat -c '%U %G' "$log")"
    same "links that lead nowhere" '' "$(find /etc/systemd -name 'registry*')"
    dpkg -i registry.deb >again.said 2>&1
    start registrylog
    port=8081
    same "reading once it is installed again" '{"schema":"\"bytes\""}' "$(schema 8081 4)"
    same "registering then" '{"id":5}' "$(register float)"
}

cd /trial
for part in installed completion serving metrics joined without_log upgrade removal; do "try_$part"; done
END_OF_TRIAL
    chmod +x "$root/trial/run.sh"
}

if [ "${1:-made}" = made ]; then
    make_twice
    package=$top/out/registry_$(<"$top/VERSION")~unproved_amd64.deb
    try_gates
    try_notices
else
    package=$(readlink -f "$1")
fi
look_over
[ "${1:-}" != made ] || exit 0
make_root "$package" curl,procps
write_trial
inside bash -c 'apt-get -q update && DEBIAN_FRONTEND=noninteractive apt-get install -qy /trial/registry.deb' >"$folder/installing" ||
    { tail -n 30 "$folder/installing"; exit 1; }
echo "ok apt installs it"
inside --private-network /trial/run.sh
echo "all as it should be"
