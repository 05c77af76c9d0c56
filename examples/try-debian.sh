#!/bin/bash
# Makes a fresh Debian in a folder, boots it with systemd, and there installs the package, has set-up.sh set up a registry, asks it,
# kills it, boots anew and asks again, has a follower, takes its log away for a start, upgrades, also beside a joined process, removes and
# purges: docs/DEPLOY.md.
#
#   try-debian.sh PACKAGE [OPTION ..]
#
# The options are further ones of systemd-nspawn. It runs as root, wants Debian's packages mmdebstrap and systemd-container and a
# network, and takes the ports 443, 8081, 8082 and 9081 of this machine. Where FRESH_ROOT is set, a copy of that folder is the fresh
# Debian. The status is 1 where an answer isn't as it should be.
set -euo pipefail
package=$(readlink -f "$1")
shift
folder=$(mktemp -d -p /var/tmp)
root=$folder/root
trap 'rm -rf --one-file-system "$folder"' EXIT

. "$(dirname "$(readlink -f "${BASH_SOURCE[0]}")")/fresh-debian.sh"
make_root "$package" systemd-sysv,dbus,curl,ca-certificates,procps

# What runs there, once the machine is up. In the first boot it sets up, in the second it upgrades and removes.
cat >"$root/trial/run.sh" <<'END'
#!/bin/bash
set -euo pipefail
cd /trial
export DEBIAN_FRONTEND=noninteractive
status=1
trap 'echo $status >/trial/status; [ $status = 0 ] || journalctl -b --no-pager -u registrylog -u registrylog-follow -u nginx; systemctl poweroff --no-block' EXIT
ask() { curl -fs --retry 20 --retry-all-errors --retry-delay 1 --cacert /etc/nginx/registry.crt --resolve registry.here:443:127.0.0.1 "$@"; }
mine() { ask --user someone:secret "$@"; }
same() { [[ $3 == "$2" ]] && echo "ok $1" || { echo "WRONG $1: wanted $2, got $3"; exit; }; }
begins() { [[ $3 == "$2"* ]] && echo "ok $1" || { echo "WRONG $1: wanted $2.., got ${3:0:200}"; exit; }; }
show() { systemctl show -P "$1" registrylog; }
starts() { journalctl -b -o cat --no-pager _PID=1 _SYSTEMD_UNIT=init.scope UNIT=registrylog.service | grep -c ^Started || true; }
site=https://registry.here
log=/var/lib/registry/log
int='{"schema":"\"int\""}'

set_up() {
    apt-get update
    apt-get install -y ./registry.deb
    same "what runs once it is installed" "inactive inactive" "$(systemctl is-active registrylog registrylog-follow | paste -sd ' ')"
    same "the log, an empty line" "registry registry 640 1" "$(stat -c '%U %G %a %s' $log)"
    same "whether the unit wants its folder mounted" 1 "$(show RequiresMountsFor | tr ' ' '\n' | grep -c '^/var/lib/registry$')"
    echo secret | /usr/share/registry/set-up.sh registry.here someone
    same "registering" '{"id":1}' "$(mine --json "$int" $site/subjects/s/versions)"
    systemctl enable --now registrylog-follow
    sed -i '/^KEEP_METRICS/s/""/"--metrics 127.0.0.1:9081"/' /etc/default/registrylog
    systemctl restart registrylog
    answers_at_once "a start"
}

# Where KEEP_METRICS is set, the unit has started only once the registry answers.
answers_at_once() {
    same "the schema right after $1" "$int" "$(curl -s http://127.0.0.1:8081/schemas/ids/1)"
    same "what /ready says right after $1" ready "$(curl -s http://127.0.0.1:9081/ready)"
    same "whether the page has the process's numbers" 1 "$(curl -s http://127.0.0.1:9081/metrics | grep -c '^process_start_time_seconds ')"
}

ask_all() {
    same "what is enabled" "enabled enabled enabled" "$(systemctl is-enabled registrylog registrylog-follow nginx | paste -sd ' ')"
    same "the schema" "$int" "$(mine $site/schemas/ids/1)"
    same "the schema at the follower" "$int" "$(ask http://127.0.0.1:8082/schemas/ids/1)"
    same "without a password" 401 "$(curl -s -o /dev/null -w '%{http_code}' --cacert /etc/nginx/registry.crt --resolve registry.here:443:127.0.0.1 $site/subjects)"
    begins "the page" "<!doctype html>" "$(mine -L $site/)"
    begins "its script" "// The page" "$(mine $site/browser/page.js)"
    same "who has the log" "registry registry 640" "$(stat -c '%U %G %a' $log)"
}

kill_once() {
    local before after
    before=$(show MainPID)
    systemctl kill -s KILL registrylog
    for _ in $(seq 300); do
        after=$(show MainPID)
        [ "$after" = 0 ] || [ "$after" = "$before" ] || break
        sleep 0.1
    done
    same "the schema after a kill" "$int" "$(mine $site/schemas/ids/1)"
    same "how often it was started again" 1 "$(show NRestarts)"
    begins "a registration after it" '{"id":' "$(mine --json '{"schema":"\"long\""}' $site/subjects/s/versions)"
}

# A log of which most lines are superseded is compacted at the start, into a file of the same owner.
compact_once() {
    systemctl stop registrylog registrylog-follow
    {
        sed '/^$/d' $log
        for offset in $(seq 10 100100); do printf '%d\t{"keytype":"NOOP","magic":0}\tnull\n' "$offset"; done
        echo
    } >lines
    cat lines >$log
    systemctl start registrylog
    answers_at_once "a start over a long log"
    same "the schema of a long log" "$int" "$(mine $site/schemas/ids/1)"
    same "the lines of a compacted log" few "$([ "$(wc -l <$log)" -lt 10 ] && echo few || wc -l <$log)"
    same "who has a compacted log" "registry registry 640" "$(stat -c '%U %G %a' $log)"
}

# Status 2 of the program is the unit's end, though what waits for the start ends by itself then.
fault_once() {
    systemctl stop registrylog
    cp $log kept
    echo 'no line' >$log
    systemctl start registrylog 2>faulty && same "a start over a fault" refused done
    sleep 5
    same "how a start over a fault ends" "failed 2 0" "$(show ActiveState) $(show ExecMainStatus) $(show NRestarts)"
    cat kept >$log
    systemctl start registrylog
    answers_at_once "a start over what was mended"
}

# A log that is missing ends the unit too, and none is made.
missing_once() {
    systemctl stop registrylog
    mv $log kept
    systemctl start registrylog 2>missed && same "a start without a log" refused done
    sleep 5
    same "how a start without a log ends" "failed 2 0" "$(show ActiveState) $(show ExecMainStatus) $(show NRestarts)"
    same "what is made then" '' "$(ls $log 2>/dev/null || true)"
    mv kept $log
    systemctl start registrylog
    answers_at_once "a start once the log is back"
}

# Without an adapter a joined process says so once, and isn't started again.
no_adapter_once() {
    systemctl start registrylog-join || true
    sleep 6
    same "how a joined process without an adapter ends" "ActiveState=failed ExecMainStatus=2 NRestarts=0" "$(
        systemctl show -p ActiveState -p ExecMainStatus -p NRestarts registrylog-join | sort | paste -sd ' ')"
    same "how often it says so" 1 "$(journalctl -b -o cat --no-pager -u registrylog-join | grep -c '^JOIN_ADAPTER is empty')"
    systemctl reset-failed registrylog-join
}

upgrade() {
    local before count
    before=$(show InvocationID) count=$(starts)
    apt-get install -y ./higher.deb
    answers_at_once "an upgrade"
    same "the higher version" higher "$(dpkg-query -W -f '${Version}' registry | sed 's/.*+//')"
    [ "$before" != "$(show InvocationID)" ] || same "what runs after an upgrade" another "$before"
    same "how often an upgrade started the writer" 1 "$(($(starts) - count))"
    same "a unit that didn't run" inactive "$(systemctl is-active registrylog-follow || true)"
    same "the schema after an upgrade" "$int" "$(mine $site/schemas/ids/1)"
}

# A joined process, in whose place stands a program that waits, is restarted by an upgrade, and not put aside for other rules.
upgrade_joined() {
    local before
    mkdir -p /run/systemd/system/registrylog-join.service.d
    printf '[Service]\nExecStart=\nExecStart=/bin/sleep infinity\n' >/run/systemd/system/registrylog-join.service.d/trial.conf
    systemctl daemon-reload
    systemctl start registrylog-join
    before=$(systemctl show -P InvocationID registrylog-join)
    apt-get install -y ./other.deb >refused 2>&1 && same "an upgrade to other rules" refused done
    same "what it says" 1 "$(grep -c 'stop it on all machines, and upgrade them before any starts again' refused)"
    same "the joined process then" "$before" "$(systemctl show -P InvocationID registrylog-join)"
    same "the package then" "install ok installed" "$(dpkg-query -W -f '${Status}' registry)"
    apt-get install -y --allow-downgrades ./registry.deb
    same "the joined process after an upgrade with the same rules" active "$(systemctl is-active registrylog-join)"
    [ "$before" != "$(systemctl show -P InvocationID registrylog-join)" ] || same "what runs then" another "$before"
    systemctl stop registrylog-join
}

take_away() {
    local kept
    kept=$(sha256sum <$log)
    apt-get remove -y registry
    same "what runs once it is removed" '' "$(pgrep -l registry || true)"
    same "what is enabled then" '' "$(find /etc/systemd -name 'registry*')"
    apt-get purge -y registry
    same "the log after purging" "$kept" "$(sha256sum <$log)"
}

[ -e been ] || set_up
ask_all
kill_once
if [ -e been ]; then
    compact_once
    fault_once
    missing_once
    no_adapter_once
    upgrade
    upgrade_joined
    take_away
fi
touch been
status=0
END
chmod +x "$root/trial/run.sh"
cat >"$root/etc/systemd/system/trial.service" <<'END'
[Unit]
After=multi-user.target

[Service]
Type=oneshot
ExecStart=/trial/run.sh
StandardOutput=file:/trial/out
StandardError=inherit

[Install]
WantedBy=default.target
END
mkdir -p "$root/etc/systemd/system/default.target.wants"
ln -s ../trial.service "$root/etc/systemd/system/default.target.wants/trial.service"

for boot in first second; do
    rm -f "$root/trial/status"
    systemd-nspawn --quiet --register=no --keep-unit --boot --directory "$root" --console=pipe "$@" </dev/null >"$folder/console" 2>&1 || true
    grep -E '^(ok|WRONG)' "$root/trial/out" || true
    [ "$(cat "$root/trial/status" 2>/dev/null)" = 0 ] || { cat "$root/trial/out" "$folder/console" | tail -n 60; echo "wrong in the $boot boot"; exit 1; }
    : >"$root/trial/out"
done
echo "all as it should be"
