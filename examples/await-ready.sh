#!/bin/bash
# Waits until a registry has started, for a unit's ExecStartPost=: docs/DEPLOY.md.
#
#   await-ready.sh [--metrics ADDRESS:PORT | --metrics=ADDRESS:PORT]
#
# It asks /ready there, and ends once that says another word than `starting`, or with status 1 once the process MAINPID is gone. Without
# the option it waits for nothing. The unit's TimeoutStartSec= ends it otherwise.
set -u
case ${1:-} in
--metrics) place=${2:-} ;;
--metrics=*) place=${1#*=} ;;
*) exit 0 ;;
esac
host=${place%:*}
port=${place##*:}
# Who listens at all addresses is asked at the machine's own.
case $host in
0.0.0.0) host=127.0.0.1 ;;
'[::]') host=::1 ;;
'['*) host=${host:1:-1} ;;
esac

has_started() {
    local answer=
    exec 3<>"/dev/tcp/$host/$port" || return 1
    printf 'GET /ready HTTP/1.1\r\nHost: %s\r\n\r\n' "$host" >&3
    # Up to the end of the answer, which closes the connection.
    read -r -d '' -t 10 answer <&3
    [[ $answer == HTTP/* && $answer != *starting* ]]
}

until (has_started) 2>/dev/null; do
    kill -0 "$MAINPID" 2>/dev/null || { echo "it ended before it was ready" >&2; exit 1; }
    sleep 0.2
done
