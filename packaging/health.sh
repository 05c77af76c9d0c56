#!/bin/bash
# health.sh [PORT]: asks the registry of this machine for GET /config, and ends with status 0 once it answers 200.
#
# PORT is that of REGISTRY_LISTEN where it isn't given, and else 8081. /ready of the metrics' port says whether commands are taken; while they
# aren't, lookups go on, and the process is in health.
set -u
listen=${REGISTRY_LISTEN:-127.0.0.1:8081}
port=${1:-${listen##*:}}
host=${listen%:*}
# Who listens at all addresses is asked at the machine's own.
case $host in
0.0.0.0) host=127.0.0.1 ;;
'[::]') host=::1 ;;
'['*) host=${host:1:-1} ;;
esac
{ exec 3<>"/dev/tcp/$host/$port"; } 2>/dev/null || { echo "nothing listens at $host, port $port"; exit 1; }
printf 'GET /config HTTP/1.1\r\nHost: %s\r\nConnection: close\r\n\r\n' "$host" >&3
IFS= read -r -t 4 answer <&3 || { echo "no answer within 4 seconds"; exit 1; }
[[ $answer == 'HTTP/1.1 200 '* ]] || { echo "answered ${answer%$'\r'}"; exit 1; }
