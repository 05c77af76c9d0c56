#!/bin/bash
# Shows what a web page can do with a registry's port on a workstation, and tries only-nginx.nft, which closes that port for all but nginx:
# try-bare-port.sh REGISTRYLOG. It has a network of its own, runs as root, and wants Debian's packages nftables, iproute2, curl and nginx,
# for its user: docs/DEPLOY.md. The status is 1 where something isn't as it should be.
set -euo pipefail
[ "${2:-}" = inside ] || exec unshare --net "$(readlink -f "${BASH_SOURCE[0]}")" "$(readlink -f "$1")" inside
here=$(dirname "$(readlink -f "${BASH_SOURCE[0]}")")
folder=$(mktemp -d)
trap 'kill -9 "$!" 2>/dev/null; rm -rf "$folder"' EXIT
same() { [[ $3 == "$2" ]] && echo "ok $1" || { echo "WRONG $1: wanted $2, got ${3:0:300}"; exit 1; }; }
ip link set lo up
echo >"$folder/log"
"$1" keep --quiet --listen 127.0.0.1:8081 "$folder/log" 2>"$folder/said" &
ask() { runuser -u "$1" -- curl -s --retry 100 --retry-delay 1 --retry-max-time 60 "${@:3}" "http://$2:8081${path:-/subjects}" || echo "no answer: $?"; }

# What a page sends without asking the browser's leave: its own Origin, no Content-Type, and any name that leads here as Host.
page=(-H 'Origin: https://evil.example' -H 'Content-Type:' --data-binary '{"schema":"\"int\""}')
path=/subjects/foreign/versions
same "what a page writes" '{"id":1}' "$(ask nobody 127.0.0.1 --retry-connrefused "${page[@]}")"
path=/subjects
same "what a page reads by a name of its own" '["foreign"]' "$(ask nobody 127.0.0.1 -H 'Host: evil.example')"
same "a request without Host" '["foreign"]' "$(ask nobody 127.0.0.1 -H 'Host:')"
same "a request with two" '["foreign"]' "$(ask nobody 127.0.0.1 -H 'Host: a' -H 'host: b')"

nft -f "$here/only-nginx.nft"
path=/subjects/other/versions
same "what a page writes then" 'no answer: 7' "$(ask nobody 127.0.0.1 "${page[@]}")"
path=/subjects
same "what a page reads then" 'no answer: 7' "$(ask nobody localhost)"
same "what root reads then" 'no answer: 7' "$(ask root 127.0.0.1)"
same "what nginx's user reads" '["foreign"]' "$(ask www-data 127.0.0.1)"
echo "all as it should be"
