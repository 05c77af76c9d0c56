#!/bin/bash
# Starts a follower and the source of its lines, and both anew once one of them has ended: docs/DEPLOY.md.
#
#   follow-loop.sh [OPTION ..] -- SOURCE ..
#
# The options are those of registrylog follow, and SOURCE .. is a command that writes lines from their beginning on, as
#
#   follow-loop.sh --listen 0.0.0.0:8082 -- ssh writer registrylog tail /var/lib/registry/log
#
# A follower goes on at the end of its input, and lines that stop within one aren't taken: so it is ended here, and
# the next one begins with nothing.
set -u
options=()
while [ $# -gt 0 ] && [ "$1" != -- ]; do
    options+=("$1")
    shift
done
if [ $# -lt 2 ]; then
    echo "usage: $0 [OPTION ..] -- SOURCE .., with the options of registrylog follow" >&2
    exit 2
fi
shift

# Each job is a group of processes, which is ended as a whole.
set -m
folder=$(mktemp -d) || exit 1
source=
follower=

end_both() {
    [ -n "$source" ] && kill -- -"$source" 2>/dev/null
    [ -n "$follower" ] && kill -- -"$follower" 2>/dev/null
    wait
    source=
    follower=
}
trap 'end_both; rm -rf "$folder"' EXIT
trap 'exit 143' TERM
trap 'exit 130' INT

while true; do
    rm -f "$folder/lines"
    mkfifo "$folder/lines" || exit 1
    "$@" </dev/null >"$folder/lines" &
    source=$!
    registrylog follow "${options[@]}" <"$folder/lines" &
    follower=$!
    wait -n
    end_both
    sleep 2
done
