#!/bin/bash
# Brings up a registry, two followers and nginx with examples/nginx.conf, in a folder of its own and at other ports, and has
# clients use them over TLS with a password: methods with and without one, who may write and who may only read, bodies of all lengths,
# other sites' pages, nginx's own answers, reads while followers and the writer are killed, that each command goes to the writer, once, and
# a client beside attackers (try-attackers.py), with several workers of nginx and with one; most of it also with examples/nginx-joined.conf:
# docs/DEPLOY.md. It was run with nginx 1.22, curl 7.88 and Confluent's client 1.7.0.
#
#   try-nginx.sh REGISTRYLOG               curl, Confluent's client for Python, and a client for Go
#   try-nginx.sh REGISTRYLOG COMMAND ..    that command, which finds in its environment where all is
#
# REGISTRYLOG is the program. Where FIRST_LINES is set, the registry begins with the lines of that file; PYTHON may be another Python, with
# another version of the client; PORT is where nginx listens, with the registries behind; SHARE makes the attackers fewer. The status is 1
# where an answer isn't as it should be. It wants Debian's packages nginx, openssl, apache2-utils, curl, python3-confluent-kafka,
# python3-requests, golang-go and golang-github-lensesio-schema-registry-dev.
set -euo pipefail

here=$(dirname "$(readlink -f "${BASH_SOURCE[0]}")")
program=$(readlink -f "$1")
shift
folder=$(mktemp -d)
front=${PORT:-19443}
writer=$((front + 38)) followers=($((front + 39)) $((front + 40)))
unset CURL_CA_BUNDLE REQUESTS_CA_BUNDLE
export FRONT=https://localhost:$front LOGIN=someone:secret READER=reader:other CERTIFICATE=$folder/registry.crt
declare -A processes=()
wrong=0

# ---- bringing it up

end() {
    local name
    for name in "$@"; do
        kill -9 "${processes[$name]}" 2>/dev/null || true
        wait "${processes[$name]}" 2>/dev/null || true
        unset "processes[$name]"
    done
}

stop_nginx() {
    [ -f "$folder/nginx.pid" ] || return 0
    kill "$(<"$folder/nginx.pid")" 2>/dev/null || true
    while [ -f "$folder/nginx.pid" ]; do sleep 0.1; done
}

finish() {
    stop_nginx
    end "${!processes[@]}"
    rm -rf "$folder"
}
trap finish EXIT

await() {
    local tries
    for tries in $(seq 600); do
        ! curl -s -o "$folder/mode" "http://127.0.0.1:$1/mode" || return 0
        sleep 0.1
    done
    echo "nothing listens at port $1" >&2
    cat "$folder"/*.err >&2
    exit 1
}

start_writer() {
    [ -s "$folder/log" ] || echo >"$folder/log"
    "$program" keep --quiet --listen "127.0.0.1:$writer" "$folder/log" 2>>"$folder/writer.err" &
    processes[writer]=$!
    await "$writer"
}

start_follower() {
    rm -f "$folder/$1.lines"
    mkfifo "$folder/$1.lines"
    "$program" tail "$folder/log" >"$folder/$1.lines" 2>>"$folder/tail.err" &
    processes[tail-$1]=$!
    "$program" follow --listen "127.0.0.1:$1" <"$folder/$1.lines" 2>>"$folder/follow.err" &
    processes[follow-$1]=$!
    await "$1"
}

# What nginx serves and knows: the page, a certificate, who may write and who may only read.
make_files() {
    mkdir -p "$folder/share/registry"
    cp -r "$here/browser" "$folder/share/registry/browser"
    openssl req -x509 -newkey ec -pkeyopt ec_paramgen_curve:prime256v1 -nodes -days 2 -subj /CN=localhost \
        -addext subjectAltName=DNS:localhost -keyout "$folder/registry.key" -out "$CERTIFICATE" 2>"$folder/openssl.err"
    for login in "$LOGIN" "$READER"; do htpasswd -nbB "${login%:*}" "${login#*:}"; done >"$folder/registry.users"
    echo "${LOGIN%:*} true;" >"$folder/registry.writers"
}

# start_nginx WORKERS [SETTINGS]
start_nginx() {
    local spool='proxy_read_timeout 10s; '
    for name in client_body proxy fastcgi uwsgi scgi; do spool+="${name}_temp_path $folder/$name; "; done
    local log="log_format tried '\$request_method \$request_uri \$status \$upstream_addr'; access_log $folder/asked tried;"
    sed -e "s#^user .*#user $(id -un);#" -e "s#/run/nginx.pid#$folder/nginx.pid#" -e "s#^http {#http { $log $spool#" \
        -e "s#^worker_processes .*#worker_processes $1;#" \
        -e "/upstream registry_writer/,/}/ s#127.0.0.1:8081#127.0.0.1:$writer#" \
        -e "/upstream registry_followers/,/}/ s#127.0.0.1:8081;#127.0.0.1:${followers[0]}; server 127.0.0.1:${followers[1]};#" \
        -e "s#listen 443 #listen 127.0.0.1:$front #" -e "s#registry.example#localhost#" \
        -e "s#/etc/nginx/registry#$folder/registry#" -e "s#/usr/share#$folder/share#" \
        -e "s#10\.0\.0\.[0-9]*:8081#127.0.0.1:$writer#" "$here/${2:-nginx.conf}" >"$folder/nginx.conf"
    nginx -e "$folder/nginx.err" -c "$folder/nginx.conf"
}

# ---- what is asked

bare=(curl -sS --max-time 60 --cacert "$CERTIFICATE" -o "$folder/body")
mine=("${bare[@]}" --user "$LOGIN")
theirs=("${bare[@]}" --user "$READER")

# Prints the status and the body.
ask() {
    local status
    status=$("${mine[@]}" -w '%{http_code}' "$@") || true
    echo "$status $(tr -d '\0' <"$folder/body")"
}

get() { ask "$FRONT$1"; }
post() { ask --json "$2" "$FRONT$1"; }
put() { ask -X PUT --json "$2" "$FRONT$1"; }
delete() { ask -X DELETE "$FRONT$1"; }

# The same by somebody who may only read.
read_by() {
    local mine=("${theirs[@]}")
    "$@"
}

# same WHAT WANTED GOT
same() {
    [[ $3 == "$2" ]] || { echo "WRONG $1: wanted $2, got ${3:0:300}"; wrong=$((wrong + 1)); }
}

# begins WHAT WANTED GOT
begins() {
    [[ $3 == "$2"* ]] || { echo "WRONG $1: wanted $2.., got ${3:0:300}"; wrong=$((wrong + 1)); }
}

# Waits until both followers have what was written: until then a list, a level or a check may be an older one.
marks=0
catch_up() {
    local port tries
    marks=$((marks + 1))
    post "/subjects/mark$marks/versions" '{"schema":"\"int\""}' >/dev/null
    for port in "${followers[@]}"; do
        for tries in $(seq 600); do
            [ "$(curl -s "http://127.0.0.1:$port/subjects/mark$marks/versions")" != '[1]' ] || break
            sleep 0.1
        done
    done
}

# Prints the status of a HEAD, and then its fields.
head_of() {
    "${mine[@]}" -I -w '%{http_code}\n' "$FRONT$1"
    tr -d '\r' <"$folder/body"
}

# field_of NAME HEAD
field_of() { sed -n "s/^$1: //p" <<<"$2"; }

try_passwords() {
    local method client
    for method in GET HEAD POST PUT DELETE; do
        client=("${bare[@]}" -w '%{http_code}' -X $method)
        [ $method != HEAD ] || client+=(-I)
        same "$method without a password" 401 "$("${client[@]}" "$FRONT/subjects/s/versions")"
        same "$method with another password" 401 "$("${client[@]}" --user "${LOGIN%:*}:wrong" "$FRONT/subjects/s/versions")"
    done
    same "the page without a password" 401 "$("${bare[@]}" -w '%{http_code}' "$FRONT/browser/")"
    same "no TLS" 400 "$("${bare[@]}" -w '%{http_code}' "http://localhost:$front/mode")"
}

# Somebody who may only read reads, looks schemas up and checks them, and nothing else, however the path is written.
try_roles() {
    local before long='{"schema":"\"long\""}' path refusal='403 {"error_code":403,"message":"This user may only read"}'
    before=$(get /subjects) || true
    post /subjects/role/versions "$long" >/dev/null
    catch_up
    before=$(get '/subjects?deleted=true')
    same "a reader's list" "$before" "$(read_by get '/subjects?deleted=true')"
    begins "a reader's look-up" '200 {"subject":"role",' "$(read_by post /subjects/role "$long")"
    same "a reader's check" '200 {"is_compatible":true}' "$(read_by post /compatibility/subjects/role/versions/latest "$long")"
    begins "a reader's HEAD" 200 "$("${theirs[@]}" -I -w '%{http_code}' "$FRONT/subjects")"
    same "a reader's registration" "$refusal" "$(read_by post /subjects/read/versions "$long")"
    same "a reader's level" "$refusal" "$(read_by put /config/role '{"compatibility":"NONE"}')"
    same "a reader's mode" "$refusal" "$(read_by put /mode '{"mode":"READONLY"}')"
    same "a reader's delete" "$refusal" "$(read_by delete /subjects/role)"
    same "a reader's delete by HTTP/1.1" "$refusal" "$(read_by ask --http1.1 -X DELETE "$FRONT/subjects/role/versions/1")"
    for path in /compatibility/../subjects/read/versions /compatibility/%2e%2e/subjects/read/versions //subjects/read/versions \
        /subjects/read/versions/ '/subjects/read/versions?normalize=true' /subjects/role/../read/versions /browser/../subjects/read/versions \
        '/subjects/read/versions#' /./subjects/read/versions /subjects%2Fread/versions /%73ubjects/read/versions; do
        same "a reader's registration by $path" "$refusal" "$(read_by ask --path-as-is --json "$long" "$FRONT$path")"
    done
    same "what a reader changed" "$before" "$(get '/subjects?deleted=true')"
    same "somebody's command in a reader's name" 401 \
        "$("${bare[@]}" -w '%{http_code}' --user "${READER%:*}:wrong" -X DELETE "$FRONT/subjects/role")"
    same "the inner question from outside" 404 "$("${mine[@]}" -w '%{http_code}' "$FRONT/may_write")"
}

try_settings() {
    same "a writer's settings" '200 {"name":"localhost","write":true}' "$(get /browser/settings.json)"
    same "a reader's settings" '200 {"name":"localhost","write":false}' "$(read_by get /browser/settings.json)"
    same "settings without a password" 401 "$("${bare[@]}" -w '%{http_code}' "$FRONT/browser/settings.json")"
    same "settings with another password" 401 "$("${bare[@]}" -w '%{http_code}' --user "${LOGIN%:*}:wrong" "$FRONT/browser/settings.json")"
    same "their type" application/json "$(field_of content-type "$(head_of /browser/settings.json)")"
}

# What nginx answers itself at the API's paths is JSON, in which clients look for a message.
try_refusals() {
    local given path json=application/vnd.schemaregistry.v1+json
    for path in /subjects /subjects/s/versions /schemas/ids/1 /config; do
        given=$("${bare[@]}" -D - "$FRONT$path" | tr -d '\r')
        begins "the status without a password" 'HTTP/2 401' "$given"
        same "the type without a password" $json "$(field_of content-type "$given")"
        same "what asks for one" 'Basic realm="registry"' "$(field_of www-authenticate "$given")"
        same "the body without a password" '{"error_code":401,"message":"No such user with this password"}' "$(<"$folder/body")"
    done
    begins "the page without a password" '<html>' "$("${bare[@]}" "$FRONT/browser/" && cat "$folder/body")"
    given=$("${theirs[@]}" -D - -X DELETE "$FRONT/subjects/s" | tr -d '\r')
    same "the type for a reader" $json "$(field_of content-type "$given")"
    same "the length for a reader" "$(stat -c %s "$folder/body")" "$(field_of content-length "$given")"
}

# Long texts are compressed for those that ask for it, and are the same then.
try_compression() {
    local path given whole
    for path in /browser/page.js /schemas/ids/"$1"; do
        get "$path" >/dev/null
        whole=$(sha256sum <"$folder/body")
        given=$("${mine[@]}" -H 'Accept-Encoding: gzip' -D - "$FRONT$path" | tr -d '\r')
        same "how $path comes" gzip "$(field_of content-encoding "$given")"
        same "what $path is" "$whole" "$(gzip -dc <"$folder/body" | sha256sum)"
    done
    same "how a short answer comes" '' "$("${mine[@]}" -H 'Accept-Encoding: gzip' -D - "$FRONT/mode" | grep -i '^content-encoding' || true)"
}

try_requests() {
    local int='{"schema":"\"int\""}' long='{"schema":"\"long\""}' text='{"schema":"\"string\""}'
    local clash='version 2, BACKWARD, at /: TYPE_MISMATCH'
    same "registering" '200 {"id":1}' "$(post /subjects/s/versions "$int")"
    same "what was written a moment ago" '200 {"schema":"\"int\""}' "$(get /schemas/ids/1)"
    same "HTTP/2" 2 "$("${mine[@]}" -w '%{http_version}' "$FRONT/mode")"
    same "a body in chunks" '200 {"id":2}' \
        "$(ask --http1.1 -H 'Transfer-Encoding: chunked' --json "$long" "$FRONT/subjects/s/versions")"
    same "a body without a length by HTTP/2" '200 {"id":2}' \
        "$(ask -X POST -H 'Content-Type: application/json' -T - "$FRONT/subjects/s/versions" <<<"$long")"
    same "what may not follow" "409 {\"error_code\":409,\"message\":\"Incompatible with $clash\"}" "$(post /subjects/s/versions "$text")"
    catch_up
    same "a check" "200 {\"is_compatible\":false,\"messages\":[\"$clash\"]}" \
        "$(post '/compatibility/subjects/s/versions?verbose=true' "$text")"
    same "a refusal of 404" '404 {"error_code":40401,"message":"Subject not found"}' "$(get /subjects/none/versions)"
    same "looking a schema up" '200 {"subject":"s","version":1,"id":1,"schema":"\"int\""}' "$(post /subjects/s "$int")"
    same "setting a level" '200 {"compatibility":"FULL"}' "$(put /config/s '{"compatibility":"FULL"}')"
    same "a subject with a slash" '200 {"id":1}' "$(post /subjects/a%2Fb%20c/versions "$int")"
    same "its versions" '200 [1]' "$(get /subjects/a%2Fb%20c/versions)"
    same "deleting" '200 1' "$(delete /subjects/a%2Fb%20c/versions/1)"
    same "deleting it again" '404 {"error_code":40406,"message":"Version is soft-deleted"}' "$(delete /subjects/a%2Fb%20c/versions/1)"
    same "the types" '200 ["AVRO"]' "$(get /schemas/types)"
}

try_sizes() {
    local doc
    doc=$(head -c 900000 /dev/zero | tr '\0' x)
    echo "{\"schema\":\"{\\\"type\\\":\\\"string\\\",\\\"doc\\\":\\\"$doc\\\"}\"}" >"$folder/large"
    local answer
    answer=$(post /subjects/large/versions "@$folder/large")
    begins "a body of 900,000 bytes" '200 {"id":' "$answer"
    try_compression "$(tr -dc 0-9 <<<"${answer#200 }")"
    echo "{\"schema\":\"$doc$doc\"}" >"$folder/large"
    same "a body of 1,800,000 bytes" '413 {"error_code":413,"message":"Payload Too Large"}' \
        "$(post /subjects/large/versions "@$folder/large")"
    echo "{\"schema\":\"$doc$doc$doc\"}" >"$folder/large"
    same "a body that nginx refuses" '413 {"error_code":413,"message":"Payload Too Large"}' \
        "$(post /subjects/large/versions "@$folder/large")"
    same "a check that nginx refuses" '413 {"error_code":413,"message":"Payload Too Large"}' \
        "$(post /compatibility/subjects/large/versions "@$folder/large")"
    same "a look-up in chunks that nginx refuses" '413 {"error_code":413,"message":"Payload Too Large"}' \
        "$(ask --http1.1 -H 'Transfer-Encoding: chunked' --json "@$folder/large" "$FRONT/subjects/large")"
}

try_heads() {
    local path given length
    catch_up
    for path in /subjects /schemas/ids/1 /subjects/s/versions/latest /schemas/types /browser/; do
        get "$path" >/dev/null
        length=$(stat -c %s "$folder/body")
        given=$(head_of "$path")
        same "the status of HEAD $path" 200 "$(head -n 1 <<<"$given")"
        same "the length of HEAD $path" "$length" "$(field_of content-length "$given")"
    done
    same "two HEADs on one connection" '404 200' \
        "$("${mine[@]}" -I --http1.1 -o "$folder/body" -w '%{http_code}\n' "$FRONT/subjects/none/versions" "$FRONT/mode" | paste -sd ' ')"
}

try_browsers() {
    local given text='{"schema":"\"string\""}'
    given=$(head_of /browser/page.js)
    begins "the policy" "default-src 'self'; " "$(field_of content-security-policy "$given")"
    same "the script's type" application/javascript "$(field_of content-type "$given")"
    same "the way to the page" /browser/ "$(field_of location "$(head_of /)")"
    local refusal='403 {"error_code":403,"message":"A page of another site may only read"}' site origin
    same "a command from another site's page" "$refusal" \
        "$(ask -H 'Sec-Fetch-Site: cross-site' --json "$text" "$FRONT/subjects/foreign/versions")"
    for origin in https://evil.example null "http://localhost:$front" https://localhost "$FRONT.evil.example" "$FRONT $FRONT" "$FRONT/"; do
        same "a command of an older browser from $origin" "$refusal" \
            "$(ask -H "Origin: $origin" -H 'Content-Type: application/octet-stream' --data-binary "$text" "$FRONT/subjects/foreign/versions")"
        same "a delete of an older browser from $origin" "$refusal" "$(ask -H "Origin: $origin" -X DELETE "$FRONT/subjects/s")"
    done
    for site in same-site cross-site other; do
        same "a command from $site that names this site" "$refusal" \
            "$(ask -H "Sec-Fetch-Site: $site" -H "Origin: $FRONT" --json "$text" "$FRONT/subjects/foreign/versions")"
    done
    begins "the leave that a foreign page asks for" 403 "$(ask -X OPTIONS -H 'Origin: https://evil.example' "$FRONT/subjects/s")"
    begins "reading from a foreign page" 200 "$(ask -H 'Origin: https://evil.example' "$FRONT/mode")"
    begins "a command of an older browser from this site" '200 {"id":' \
        "$(ask -H "Origin: $FRONT" --json "$text" "$FRONT/subjects/own/versions")"
    begins "the same by HTTP/1.1" '200 {"id":' "$(ask --http1.1 -H "Origin: $FRONT" --json "$text" "$FRONT/subjects/own/versions")"
    begins "a command of a page that hides where it is" '200 {"id":' \
        "$(ask -H 'Sec-Fetch-Site: same-origin' -H 'Origin: null' --json "$text" "$FRONT/subjects/own/versions")"
    begins "what foreign pages wrote" '404 {"error_code":40401' "$(get /subjects/foreign/versions)"
    begins "a check from another site's page" 403 \
        "$(ask -H 'Sec-Fetch-Site: same-site' -X POST "$FRONT/compatibility/subjects/s/versions")"
    begins "a command from this site's page" '200 {"id":' \
        "$(ask -H 'Sec-Fetch-Site: same-origin' --json "$text" "$FRONT/subjects/own/versions")"
    begins "a link on another site's page" 200 "$(ask -H 'Sec-Fetch-Site: cross-site' "$FRONT/mode")"
}

# Twenty times a schema is read, and each time it is there.
read_often() {
    local round
    for round in $(seq 20); do
        same "reading $1" '200 {"schema":"\"int\""}' "$(get /schemas/ids/1)"
    done
}

try_failures() {
    local port text='{"schema":"\"bytes\""}' perhaps='which may have done what was asked'
    end "follow-${followers[0]}" "tail-${followers[0]}"
    read_often "without a follower"
    end "follow-${followers[1]}" "tail-${followers[1]}"
    read_often "without any follower"
    for port in "${followers[@]}"; do start_follower "$port"; done
    sleep 12 # nginx leaves a server alone for ten seconds
    read_often "with new followers"
    end writer
    read_often "without the writer"
    same "a command without the writer" "502 {\"error_code\":502,\"message\":\"No answer from the registry, $perhaps\"}" \
        "$(post /subjects/late/versions "$text")"
    same "what nobody has, without the writer" "502 {\"error_code\":502,\"message\":\"No answer from the registry, $perhaps\"}" \
        "$(get /schemas/ids/424242)"
    start_writer
    kill -STOP "${processes[writer]}"
    same "a command to a silent writer" "504 {\"error_code\":504,\"message\":\"No answer from the registry in time, $perhaps\"}" \
        "$(put /config/late '{"compatibility":"NONE"}')"
    kill -CONT "${processes[writer]}"
    begins "a command to the new writer" '200 {"id":' "$(post /subjects/late/versions "$text")"
}

# Each command went to the writer, once; and followers were asked.
try_ways() {
    local commands='^(PUT|DELETE|POST /subjects/[^/ ]+/versions) '
    sleep 0.5
    same "commands that went elsewhere" '' \
        "$(grep -E "$commands" "$folder/asked" | grep -vE ' (401|403|413|429) -$' | grep -v " 127.0.0.1:$writer\$" || true)"
    for port in "${followers[@]}"; do
        grep -q "^GET .* 200 127.0.0.1:$port\$" "$folder/asked" || same "reads at the follower $port" some none
    done
}

# A client beside attackers, with so many workers of nginx. No line says that connections ran out.
try_attackers() {
    stop_nginx
    start_nginx "$1"
    "$here/try-attackers.py" || wrong=$((wrong + 1))
    echo "nginx took $(ps -o cputimes= --ppid "$(<"$folder/nginx.pid")" | awk "{ all += \$1 } END { print all }") s of processor time"
    same "what nginx ran out of" '' "$(grep -m 1 'not enough' "$folder/nginx.err" || true)"
}

# The settings before joined processes have the same roles and refusals. Here one process is all three.
try_joined() {
    stop_nginx
    start_nginx auto nginx-joined.conf
    for part in passwords roles settings refusals sizes browsers; do "try_$part"; done
    stop_nginx
    start_nginx auto
}

# ---- other clients

try_python() {
    "${PYTHON:-/usr/bin/python3}" - <<'END' || wrong=$((wrong + 1))
import os, time
from confluent_kafka.schema_registry import Schema, SchemaRegistryClient
from confluent_kafka.schema_registry.error import SchemaRegistryError

def until(holds):
    """An answer may come from a follower that hasn't read the last lines yet."""
    for _ in range(300):
        if holds():
            return
        time.sleep(0.1)
    raise AssertionError("it doesn't hold")

place = {"url": os.environ["FRONT"], "basic.auth.user.info": os.environ["LOGIN"], "ssl.ca.location": os.environ["CERTIFICATE"]}
client, fresh = SchemaRegistryClient(place), SchemaRegistryClient(place)
one, two = [Schema('{"type":"record","name":"P","fields":[{"name":"a","type":"%s"}]}' % name, "AVRO") for name in ("int", "long")]
first = client.register_schema("python", one)
second = client.register_schema("python", two)
assert first != second and client.register_schema("python", one) == first
until(lambda: "python" in client.get_subjects())
until(lambda: client.get_versions("python") == [1, 2])
assert '"long"' in fresh.get_schema(second).schema_str
assert fresh.lookup_schema("python", one).version == 1
until(lambda: fresh.get_latest_version("python").version == 2)
assert fresh.get_version("python", 1).schema_id == first
fresh.set_compatibility("python", "FULL")
until(lambda: fresh.get_compatibility("python") == "FULL")
until(lambda: not fresh.test_compatibility("python", one))
try:
    fresh.register_schema("python", Schema('"string"', "AVRO"))
    raise AssertionError("registered")
except SchemaRegistryError as error:
    assert (error.http_status_code, error.error_code) == (409, 409), error
assert fresh.delete_version("python", 1) == 1
assert fresh.delete_subject("python") == [2]
print("Confluent's client for Python: ok")
END
}

try_go() {
    cat >"$folder/client.go" <<'END'
package main

import (
	"log"
	"os"
	"strings"
	"time"

	registry "github.com/lensesio/schema-registry"
)

func must(what string, err error, holds bool) {
	if err != nil || !holds {
		log.Fatal("WRONG ", what, ": ", err)
	}
}

func main() {
	client, err := registry.NewClient(strings.Replace(os.Getenv("FRONT"), "://", "://"+os.Getenv("LOGIN")+"@", 1))
	must("client", err, true)
	id, err := client.RegisterNewSchema("go", `{"type":"enum","name":"G","symbols":["A"]}`)
	must("registering, with a body of no length", err, id > 0)
	text, err := client.GetSchemaById(id)
	must("reading", err, strings.Contains(text, `"A"`))
	found, schema, err := client.IsRegistered("go", text)
	must("looking up", err, found && schema.Id == id && schema.Version == 1)
	found, _, err = client.IsRegistered("go", `"int"`)
	must("looking up another", err, !found)
	subjects, err := client.Subjects()
	// A list may come from a follower that hasn't read the last lines yet.
	for tries := 0; err == nil && tries < 300 && !strings.Contains(strings.Join(subjects, " "), "go"); tries++ {
		time.Sleep(100 * time.Millisecond)
		subjects, err = client.Subjects()
	}
	must("subjects", err, strings.Contains(strings.Join(subjects, " "), "go"))
	versions, err := client.Versions("go")
	must("versions", err, len(versions) == 1 && versions[0] == 1)
	latest, err := client.GetLatestSchema("go")
	must("latest", err, latest.Version == 1 && latest.Id == id)
	log.Print("the client for Go: ok")
}
END
    (cd "$folder" && SSL_CERT_FILE=$CERTIFICATE GO111MODULE=off GOPATH=/usr/share/gocode GOCACHE=$folder/go go run client.go) ||
        wrong=$((wrong + 1))
}

[ -z "${FIRST_LINES:-}" ] || { cat "$FIRST_LINES" && echo; } >"$folder/log"
start_writer
for port in "${followers[@]}"; do start_follower "$port"; done
make_files
start_nginx auto
if [ $# -gt 0 ]; then
    "$@"
    exit
fi
for part in passwords requests roles settings refusals sizes heads browsers; do
    "try_$part"
    echo "$part: done"
done
for workers in auto 1; do
    echo "attackers, workers: $workers"
    try_attackers "$workers"
done
try_joined
echo "joined: done"
try_python
try_go
try_failures
try_ways
[ "$wrong" = 0 ] && echo "all as it should be" || { echo "$wrong wrong"; exit 1; }
