#!/bin/bash
# Tries set-up.sh with hosts, users and passwords that are good or not, in a copy of /etc/nginx of its own, with nginx's real test of its
# settings, and with a systemctl and an apt-get in whose place a line is written: docs/DEPLOY.md. What is there stays as it was where something
# is refused. It runs as root, and wants Debian's packages nginx, apache2-utils and openssl. The status is 1 where something isn't as it should be.
set -euo pipefail
[ "${1:-}" = inside ] || exec unshare --mount "$(readlink -f "${BASH_SOURCE[0]}")" inside
here=$(dirname "$(readlink -f "${BASH_SOURCE[0]}")")
folder=$(mktemp -d)
trap 'rm -rf "$folder"' EXIT
wrong=0
mkdir "$folder/etc" "$folder/bin"
mount --bind "$folder/etc" /etc/nginx
cp /usr/share/nginx/../../lib/nginx/mime.types "$folder/etc/" 2>/dev/null || echo 'types { text/html html; }' >"$folder/etc/mime.types"
for name in systemctl apt-get; do
    printf '#!/bin/sh\necho "%s $*" >>%s/done\n' $name "$folder" >"$folder/bin/$name"
    chmod +x "$folder/bin/$name"
done
export PATH=$folder/bin:$PATH

# same WHAT WANTED GOT
same() {
    [[ $3 == "$2" ]] && echo "ok $1" || { echo "WRONG $1: wanted $2, got ${3:0:300}"; wrong=$((wrong + 1)); }
}

# set_up PASSWORD WORD ..
set_up() {
    local password=$1
    shift
    printf %s "$password" | "$here/set-up.sh" "$@" >"$folder/out" 2>"$folder/said"
}

kept() { (cd /etc/nginx && find . -type f | sort | xargs sha256sum); }

# refused WHAT PASSWORD WORD ..
refused() {
    local what=$1 before status=0
    shift
    before=$(kept)
    rm -f "$folder/done"
    set_up "$@" || status=$?
    same "the status with $what" 2 "$status"
    same "what is said of $what, in one line" 1 "$(grep -c '^set-up.sh: ' "$folder/said")"
    same "the files after $what" "$before" "$(kept)"
    same "what was started with $what" '' "$(cat "$folder/done" 2>/dev/null || true)"
}

checks() { htpasswd -vb /etc/nginx/registry.users "$1" "$2" >"$folder/checked" 2>&1 && echo right || echo wrong; }
names() { openssl x509 -in /etc/nginx/registry.crt -noout -ext subjectAltName | sed -n '2s/^ *//p'; }

try_refused() {
    local host
    for host in https://registry.here registry.here/ a/b '' ' ' 'a b' 'a;b' 'a"b' '&' '\1' -a a- .a a..b 256.1.1.1 1.2.3 1.2.3.4.5 ::1 a_b \
        "$(printf 'a%.0s' {1..65})"; do
        refused "the host '$host'" secret "$host" someone
    done
    for host in '' 'a b' a:b 'a;' '#a' '~a' '-a' include default '"' "a'b"; do
        refused "the user '$host'" secret registry.here "$host"
    done
    refused "no password" '' registry.here someone
    refused "an empty password" $'\n' registry.here someone
    refused "a password of 73 bytes" "$(printf 'a%.0s' {1..73})" registry.here someone
    refused "another role" secret registry.here someone all
    refused "no user" secret registry.here
    refused "four words" secret registry.here someone write more
}

try_done() {
    echo "# what was there" >/etc/nginx/nginx.conf
    set_up secret registry.here someone
    same "what was started" 'apt-get update
apt-get install -y nginx apache2-utils openssl
systemctl enable --now registrylog
systemctl enable nginx
systemctl restart nginx' "$(cat "$folder/done")"
    same "the certificate's name" DNS:registry.here "$(names)"
    same "the host in nginx's settings" 'server_name registry.here;' "$(grep -o 'server_name .*' /etc/nginx/nginx.conf)"
    same "the name in the page's settings" 1 "$(grep -c '"name":"registry.here"' /etc/nginx/nginx.conf)"
    same "the settings that were there" '# what was there' "$(cat /etc/nginx/nginx.conf.before)"
    same "whether nginx takes them" 0 "$(nginx -t 2>"$folder/tested" && echo 0)"
    same "whose the passwords are" 'root www-data 640' "$(stat -c '%U %G %a' /etc/nginx/registry.users)"
    same "who reads the settings" 644 "$(stat -c %a /etc/nginx/nginx.conf)"
    same "the password" right "$(checks someone secret)"
    same "who may write" 'someone true;' "$(cat /etc/nginx/registry.writers)"
    same "what is left over" '' "$(find /etc/nginx -name 'nginx.conf.??????' ! -name '*.before')"
}

try_again() {
    local before
    before=$(sha256sum </etc/nginx/registry.crt)
    set_up 'an other "word' registry.here reader.one read
    same "a reader's password" right "$(checks reader.one 'an other "word')"
    same "the first one's then" right "$(checks someone secret)"
    same "who may write then" 'someone true;' "$(cat /etc/nginx/registry.writers)"
    same "the certificate then" "$before" "$(sha256sum </etc/nginx/registry.crt)"
    same "the settings before the first time" '# what was there' "$(cat /etc/nginx/nginx.conf.before)"
    set_up new registry.here someone read
    same "a new password" right "$(checks someone new)"
    same "who may write once nobody may" '' "$(cat /etc/nginx/registry.writers)"
    set_up new registry.here someone
    set_up new registry.here someone
    same "who may write once given leave twice" 'someone true;' "$(cat /etc/nginx/registry.writers)"
}

# An address gets a certificate of its own kind. Settings that nginx doesn't take change nothing.
try_rest() {
    local before status=0
    rm -f /etc/nginx/registry.crt
    set_up secret 10.0.0.1 someone
    same "the certificate's address" 'IP Address:10.0.0.1' "$(names)"
    same "the host in the settings before" 'server_name registry.here;' "$(grep -o 'server_name .*' /etc/nginx/nginx.conf.before)"
    same "the settings before those" '# what was there' "$(cat /etc/nginx/nginx.conf.before.~1~)"
    before=$(sha256sum </etc/nginx/nginx.conf)
    echo 'no types' >/etc/nginx/mime.types
    set_up secret other.here someone || status=$?
    same "the status where nginx doesn't take them" 2 "$status"
    same "the settings where nginx doesn't take them" "$before" "$(sha256sum </etc/nginx/nginx.conf)"
    same "what is left over then" '' "$(find /etc/nginx -name 'nginx.conf.??????' ! -name '*.before')"
}

for part in refused done again rest; do "try_$part"; done
[ "$wrong" = 0 ] && echo "all as it should be" || { echo "$wrong wrong"; exit 1; }
