#!/bin/bash
# Starts the registry of the package on this machine, with nginx in front: TLS, a password and the page. It runs as root, and may be
# run again: docs/DEPLOY.md says what each step is for.
#
#   set-up.sh HOST USER [write|read]
#
# HOST is the name or the IPv4 address by which clients reach this machine, and USER who may ask, and write unless the last word is read. The
# password is read from standard input. nginx's settings are put in place of those that were there only once nginx takes them; the old ones
# stay beside them as nginx.conf.before, and still older ones as nginx.conf.before.~1~ and so on.
set -euo pipefail
fail() { echo "set-up.sh: $*" >&2; exit 2; }

case $# in 2 | 3) ;; *) fail "usage: set-up.sh HOST USER [write|read]" ;; esac
host=$1 user=$2 role=${3:-write}
number='(25[0-5]|2[0-4][0-9]|1?[0-9]?[0-9])'
part='[A-Za-z0-9]([A-Za-z0-9-]*[A-Za-z0-9])?'
if [[ $host =~ ^$number(\.$number){3}$ ]]; then
    named=IP:$host
elif [[ $host =~ ^$part(\.$part)*$ && ! $host =~ (^|\.)[0-9]+$ && ${#host} -le 64 ]]; then
    named=DNS:$host
else
    fail "HOST is a name of up to 64 letters, digits, points and hyphens, or an IPv4 address, and no URL: $host"
fi
# What nginx's settings take as it stands, and no word of theirs.
[[ $user =~ ^[A-Za-z0-9][A-Za-z0-9._@-]*$ && ! $user =~ ^(default|hostnames|include|volatile)$ ]] ||
    fail "USER is letters, digits and ._@-, and none of default, hostnames, include and volatile: $user"
[[ $role =~ ^(write|read)$ ]] || fail "the role is write or read: $role"
IFS= read -r password || [[ $password ]] || fail "no password came from standard input"
# bcrypt takes 72 bytes, and leaves out what is behind them.
(LC_ALL=C; [[ ${#password} -ge 1 && ${#password} -le 72 ]]) || fail "the password has to have 1 to 72 bytes"
cd "$(dirname "$(readlink -f "${BASH_SOURCE[0]}")")"

apt-get update
apt-get install -y nginx apache2-utils openssl

# The registry
systemctl enable --now registrylog

# A certificate that signs itself, where there is none yet
[ -f /etc/nginx/registry.crt ] || openssl req -x509 -newkey ec -pkeyopt ec_paramgen_curve:prime256v1 -nodes -days 365 -subj "/CN=$host" \
    -addext "subjectAltName=$named" -keyout /etc/nginx/registry.key -out /etc/nginx/registry.crt

# The password, and what it is good for
touch /etc/nginx/registry.users /etc/nginx/registry.writers
chown root:www-data /etc/nginx/registry.users
chmod 640 /etc/nginx/registry.users
htpasswd -iB /etc/nginx/registry.users "$user" <<<"$password"
sed -i "/^${user//./\\.} /Id" /etc/nginx/registry.writers
[ "$role" = read ] || echo "$user true;" >>/etc/nginx/registry.writers

# nginx, which finds the page where the package has it
settings=$(mktemp /etc/nginx/nginx.conf.XXXXXX)
trap 'rm -f "$settings"' EXIT
sed "s/registry\.example/$host/" nginx.conf >"$settings"
nginx -t -c "$settings" || fail "nginx doesn't take these settings, and /etc/nginx/nginx.conf is as it was"
chmod 644 "$settings"
if [ -f /etc/nginx/nginx.conf ] && ! cmp -s "$settings" /etc/nginx/nginx.conf; then
    cp -p --backup=numbered /etc/nginx/nginx.conf /etc/nginx/nginx.conf.before
fi
mv "$settings" /etc/nginx/nginx.conf
systemctl enable nginx
systemctl restart nginx
