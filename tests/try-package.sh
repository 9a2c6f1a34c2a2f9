#!/usr/bin/env bash
# Makes the Debian package (deploy/make-deb) and installs it under a systemd of its own (tests/own-systemd.sh): a token, then
# the package installed again, removed, purged and installed once more, with the same registry, keys and state. Prints a line
# for each check, ends with 0 where all is as wanted, and leaves nothing behind. It takes half a minute. Needs root, and
# Debian's packages nginx, curl, openssl, python3 and dpkg.
. "$(dirname "$0")/lib.sh"
if [ "$1" != inside ]; then
    needs dpkg-deb dpkg
    make_room
    deploy/make-deb "$program" "$room" || exit 1
    tests/own-systemd.sh try-package.sh "$room"
    exit
fi
check() {
    tried=$((tried + 1))
    case $3 in
        $2) echo "ok $1: $3" ;;
        *) differs "$1: $3, wanted: $2" ;;
    esac
}
package=$(echo /given/*.deb)
installed() { dpkg -i "$package" >/run/dpkg 2>&1 || cat /run/dpkg; }
installed

# What the package does not do: TLS, nginx, and the start, by the lines of the page with the package's paths
lines_of 'From an empty machine to the first token' | sed 's#/usr/local/#/usr/#g' >/run/page
sed -i '\#^install -m 644 deploy/nginx#s#deploy/nginx/#/usr/share/doc/oauthd/examples/#; s#^python3 deploy/#python3 /usr/lib/oauthd/#' /run/page
bash -ev <(sed -n '/^openssl req/,$p' /run/page) >/run/page.out 2>&1 || { differs 'a line of the page failed'; cat /run/page.out; }
web() { curl -s --cacert /etc/ssl/certs/auth.example.pem --max-time 20 "$@"; }
opened() { awaits 20 test -e /run/oauthd/open || differs 'never opened'; }
bot=bot:$(registered '["clients"][1]["secret"]')
token=$(web -u "$bot" -d grant_type=client_credentials https://auth.example/token | python3 -c 'import json, sys; print(json.load(sys.stdin)["access_token"])')
active() { web -u "$bot" -d "token=$token" https://auth.example/introspect; }
kept() { (cd / && sha256sum etc/oauthd/registry.json etc/oauthd/operator etc/oauthd-login/login.json root/oauthd-passwords) | sha256sum; }
first=$(kept)
check first-token '{"active":true*' "$(active)"
check keys-of-the-example 0 "$(cat /etc/oauthd/* /etc/oauthd-login/* 2>/dev/null | grep -cE 'op-key|ann-key|gate-key|s3cret|b0t')"
check who-reads-what '640 root oauthd 640 root oauthd-login 600 oauthd oauthd' "$(stat -c '%a %U %G' /etc/oauthd/registry.json /etc/oauthd-login/login.json /var/lib/oauthd/state | xargs)"
check how-it-was-built "version: $(dpkg-query -W -f '${Version}' oauthd) build: not known* program: sha256 $(sha256sum </usr/bin/oauthd | cut -d ' ' -f 1)" \
    "$(xargs </usr/share/doc/oauthd/BUILD)"
check pages '.TH OAUTHD-START 1 * .TH OAUTHD 1 *' "$(zcat /usr/share/man/man1/oauthd-start.1.gz /usr/share/man/man1/oauthd.1.gz | grep ^.TH | xargs)"

process=$(systemctl show -p MainPID --value oauthd)
installed
opened
check installed-again-it-runs-anew "differs" "$([ "$(systemctl show -p MainPID --value oauthd)" = "$process" ] && echo same || echo differs)"
check installed-again "{\"active\":true*" "$(active)"
check installed-again-keeps "$first" "$(kept)"

dpkg -r oauthd >/run/dpkg 2>&1 || cat /run/dpkg
check removed 'inactive 503' "$(systemctl is-active oauthd) $(web -o /dev/null -w '%{http_code}' -u "$bot" -d "token=$token" https://auth.example/introspect)"
check removed-keeps "$first" "$(kept)"
dpkg -P oauthd >/run/dpkg 2>&1 || cat /run/dpkg
check purged-keeps "$first" "$(kept)"
installed
systemctl start oauthd oauthd-login
opened
check installed-once-more '{"active":true*' "$(active)"
check installed-once-more-keeps "$first" "$(kept)"
end_with checks
