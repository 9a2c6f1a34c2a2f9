#!/usr/bin/env bash
# Installs server, nginx and login by the lines of docs/OPERATING.md under a systemd of its own
# (tests/own-systemd.sh), and goes through login and consent in Chromium, with a client of requests-oauthlib. Prints a
# line for each check, ends with 0 where all is as wanted, and leaves nothing behind but a picture of the consent page,
# if a word names a file for it. It takes half a minute, five where packages are slow. Needs root, and Debian's packages
# nginx, curl, openssl, python3, chromium, chromium-driver and python3-requests-oauthlib.
picture=${1:+$(realpath -m "$1")}
. "$(dirname "$0")/lib.sh"
if [ "$1" != inside ]; then
    for tool in chromium chromedriver; do needs $tool 'chromium chromium-driver'; done
    make_room
    tests/own-systemd.sh try-login.sh "$room"
    status=$?
    [ -z "$picture" ] || cp "$room/consent.png" "$picture"
    exit $status
fi
install_by_page

# A user whom the registry does not list
python3 - "$(echo carols-password | python3 /usr/local/lib/oauthd/login.py password)" <<'PYTHON'
import json, sys
path = "/etc/oauthd-login/login.json"
with open(path, encoding="utf-8") as file:
    config = json.load(file)
config["users"]["carol"] = {"password": sys.argv[1]}
with open(path, "w", encoding="utf-8") as file:
    json.dump(config, file)
PYTHON
systemctl restart oauthd-login

# The client: https://app.example, by the same nginx
openssl req -x509 -newkey ec -pkeyopt ec_paramgen_curve:P-256 -nodes -days 30 -subj /CN=app.example \
    -keyout /run/app.key -out /run/app.pem 2>/dev/null
cat >/etc/nginx/conf.d/app.conf <<'NGINX'
server {
    listen 443 ssl;
    server_name app.example;
    ssl_certificate /run/app.pem;
    ssl_certificate_key /run/app.key;
    location / { proxy_pass http://127.0.0.1:9100; }
}
NGINX
echo '127.0.0.1 app.example' >>/etc/hosts
systemctl reload nginx
/usr/bin/python3 tests/login/client.py 9100 https://auth.example "$(registered '["clients"][0]["secret"]')" &
curl -s -o /dev/null --retry 60 --retry-delay 1 --retry-connrefused http://127.0.0.1:9100/ || echo "the client does not answer"
# Chromium would give itself a higher priority than it was started with.
setpriv --bounding-set -sys_nice --inh-caps -sys_nice python3 tests/login/browser.py /given/consent.png "$(registered '["owners"][0]')" "$(password_of ann)" \
    "$(registered '["gateway"]')" carols-password
