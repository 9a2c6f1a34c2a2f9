#!/usr/bin/env bash
# Two servers as partitions of one issuer, by client, behind nginx, as docs/MACHINES.md has them: each request goes to its client's server,
# a resource server finds each token at one of them, and a client is moved from the one to the other. Prints a line for each check, ends
# with 0 where all is as wanted. Takes some seconds; needs Debian's packages nginx, curl and python3.
. "$(dirname "$0")/lib.sh"
needs nginx
needs curl
needs python3
make_room

check() {
    tried=$((tried + 1))
    case $3 in
        $2) echo "ok $1: $3" ;;
        *) differs "$1: $3, wanted: $2" ;;
    esac
}
free_port() { python3 -c 'import socket; s = socket.socket(); s.bind(("127.0.0.1", 0)); print(s.getsockname()[1])'; }

# registry NAME IDS: that of a partition, with these clients; behind a ! it has a secret that nobody has
registry() {
    python3 - "$room/$1.json" "$2" <<'PYTHON'
import json, sys
path, ids = sys.argv[1:]
with open("examples/registry.json") as given:
    registry = json.load(given)
registry["clients"].append({"id": "shelf", "secret": "sh3lf", "redirects": [], "scope": "read", "grants": ["client_credentials"]})
by_name = {it["id"]: it for it in registry["clients"]}
registry["clients"] = [dict(by_name[it.strip("!")]) for it in ids.split()]
for it, name in zip(registry["clients"], ids.split()):
    if name.endswith("!"):
        it["secret"] = "nobody-has-this"
with open(path, "w") as own:
    json.dump(registry, own)
PYTHON
}

# partition NAME: starts its server; it listens at $at
partition() {
    "$program" state --new "$room/$1.state" || exit 1
    start 127.0.0.1:0 "$room/$1.json" --state "$room/$1.state"
}
registry a 'app shelf'
registry b 'bot shelf'
partition a
a=$at
partition b
b=$at b_server=$server
port=$(free_port)

# front APP BOT: nginx, with the partition of each client
front() {
    cat >"$room/nginx.conf" <<NGINX
daemon off;
pid $room/nginx.pid;
error_log $room/nginx.log warn;
events {}
http {
    access_log off;
    proxy_http_version 1.1;
    proxy_set_header Connection "";
    client_body_temp_path $room/body; proxy_temp_path $room/proxy; fastcgi_temp_path $room/fast; uwsgi_temp_path $room/uwsgi; scgi_temp_path $room/scgi;
    upstream oauthd_a { server $a; }
    upstream oauthd_b { server $b; }
    map \$http_authorization \$partition {
        default                 oauthd_a;
        "Basic $(printf app:s3cret | base64 -w0)" $1;
        "Basic $(printf bot:b0t | base64 -w0)"    $2;
    }
    map \$arg_client_id \$asked { default oauthd_a; app $1; bot $2; }
    server {
        listen 127.0.0.1:$port;
        location = /token { proxy_pass http://\$partition; }
        location = /revoke { proxy_pass http://\$partition; }
        location = /authorize { proxy_pass http://\$asked; }
    }
}
NGINX
}
front oauthd_a oauthd_b
nginx -c "$room/nginx.conf" 2>"$room/nginx.err" &
awaits 10 takes_connections "$port" || { echo "no nginx: $(cat "$room/nginx.err" "$room/nginx.log")"; exit 1; }
web=http://127.0.0.1:$port

# in_reply MEMBER: that of the JSON of standard input
in_reply() { python3 -c "import json, sys; print(json.load(sys.stdin).get('$1'))"; }
# active_at ADDRESS TOKEN: whether the server there says so to the resource server
active_at() { curl -sS -u shelf:sh3lf -d "token=$2" "http://$1/introspect" | in_reply active; }
bots() { curl -sS -u bot:b0t -d grant_type=client_credentials $web/token | in_reply access_token; }

token=$(bots)
check bot-at-b 'False True' "$(active_at "$a" "$token") $(active_at "$b" "$token")"
request="client_id=app&response_type=code&redirect_uri=https://app.example/cb&scope=read"
request="$request&code_challenge=E9Melhoa2OwvFrEMTJguCHaoeK1t8URWbuGJSstw-cM&code_challenge_method=S256"
for server in "$a" "$b"; do
    curl -sS -o /dev/null -H 'X-Owner-Key: ann-key' -d 'client_id=app&scope=read' "http://$server/consent"
done
code=$(curl -sS -o /dev/null -w '%header{location}' -H 'X-Owner-Key: ann-key' "$web/authorize?$request" | sed 's/.*code=\([^&]*\).*/\1/')
told=$(curl -sS -u app:s3cret -d "grant_type=authorization_code&code=$code&redirect_uri=https://app.example/cb" \
    -d code_verifier=dBjftJeZ4CVP-mB92K27uhbUJU1p1r_wW1gFWFOEjXk $web/token | in_reply access_token)
check app-at-a 'True False' "$(active_at "$a" "$told") $(active_at "$b" "$told")"
check revoked-at-its-own '200 False' "$(curl -sS -o /dev/null -w '%{http_code}' -u bot:b0t -d "token=$token" $web/revoke) $(active_at "$b" "$token")"

# A client is moved: its tokens are revoked, the other partition has it, the map changes, and its old place has a secret of nobody
token=$(bots)
curl -sS -u bot:b0t -d "token=$token" $web/revoke
registry a 'app shelf bot'
registry b 'bot! shelf'
for server in "$a" "$b"; do
    check reloaded 200 "$(curl -sS -o /dev/null -w '%{http_code}' -X POST -H 'X-Operator-Key: op-key' "http://$server/reload")"
done
front oauthd_a oauthd_a
nginx -c "$room/nginx.conf" -s reload 2>>"$room/nginx.err"
sleep 1
token=$(bots)
check moved 'True False' "$(active_at "$a" "$token") $(active_at "$b" "$token")"
check not-at-its-old-place 401 "$(curl -sS -o /dev/null -w '%{http_code}' -u bot:b0t -d grant_type=client_credentials "http://$b/token")"
kill "$b_server"
end_with checks
