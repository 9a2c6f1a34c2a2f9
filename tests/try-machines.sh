#!/usr/bin/env bash
# Two machines, as docs/MACHINES.md has them, on addresses of loopback: three members of etcd with TLS and a user of its own for the
# servers (deploy/machines/etcd), nginx that speaks TLS to them (deploy/nginx/etcd.conf) and has two upstreams (machines.conf), and two
# servers by the words of deploy/machines/oauthd.service.conf, of which one waits. The one that leads is killed. Prints a line for each check,
# ends with 0 where all is as wanted; takes a minute. Needs root, and Debian's packages etcd-server, etcd-client, nginx, curl, openssl.
. "$(dirname "$0")/lib.sh"
needs etcd etcd-server
needs etcdctl etcd-client
for tool in nginx curl openssl; do needs $tool; done
[ "$(id -u)" = 0 ] || { echo 'it wants root'; exit 2; }
make_room
chmod 755 "$room"
mkdir "$room/etcd"

check() {
    tried=$((tried + 1))
    case $3 in
        $2) echo "ok $1: $3" ;;
        *) differs "$1: $3, wanted: $2" ;;
    esac
}
# moved FILE: a file of deploy/, with these addresses and folders in the place of its own
moved() { sed "s#10\.0\.0\.\([0-9]\)#127.7.0.\1#g; s#/etc/etcd/#$room/etcd/#g; s#/var/log/nginx/#$room/#g" "$1"; }

# Certificates, of one authority
openssl req -x509 -newkey ec -pkeyopt ec_paramgen_curve:P-256 -nodes -days 30 -subj /CN=authority \
    -keyout "$room/authority.key" -out "$room/etcd/authority.pem" 2>/dev/null
certificate() { # FILE ADDRESS
    openssl req -newkey ec -pkeyopt ec_paramgen_curve:P-256 -nodes -subj "/O=oauthd" -keyout "$room/etcd/$1.key" -out "$room/$1.csr" 2>/dev/null
    openssl x509 -req -in "$room/$1.csr" -CA "$room/etcd/authority.pem" -CAkey "$room/authority.key" -days 30 -out "$room/etcd/$1.pem" \
        -extfile <(echo "subjectAltName=IP:$2,IP:127.0.0.1,DNS:${1/member/etcd}"; echo extendedKeyUsage=serverAuth,clientAuth) 2>/dev/null
}
certificate oauthd 127.0.0.1
for number in 1 2 3; do
    certificate "member$number" 127.7.0.$number
    (
        set -a
        eval "$(moved deploy/machines/etcd | grep -v '^#' | sed "s#member\.#member$number.#; /CLUSTER=/!s#127\.7\.0\.1#127.7.0.$number#; s#^ETCD_NAME=.*#ETCD_NAME=m$number#")"
        exec etcd --data-dir "$room/data$number" --logger zap >"$room/etcd$number.log" 2>&1
    ) &
    members[number]=$!
done
# The page's own commands, with passwords
commands=$(sed -n '/^### Install/,/^### Bad/s/^ \{8\}//p' docs/MACHINES.md | sed "s#10\.0\.0\.#127.7.0.#g; s#/etc/etcd/member#$room/etcd/member1#g; s#/etc/etcd/#$room/etcd/#g
    s#user add root#&:r00t#; s#user add oauthd#&:0authd#")
eval "$(echo "$commands" | grep '^export ')"
awaits 30 etcdctl endpoint health >/dev/null 2>&1 || { echo "no cluster: $(tail -n 3 "$room"/etcd?.log)"; exit 1; }
bash -ec "$(echo "$commands" | grep -v '^export ')" >"$room/users" 2>&1 || { echo "a command of the page: $(tail -n 3 "$room/users")"; exit 1; }
echo 0authd >"$room/password"

cat >"$room/nginx.conf" <<NGINX
daemon off;
pid $room/nginx.pid;
error_log $room/nginx.log warn;
events {}
http {
    access_log off;
    client_body_temp_path $room/body; proxy_temp_path $room/proxy; fastcgi_temp_path $room/fast; uwsgi_temp_path $room/uwsgi; scgi_temp_path $room/scgi;
    $(moved deploy/nginx/etcd.conf)
    $(moved deploy/nginx/machines.conf)
    server {
        listen 127.7.0.1:8443;
        proxy_http_version 1.1;
        proxy_set_header Connection "";
        $(grep -m1 'error_page 502 504' deploy/nginx/oauthd.conf; sed -n '/proxy_read_timeout/p; /location @away/,/^    }/p' deploy/nginx/oauthd.conf)
        location / { proxy_pass http://oauthd; }
    }
}
NGINX
nginx -c "$room/nginx.conf" 2>"$room/nginx.err" &
awaits 10 takes_connections 2381 || { echo "no nginx: $(cat "$room/nginx.err" "$room/nginx.log")"; exit 1; }

words=$(moved deploy/machines/oauthd.service.conf | sed -n '/^ExecStart=./,/[^\\]$/p' | tr -d '\\\n' | sed "s#ExecStart=/usr/local/bin/oauthd start [^ ]*##
    s#/etc/oauthd/registry.json#examples/registry.json#; s#/etc/oauthd/etcd-password#$room/password#")
list=$(echo "$words" | sed 's# *examples/registry.json *##; s# --lease.*##')
check made '' "$("$program" state --new $list 2>&1)"
check made-once '*State Exists*' "$(sleep 8; "$program" state --new $list 2>&1)"
check of-this-user-alone '*State Denied 7*' "$("$program" state --etcd http://127.0.0.1:2381 --prefix other --etcd-user oauthd --etcd-password-file "$room/password" 2>&1)"
echo wrong >"$room/wrong"
check another-password '*State Denied 3*' "$("$program" state ${list/"$room/password"/"$room/wrong"} 2>&1)"

# machine NUMBER: its server, as it is started again whenever it has ended
machine() {
    (
        trap 'kill $running 2>/dev/null; exit' TERM
        while :; do
            "$program" start 127.7.0.$1:8080 $words >>"$room/out$1" 2>>"$room/err$1" &
            running=$!
            echo $running >"$room/pid$1"
            wait $running
            sleep 0.2
        done
    ) &
}
leads() { (exec 3<>"/dev/tcp/127.7.0.$1/8080") 2>/dev/null; }
one_leads() { leads 1 || leads 2; }
machine 1
machine 2
awaits 20 one_leads || differs "nobody leads: $(cat "$room"/err?)"
led=1
leads 1 || led=2
other=$((3 - led))
check the-other-one-waits 'waits' "$(leads $other && echo leads || echo waits)"
web=http://127.7.0.1:8443
token() { curl -sS --max-time 10 -u bot:b0t -d grant_type=client_credentials $web/token | sed -E 's/.*"access_token":"([^"]*)".*/\1/'; }
is_active() { curl -sS --max-time 10 -u app:s3cret -d "token=$1" $web/introspect | grep -o '"active":[a-z]*'; }
first=$(token)
check granted '"active":true' "$(is_active "$first")"
revoked=$(token)
curl -sS -u bot:b0t -d "token=$revoked" $web/revoke
kill -KILL "$(cat "$room/pid$led")"
began=$(date +%s%N)
awaits 20 one_leads || differs "nobody takes over: $(cat "$room"/err?)"
leads $led || led=$other         # the one that was killed waits again, and either may lead
echo "   taken over in $((($(date +%s%N) - began) / 1000000)) ms"
check there-still '"active":true' "$(is_active "$first")"
check revoked-still '"active":false' "$(is_active "$revoked")"
check goes-on '"active":true' "$(is_active "$(token)")"
check reloaded 200 "$(curl -sS -o /dev/null -w '%{http_code}' -X POST -H 'X-Operator-Key: op-key' http://127.7.0.$led:8080/reload)"
check there-behind-a-reload '"active":true' "$(is_active "$first")"
check granted-behind-a-reload '"active":true' "$(is_active "$(token)")"
kill -STOP "${members[1]}" "${members[2]}"
sleep 1
check no-quorum '503 application/json {"error":"temporarily_unavailable"}' \
    "$(curl -sS --max-time 12 -w '%{http_code} %{content_type} ' -o "$room/reply" -u bot:b0t -d grant_type=client_credentials $web/token; cat "$room/reply")"
kill -CONT "${members[1]}" "${members[2]}"
grants() { curl -sS --max-time 12 -u bot:b0t -d grant_type=client_credentials $web/token | grep -q access_token; }
began=$(date +%s%N)
awaits 30 grants || differs "nothing is granted: $(cat "$room"/err?)"
echo "   granted again after $((($(date +%s%N) - began) / 1000000)) ms"
check there-behind-no-quorum '"active":true' "$(is_active "$first")"
"$program" start 127.7.0.3:8080 $words --standby-answers >"$room/out3" 2>"$room/err3" &
awaits 10 leads 3 || differs "who waits does not answer: $(cat "$room/err3")"
check who-waits-answers 503 "$(curl -sS -o /dev/null -w '%{http_code}' -u bot:b0t -d grant_type=client_credentials http://127.7.0.3:8080/token)"
check room '' "$(deploy/machines/etcd-room http://127.0.0.1:2381 http://127.0.0.1:2382 http://127.0.0.1:2383 2>&1)"
check listed '*"kind":"file"*' "$("$program" state $list 2>&1 | tail -n 1)"
end_with checks
