# Servers that are loaded side by side: read by the scripts beside it, which set $program first and stand in the repository's
# folder. It makes the folder $room, and ends what was started with the script.
room=$(mktemp -d) || exit 2
chmod 755 "$room"
started=()
trap '[ ${#started[@]} = 0 ] || kill "${started[@]}" 2>/dev/null; wait; rm -rf "$room"' EXIT

# So long is a run. The store has room for 65,536 unexpired tokens, so faster or longer runs would fill it.
seconds=0.3
faults=0

# start NAME LIFE [WORD..]: starts a server whose access tokens live so many seconds, with further words, and with room for
# $records unexpired ones, where that is said; $at is where it listens, $pid its process
start() {
    local name=$1 life=$2
    shift 2
    sed -e 's/"access_life": *[0-9]*/"access_life": '"$life"'/' \
        ${records:+-e 's/"scopes"/"limits": {"records": '"$records"'}, "scopes"/'} examples/registry.json >"$room/$name.json"
    : >"$room/$name.out"
    "$program" start 127.0.0.1:0 "$room/$name.json" "$@" >"$room/$name.out" 2>"$room/$name.err" &
    pid=$!
    started+=($pid)
    for _ in $(seq 100); do
        grep -q '^listening ' "$room/$name.out" && break
        sleep 0.05
    done
    at=$(sed -n 's/^listening //p' "$room/$name.out")
    [ -n "$at" ] || { echo "no server: $(cat "$room/$name.err")"; exit 1; }
}

# start_nginx: starts nginx with one worker and a fixed reply of 116 bytes
start_nginx() {
    local port token
    port=$(python3 -c 'import socket; s = socket.socket(); s.bind(("127.0.0.1", 0)); print(s.getsockname()[1])')
    token=$(printf 'A%.0s' $(seq 43))
    cat >"$room/nginx.conf" <<CONF
daemon off;
worker_processes 1;
pid $room/nginx.pid;
error_log $room/nginx.err;
events { worker_connections 256; }
http {
    access_log off;
    keepalive_timeout 600;
    keepalive_requests 1000000000;
    default_type application/json;
    client_body_temp_path $room/body;
    proxy_temp_path $room/proxy;
    fastcgi_temp_path $room/fastcgi;
    uwsgi_temp_path $room/uwsgi;
    scgi_temp_path $room/scgi;
    server {
        listen 127.0.0.1:$port;
        location / { return 200 '{"access_token":"$token","expires_in":300,"scope":"read","token_type":"Bearer"}'; }
    }
}
CONF
    nginx -e "$room/nginx.err" -c "$room/nginx.conf" 2>"$room/nginx.out" &
    nginx_pid=$!
    started+=($nginx_pid)
    nginx_at=127.0.0.1:$port
    for _ in $(seq 100); do
        curl -s -o "$room/fixed" "http://$nginx_at/" && break
        sleep 0.05
    done
    [ "$(stat -c %s "$room/fixed" 2>/dev/null)" = 116 ] || { echo "no nginx: $(cat "$room/nginx.err" "$room/nginx.out")"; exit 1; }
}

bot=$(printf 'bot:b0t' | base64)
form=grant_type=client_credentials

# load AT CONNECTIONS AT_ONCE PATH BODY: loads a server for a run; $rate is what it answered in a second. On a machine in
# use wrk may be stopped before it has begun: then it is another run.
load() {
    rate=
    for _ in 1 2 3; do
        timeout -s INT $seconds wrk -t1 -c"$2" -d60 -s benches/requests.lua "http://$1" -- "$3" "$4" "$bot" "$5" \
            >"$room/wrk" 2>&1
        rate=$(sed -n 's/^Requests\/sec: *//p' "$room/wrk")
        [ -z "$rate" ] || break
    done
    if [ -z "$rate" ] || grep -qE 'Non-2xx|Socket errors' "$room/wrk"; then
        faults=$((faults + 1))
        echo "NOT ALL ANSWERED 200: $4 with $2 connections: $(grep -E 'Non-2xx|Socket errors|unable|requests in' "$room/wrk" | tr -s ' \n' ' ')"
        rate=${rate:-0}
    fi
}

# memory PID: its memory, in MB
memory() {
    awk '/^VmRSS/ { printf "%.2f MB", $2 / 1024 }' "/proc/$1/status"
}
