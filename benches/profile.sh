#!/usr/bin/env bash
# Where the time of a request goes: the server's user and system time a request, with one connection, and the shares of the
# parts of its user time, by perf. Takes a quarter of a minute. Words: how many seconds each of the two looks takes (6), and
# the path, /token or /introspect (/token).
# It wants Debian's packages wrk, curl and linux-perf, as root or with /proc/sys/kernel/perf_event_paranoid at most 1, and the
# program: (cd crates/oauthd && rt run -- help). The variable OAUTHD names another program.
program=$(realpath -m "${OAUTHD:-$(dirname "$0")/../crates/oauthd/out/oauthd}")
cd "$(dirname "$0")/.." || exit 2
seconds=${1:-6}
path=${2:-/token}
case $path in
    # tokens that live for a second, so that the store of 65,536 does not fill
    /token) life=1 ;;
    /introspect) life=3600 ;;
    *) echo "the path is /token or /introspect"; exit 2 ;;
esac
[ -x "$program" ] || { echo "there is no $program: run 'rt run -- help' in crates/oauthd first"; exit 2; }
for tool in wrk curl; do
    command -v $tool >/dev/null || { echo "there is no $tool: apt-get install $tool"; exit 2; }
done
command -v perf >/dev/null || { echo "there is no perf: apt-get install linux-perf"; exit 2; }
room=$(mktemp -d) || exit 2
server=
trap '[ -z "$server" ] || kill "$server" 2>/dev/null; wait; rm -rf "$room"' EXIT

sed 's/"access_life": *[0-9]*/"access_life": '$life'/' examples/registry.json >"$room/registry.json"
"$program" start 127.0.0.1:0 "$room/registry.json" >"$room/out" 2>"$room/err" &
server=$!
for _ in $(seq 100); do
    grep -q '^listening ' "$room/out" && break
    sleep 0.05
done
at=$(sed -n 's/^listening //p' "$room/out")
[ -n "$at" ] || { echo "no server: $(cat "$room/err")"; exit 1; }
body=grant_type=client_credentials
[ $path = /token ] || body=token=$(curl -sS -u bot:b0t -d $body "http://$at/token" | sed -E 's/.*"access_token":"([^"]*)".*/\1/')

# ticks: the server's user and system time so far, in ticks
ticks() {
    sed 's/.*) //' "/proc/$server/stat" | cut -d ' ' -f 12,13
}

# load: requests for so many seconds
load() {
    wrk -t1 -c1 -d"$seconds" -s benches/requests.lua "http://$at" -- 1 $path "$(printf 'bot:b0t' | base64)" $body >"$room/wrk"
    requests=$(sed -nE 's/^ *([0-9]+) requests in.*/\1/p' "$room/wrk")
    [ -n "$requests" ] && ! grep -q Non-2xx "$room/wrk" || { echo 'NOT all were answered 200:'; cat "$room/wrk"; exit 1; }
}

read -r user_before system_before < <(ticks)
load
read -r user_after system_after < <(ticks)
awk -v n="$requests" -v tick="$(getconf CLK_TCK)" -v user=$((user_after - user_before)) \
    -v system_time=$((system_after - system_before)) 'BEGIN {
    printf "%d requests, each with %.2f microseconds of user time and %.2f of system time\n",
        n, user / tick / n * 1e6, system_time / tick / n * 1e6 }'

# the shares are looked at by themselves: perf takes its own part of the time
perf record -q -e cpu-clock:u -F 2000 -p "$server" -o "$room/perf" -- sleep "$seconds" 2>"$room/perf.err" &
looking=$!
load
wait $looking

# what a symbol belongs to: the first part of its path, or its name
cat >"$room/parts" <<'PARTS'
heads|httparse|requests: heads
params|form_urlencoded|percent_encoding: forms
authentication|clients|base64|hex: clients and credentials
sha2|pkce: digests
messages|serde_json|json|itoa|http: replies and JSON
token_store|consent|slab|std_collections: store
hook_chain|hook_host|hook_record|flat_machine: hooks
rand_chacha|rand_core: draws
endpoints|token_endpoint|answers|http_edge|change_codec: endpoints and edge
event_loop|daemon|image_keeper|serving|mio|oauthd|std|std_io|os|io|libc|clock_gettime|epoll_wait|send|recv|read|write|sendto|recvfrom|vdso_clock_gettime|rattle_epoll_wait|errno_location|rattle_set_errno: loop and sockets
core: bytes compared and checked
std_alloc|std_heap|rattle_alloc|rattle_dealloc|malloc|free|calloc|realloc|_int_malloc|_int_free|_int_realloc|cfree|malloc_consolidate|unlink_chunk|memcpy|memmove|memset|memcmp|bcmp: memory
PARTS
perf report -i "$room/perf" --no-children --stdio --percent-limit 0 --sort symbol -F overhead,sym 2>/dev/null |
    sed -nE 's/^ *([0-9.]+)% +\[[^]]*\] +(.*)/\1 \2/p' | sed 's/[ -]*$//' | sort -rn >"$room/symbols"
awk -F ': ' 'NR == FNR { n = split($1, names, "|"); for (i = 1; i <= n; i++) part[names[i]] = $2; next }
    {
        share = $0; sub(/ .*/, "", share)
        name = $0; sub(/^[^ ]* /, "", name); sub(/^<+/, "", name)
        first = name; sub(/(::|@|\+\+).*/, "", first); sub(/^_*libc_/, "", first); sub(/^__+/, "", first)
        sub(/_(evex|avx|sse).*/, "", first)
        sum[first in part ? part[first] : "other"] += share
    }
    END { for (name in sum) printf "%5.1f %%  %s\n", sum[name], name }' "$room/parts" "$room/symbols" | sort -rn
echo 'the symbols that take most:'
head -25 "$room/symbols" | awk '{ printf "%5.1f %%  ", $1; $1 = ""; print substr($0, 2) }'
