#!/usr/bin/env bash
# Requests a second of a server beside those of nginx with a fixed reply, and the server's memory. All servers are of one
# process, and are loaded by turns in one run; what is printed are medians of the rounds. Takes a minute and a half, and ends
# with 0 where every request was answered 200. Words: how many rounds (5), and which kinds of runs (all of: one pipelined
# 16 64 16-pipelined beside memory).
# It wants Debian's packages wrk, nginx, curl and python3, and the program: (cd crates/oauthd && rt run -- help). The
# variable OAUTHD names another program.
program=$(realpath -m "${OAUTHD:-$(dirname "$0")/../crates/oauthd/out/oauthd}")
cd "$(dirname "$0")/.." || exit 2
rounds=${1:-5}
shift
kinds=${*:-one pipelined 16 64 16-pipelined beside memory}
[ -x "$program" ] || { echo "there is no $program: run 'rt run -- help' in crates/oauthd first"; exit 2; }
PATH=$PATH:/usr/sbin
for tool in wrk nginx curl python3; do
    command -v $tool >/dev/null || { echo "there is no $tool: apt-get install $tool"; exit 2; }
done
. benches/servers.sh

start tokens 1
tokens_at=$at
start asked 3600
asked_at=$at
start_nginx
token=$(curl -sS -u bot:b0t -d $form "http://$asked_at/token" | sed -E 's/.*"access_token":"([^"]*)".*/\1/')

# turn NAME CONNECTIONS AT_ONCE: a run of each server, one after the other
turn() {
    local fixed issued
    load "$nginx_at" "$2" "$3" /token $form
    fixed=$rate
    load "$tokens_at" "$2" "$3" /token $form
    issued=$rate
    load "$asked_at" "$2" "$3" /introspect "token=$token"
    echo "$fixed $issued $rate" >>"$room/rates.$1"
}

# turn_beside_idle COUNT: the same with one connection, while each server has so many idle ones beside it
turn_beside_idle() {
    : >"$room/idle"
    python3 benches/clients.py idle "$1" "$nginx_at" "$tokens_at" "$asked_at" >"$room/idle" 2>&1 &
    local clients=$!
    for _ in $(seq 100); do
        grep -q idle "$room/idle" && break
        sleep 0.05
    done
    turn beside "1" 1
    kill $clients
    wait $clients 2>/dev/null
}

# report NAME TEXT: the medians of a kind of run, and the medians of the ratios to nginx in the same turn
report() {
    [ -s "$room/rates.$1" ] || return
    python3 - "$room/rates.$1" "$2" <<'MEDIANS'
import statistics, sys
rows = [[float(rate) for rate in line.split()] for line in open(sys.argv[1])]
fixed, issued, told = (statistics.median(column) for column in zip(*rows))
first, second = (statistics.median(row[i] / row[0] for row in rows if row[0]) for i in (1, 2))
print(f"{sys.argv[2]:32}{fixed:9.0f}{issued:9.0f}{first:7.2f}{told:13.0f}{second:7.2f}")
MEDIANS
}

# memory_of_tokens COUNT: what a fresh server takes with so many tokens
memory_of_tokens() {
    start "tokens$1" 3600
    python3 benches/clients.py tokens "$at" "$bot" "$1" || faults=$((faults + 1))
    printf '%-28s%s\n' "memory with $1 tokens" "$(memory $pid)"
}

# memory_of_connections AT_ONCE: what a fresh server takes while it serves 64 connections
memory_of_connections() {
    start "connections$1" 3600
    (sleep 1; memory $pid >"$room/memory") &
    local looking=$!
    seconds=1.5 load "$at" 64 "$1" /introspect token=x
    wait $looking
    printf '%-46s%s\n' "memory with 64 served connections, $1 at once" "$(cat "$room/memory")"
}

for round in $(seq "$rounds"); do
    for kind in $kinds; do
        case $kind in
            one) turn one 1 1 ;;
            pipelined) seconds=0.15 turn pipelined 1 8 ;;
            16) turn 16 16 1 ;;
            64) turn 64 64 1 ;;
            16-pipelined) seconds=0.15 turn 16-pipelined 16 8 ;;
            beside) turn_beside_idle 63 ;;
        esac
    done
done
printf '%-32s%9s%9s%7s%13s%7s\n' 'requests a second' nginx /token ratio /introspect ratio
report one 'one connection'
report pipelined 'one, pipelined by 8'
report 16 '16 connections'
report 64 '64 connections'
report 16-pipelined '16, each pipelined by 8'
report beside 'one beside 63 idle ones'
case $kinds in
    *memory*)
        memory_of_tokens 0
        memory_of_tokens 10000
        memory_of_tokens 65536
        memory_of_connections 1
        memory_of_connections 8
        ;;
esac
[ $faults = 0 ]
