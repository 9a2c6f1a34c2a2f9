#!/usr/bin/env bash
# How long replies take at half load: the half, the 99 % and the 99.9 % of the times of replies to a client that keeps a pace
# (benches/paced.c), from a server and from nginx with a fixed reply. The pace is half of what the slower of the two answers
# when wrk asks for all that it can. They are asked by turns in one run; what is printed are medians of the rounds. Takes half
# a minute, and ends with 0 where every request was answered 200. Words: how many connections (16), how many rounds (5).
# It wants Debian's packages wrk, nginx, curl, python3 and gcc, three cores, and the program: (cd crates/oauthd && rt run --
# help). The variable OAUTHD names another program.
program=$(realpath -m "${OAUTHD:-$(dirname "$0")/../crates/oauthd/out/oauthd}")
cd "$(dirname "$0")/.." || exit 2
connections=${1:-16}
rounds=${2:-5}
[ -x "$program" ] || { echo "there is no $program: run 'rt run -- help' in crates/oauthd first"; exit 2; }
PATH=$PATH:/usr/sbin
for tool in wrk nginx curl python3 gcc; do
    command -v $tool >/dev/null || { echo "there is no $tool: apt-get install $tool"; exit 2; }
done
. benches/servers.sh
gcc -O2 -o "$room/paced" benches/paced.c || exit 2
start tokens 1
tokens_at=$at
start asked 3600
asked_at=$at
start_nginx
token=$(curl -sS -u bot:b0t -d $form "http://$asked_at/token" | sed -E 's/.*"access_token":"([^"]*)".*/\1/')

# request PATH BODY: the bytes of a request
request() {
    printf 'POST %s HTTP/1.1\r\nHost: localhost\r\nAuthorization: Basic %s\r\nContent-Type: application/x-www-form-urlencoded\r\nContent-Length: %d\r\n\r\n%s' \
        "$1" "$bot" "${#2}" "$2"
}

# pace AT PATH BODY: a run at the pace
pace() {
    request "$2" "$3" | "$room/paced" "${1##*:}" "$connections" "$rate" 1
}

# turn NAME AT PATH BODY: how fast nginx and the server are, and then both at half of the slower one's rate
turn() {
    local fixed
    load "$nginx_at" "$connections" 1 "$3" "$4"
    fixed=$rate
    load "$2" "$connections" 1 "$3" "$4"
    rate=$(python3 -c "print(int(min($fixed, $rate) / 2))")
    echo "$rate $(pace "$nginx_at" "$3" "$4") $(pace "$2" "$3" "$4")" >>"$room/times.$1"
}

for _ in $(seq "$rounds"); do
    turn token "$tokens_at" /token $form
    turn introspect "$asked_at" /introspect "token=$token"
done
python3 - "$room" "$connections" <<'MEDIANS' || faults=1
import statistics, sys
print(f"{sys.argv[2] + ' connections, microseconds':34}{'a second':>9}{'nginx: 50 %':>12}{'99 %':>7}{'99.9 %':>8}{'oauthd: 50 %':>14}{'99 %':>7}{'99.9 %':>8}")
bad = 0
for name in ("token", "introspect"):
    rows = [[float(word) for word in line.split()] for line in open(f"{sys.argv[1]}/times.{name}")]
    rate, *their, _, faults, half, most, all_but, _, other = (statistics.median(column) for column in zip(*rows))
    bad += sum(row[5] + row[10] for row in rows)
    print(f"{'/' + name:34}{rate:9.0f}{their[0]:12.0f}{their[1]:7.0f}{their[2]:8.0f}{half:14.0f}{most:7.0f}{all_but:8.0f}")
sys.exit(bad > 0)
MEDIANS
[ $faults = 0 ]
