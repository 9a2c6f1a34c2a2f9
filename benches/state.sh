#!/usr/bin/env bash
# Tokens a second of a server that keeps its state in a file, beside one that keeps none, and beside a C program that puts a
# row for each into an SQLite database (write-ahead log, synchronous FULL), as many rows in a transaction as there are
# connections. All are loaded by turns in one run; what is printed are medians of the rounds. Takes half a minute, and ends
# with 0 where every request was answered 200. Words: a folder on the disk that is to be measured (the current one), and how
# many rounds (5).
# It wants Debian's packages wrk, curl, python3, gcc and libsqlite3-dev, and the program: (cd crates/oauthd && rt run -- help).
# The variable OAUTHD names another program.
program=$(realpath -m "${OAUTHD:-$(dirname "$0")/../crates/oauthd/out/oauthd}")
folder=$(realpath -m "${1:-.}")
rounds=${2:-5}
cd "$(dirname "$0")/.." || exit 2
[ -x "$program" ] || { echo "there is no $program: run 'rt run -- help' in crates/oauthd first"; exit 2; }
for tool in wrk curl python3 gcc; do
    command -v $tool >/dev/null || { echo "there is no $tool: apt-get install $tool"; exit 2; }
done
. benches/servers.sh
disk=$(mktemp -d "$folder/state.XXXXXX") || exit 2
trap '[ ${#started[@]} = 0 ] || kill "${started[@]}" 2>/dev/null; wait; rm -rf "$room" "$disk"' EXIT
gcc -O2 -o "$room/rows" benches/rows.c -lsqlite3 || exit 2

for name in state asked; do
    "$program" state --new "$disk/$name" >"$room/made" || exit 2
done
start kept 1 --state "$disk/state"
kept_at=$at kept_pid=$pid
start tokens 1
tokens_at=$at
start asked 3600 --state "$disk/asked"
asked_at=$at
token=$(curl -sS -u bot:b0t -d $form "http://$asked_at/token" | sed -E 's/.*"access_token":"([^"]*)".*/\1/')
start told 3600
told_at=$at
other=$(curl -sS -u bot:b0t -d $form "http://$told_at/token" | sed -E 's/.*"access_token":"([^"]*)".*/\1/')

# turn CONNECTIONS: a run of each, one after the other
turn() {
    local none kept rows
    load "$tokens_at" "$1" 1 /token $form
    none=$rate
    load "$kept_at" "$1" 1 /token $form
    kept=$rate
    rows=$("$room/rows" "$disk/rows.$1.$RANDOM" "$1" $seconds)
    load "$told_at" "$1" 1 /introspect "token=$other"
    local asked=$rate
    load "$asked_at" "$1" 1 /introspect "token=$token"
    echo "$none $kept $rows $asked $rate" >>"$room/rates.$1"
}

for round in $(seq "$rounds"); do
    for connections in 1 16 64; do
        turn $connections
    done
done
python3 - "$room" <<'MEDIANS'
import statistics, sys
print(f"{'connections':12}{'/token':>9}{'--state':>9}{'ratio':>7}{'SQLite':>9}{'/introspect':>13}{'--state':>9}")
for connections in (1, 16, 64):
    rows = [[float(rate) for rate in line.split()] for line in open(f"{sys.argv[1]}/rates.{connections}")]
    none, kept, sqlite, asked, told = (statistics.median(column) for column in zip(*rows))
    ratio = statistics.median(row[1] / row[0] for row in rows if row[0])
    print(f"{connections:<12}{none:9.0f}{kept:9.0f}{ratio:7.2f}{sqlite:9.0f}{asked:13.0f}{told:9.0f}")
MEDIANS
printf 'memory with --state %s, its file %s bytes\n' "$(memory "$kept_pid")" "$(stat -c %s "$disk/state")"
[ $faults = 0 ]
