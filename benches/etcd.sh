#!/usr/bin/env bash
# Tokens a second of a server whose state stands in etcd, on a cluster of three members on loopback, beside one that keeps it in a file;
# all have their folders on the same disk. Both are loaded by turns; what is printed are medians of the rounds. Takes half a minute, and
# ends with 0 where every request was answered 200. Words: a folder on the disk that is to be measured (the current one), and how many
# rounds (5). It wants Debian's packages etcd-server, wrk, curl and python3, and the program: (cd crates/oauthd && rt run -- help).
# The variable OAUTHD names another one.
program=$(realpath -m "${OAUTHD:-$(dirname "$0")/../crates/oauthd/out/oauthd}")
folder=$(realpath -m "${1:-.}")
rounds=${2:-5}
cd "$(dirname "$0")/.." || exit 2
[ -x "$program" ] || { echo "there is no $program: run 'rt run -- help' in crates/oauthd first"; exit 2; }
for tool in etcd wrk curl python3; do
    command -v $tool >/dev/null || { echo "there is no $tool: apt-get install ${tool/#etcd/etcd-server}"; exit 2; }
done
. benches/servers.sh
disk=$(mktemp -d "$folder/state.XXXXXX") || exit 2
trap '[ ${#started[@]} = 0 ] || kill "${started[@]}" 2>/dev/null; wait; rm -rf "$room" "$disk"' EXIT
python3 - "$disk" >"$room/urls" <<'MEMBERS' &
import signal, sys
sys.path.insert(0, "tests")
from members import Members
members = Members(sys.argv[1])
signal.signal(signal.SIGTERM, lambda *_: (members.end(), sys.exit(0)))
print(",".join(members.urls), flush=True)
while True:
    signal.pause()
MEMBERS
started+=($!)
for _ in $(seq 300); do [ -s "$room/urls" ] && break; sleep 0.1; done
urls=$(cat "$room/urls")
[ -n "$urls" ] || { echo 'no cluster'; exit 1; }
"$program" state --new "$disk/state" || exit 2
"$program" state --new --etcd "$urls" --prefix bench || exit 2
sleep 6
start kept 1 --state "$disk/state"
kept_at=$at
start listed 1 --etcd "$urls" --prefix bench --lease 10
listed_at=$at
for round in $(seq "$rounds"); do
    for connections in 1 16 64; do
        load "$kept_at" $connections 1 /token $form
        kept=$rate
        load "$listed_at" $connections 1 /token $form
        echo "$kept $rate" >>"$room/rates.$connections"
    done
done
python3 - "$room" <<'MEDIANS'
import statistics, sys
print(f"{'connections':12}{'--state':>9}{'--etcd':>9}{'ratio':>7}")
for connections in (1, 16, 64):
    rows = [[float(rate) for rate in line.split()] for line in open(f"{sys.argv[1]}/rates.{connections}")]
    kept, listed = (statistics.median(column) for column in zip(*rows))
    print(f"{connections:<12}{kept:9.0f}{listed:9.0f}{listed / kept:7.2f}")
MEDIANS
[ $faults = 0 ]
