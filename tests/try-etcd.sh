#!/usr/bin/env bash
# Two servers whose state stands in etcd, on a cluster of three members on loopback, with 64 clients at work: the one that leads is killed 50
# times, and is stopped past its lease and woken, when it is asked
# of a token that was revoked meanwhile, and cut off from the cluster; the member that leads is killed, alone and with the
# server; two members are stopped; and the network drops and delays 4 %. Each time whoever leads then is asked for all that was
# acknowledged. It tells how long it took until another one granted a token. Ends by itself, with 0 where nothing was lost and nothing
# revived; that takes half an hour. Words: other tests than these, as kill=5 pause=2 (kill, member, both, pause, past, quorum, cut, lossy).
# CLIENTS=n has so many, SEED=n draws as before.
. "$(dirname "$0")/lib.sh"
needs python3
needs etcd etcd-server
tests=("$@")
[ $# -gt 0 ] || tests=(kill=50 member=5 both=5 pause=5 past=3 quorum=5 cut=5 lossy=10)
exec python3 tests/etcd.py "$program" examples/registry.json "${tests[@]}"
