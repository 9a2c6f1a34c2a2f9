#!/usr/bin/env bash
# Bad days of a list in etcd, on clusters of three members on loopback: two members stop, for four seconds and for long; the quota is used
# up; members are started anew, and forget whom they have let in; a snapshot is restored; the list is made shorter, and listed while it is written; and members answer what none does.
# Prints a line for each check, and ends with 0 where all is as wanted; that takes ten minutes. Words name the days: quorum, full, password,
# restored, shorter, listed, strange. SEED=n draws as before.
. "$(dirname "$0")/lib.sh"
needs python3
needs curl
needs etcd etcd-server
needs etcdctl etcd-client
exec python3 tests/etcd_days.py "$program" examples/registry.json "$@"
