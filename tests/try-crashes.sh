#!/usr/bin/env bash
# Kills a server with a state file 200 times, each time in the middle of the work of 64 clients, starts it again on what
# the kill left, and asks it for all that it had acknowledged: nothing is lost, and nothing revived. Ends by itself, with 0
# where that is so; that takes some minutes. Words: how many kills, and how many clients. SEED=n draws as before.
. "$(dirname "$0")/lib.sh"
needs python3
exec python3 tests/crashes.py "$program" examples/registry.json "$@"
