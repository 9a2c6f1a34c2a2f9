#!/usr/bin/env bash
# Sees over real sockets that no client of a server can keep another one waiting: idle clients, slow ones, ones that
# never read, resets, and the like. Prints one line for each check, and ends with 0 where all is as wanted; that takes
# a minute. Words name the checks to make; without words all are made. tests/sockets.py says what each does.
. "$(dirname "$0")/lib.sh"
needs python3
exec python3 tests/sockets.py "$program" examples/registry.json "$@"
