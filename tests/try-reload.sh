#!/usr/bin/env bash
# Sees over real sockets that nobody notices a reload: twelve clients ask without pause on connections that they keep while the
# registry is reloaded twenty times, and get nothing but 200; and what is refused, and how. Prints one line for each check, and
# ends with 0 where all is as wanted; that takes half a minute. Words name the checks to make. tests/reload.py says what each does.
. "$(dirname "$0")/lib.sh"
needs python3
exec python3 tests/reload.py "$program" examples/registry.json "$@"
