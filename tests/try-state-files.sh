#!/usr/bin/env bash
# Hands a server state files of all kinds: each byte changed, cut at each, drawn at random, of other programs and of the first
# version, under links and second names, on full disks, under clocks that go back. It starts with all that was acknowledged, or
# says in one line why not, writes nothing, and ends with 2. Ends by itself, with 0 where that is so; that takes some minutes.
# What wants root, gcc or strace says so where they are not there. Words: how many files are drawn, and parts of the
# names of trials, where not all are wanted. SEED=n draws as before.
. "$(dirname "$0")/lib.sh"
needs python3
exec python3 tests/state_files.py "$program" examples/registry.json "$@"
