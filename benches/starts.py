#!/usr/bin/env python3
"""How long a start takes on a state file of 65,536 records and 100,000 changes, and on what is left of it once the server has
shortened it: from the call of the program to the line that it listens; and how long the longest reply took meanwhile. Words: a
folder on the disk that is to be measured (the current one), and how many rounds (5). The variable OAUTHD names another program
than crates/oauthd/out/oauthd."""

import hashlib
import http.client
import json
import os
import shutil
import statistics
import subprocess
import sys
import tempfile
import time

root = os.path.dirname(os.path.dirname(os.path.realpath(__file__)))
sys.path.append(f"{root}/tests")
from state_format import changes_of, code_given, consented, file_of, rules_of, spent, token_issued  # noqa: E402

CODES, CHANGES = 21845, 100000


def drawn(number):
    return hashlib.sha256(number.to_bytes(8, "big")).digest()


def changes():
    """Codes, each with an access and a refresh token, one token of a client's own, and consents: 65,536 records."""
    now = int(time.time())
    yield now, consented(1, 1, 1)
    for number in range(0, 3 * CODES, 3):
        code, access, refresh = (drawn(number + at) for at in range(3))
        family = number // 3 + 1
        yield now, code_given(family, 1, 1, 1, "https://app.example/cb", "E9Melhoa2OwvFrEMTJguCHaoeK1t8URWbuGJSstw-cM", code)
        yield now, token_issued(family, 1, 1, "access", access, 1, 300)
        yield now, token_issued(family, 1, 1, "refresh", refresh, 1, 86400)
        yield now, spent(code)
    yield now, token_issued(CODES + 1, 2, 0, "access", drawn(3 * CODES), 1, 300)
    for number in range(CHANGES - 4 * CODES - 2):
        yield now, consented(2, 1, 1 + number % 2)


def peak(server):
    """The most memory that a program had so far, in megabytes."""
    return next(int(line.split()[1]) for line in open(f"/proc/{server.pid}/status") if line.startswith("VmHWM")) / 1024


def longest_reply(address, path):
    """How long the longest reply takes while the file gets short, and all of that, in milliseconds."""
    host, _, port = address.rpartition(":")
    connection = http.client.HTTPConnection(host, int(port))
    headers = {"Authorization": "Basic Ym90OmIwdA==", "Content-Type": "application/x-www-form-urlencoded"}
    long, began, longest = os.path.getsize(path), time.monotonic(), 0
    while os.path.getsize(path) >= long and time.monotonic() - began < 60:
        asked = time.monotonic()
        connection.request("POST", "/introspect", "token=none", headers)
        connection.getresponse().read()
        longest = max(longest, time.monotonic() - asked)
    return longest * 1000, (time.monotonic() - began) * 1000


def start(program, registry, path, shortens):
    """A start, in milliseconds, the most memory that it took, in megabytes, and where it then shortens the file, how that went."""
    began = time.monotonic()
    server = subprocess.Popen([program, "start", "127.0.0.1:0", registry, "--state", path], stdout=subprocess.PIPE, text=True)
    line = server.stdout.readline()
    taken = (time.monotonic() - began) * 1000
    if not line:
        sys.exit("the server did not start")
    at_start = peak(server)
    replies = longest_reply(line.split()[-1], path) if shortens else (0, 0)
    row = taken, at_start, *replies, peak(server)
    server.kill()
    server.wait()
    return row


def main():
    program = os.path.realpath(os.environ.get("OAUTHD", f"{root}/crates/oauthd/out/oauthd"))
    folder, rounds = sys.argv[1:2] or ["."], int((sys.argv[2:] + ["5"])[0])
    registry = f"{root}/examples/registry.json"
    with open(registry) as text, tempfile.TemporaryDirectory(dir=folder[0]) as room:
        dated = list(changes())
        batches = [rules_of(json.load(text))] + [changes_of(dated[at:at + 20]) for at in range(0, len(dated), 20)]
        with open(f"{room}/made", "wb", opener=lambda name, flags: os.open(name, flags, 0o600)) as to:
            to.write(file_of(batches))
        told = {"changes": [], "left": []}
        for _ in range(rounds):
            shutil.copy(f"{room}/made", f"{room}/state")
            sizes = []
            for rows in told.values():
                sizes.append(os.path.getsize(f"{room}/state"))
                rows.append(start(program, registry, f"{room}/state", rows is told["changes"]))
        for (what, rows), size in zip(told.items(), sizes):
            taken, most, longest, shortening, at_last = (statistics.median(column) for column in zip(*rows))
            print(f"{what:8} {size / 1e6:5.1f} MB: {taken:5.0f} ms, {most:5.1f} MB of memory at most")
            if shortening:
                print(f"shortened within {shortening:5.0f} ms: the longest reply {longest:4.1f} ms, {at_last:5.1f} MB of memory at most")


if __name__ == "__main__":
    main()
