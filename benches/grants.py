"""A state file of users' grants under examples/registry.json: its path, and how many. Each is a code that was exchanged, with
an access and a refresh token."""

import hashlib
import json
import os
import sys
import time

root = os.path.dirname(os.path.dirname(os.path.realpath(__file__)))
sys.path.append(f"{root}/tests")
from state_format import changes_of, code_given, consented, file_of, rules_of, spent, token_issued  # noqa: E402


def drawn(number):
    return hashlib.sha256(number.to_bytes(8, "big")).digest()


def grant(number, now):
    """The changes of one grant."""
    code, access, refresh = (drawn(3 * number + at) for at in range(3))
    yield now, code_given(number, 1, 1, 1, "https://app.example/cb", "E9Melhoa2OwvFrEMTJguCHaoeK1t8URWbuGJSstw-cM", code)
    yield now, spent(code)
    yield now, token_issued(number, 1, 1, "access", access, 1, 300)
    yield now, token_issued(number, 1, 1, "refresh", refresh, 1, 86400)


def main():
    path, count = sys.argv[1], int(sys.argv[2])
    now = int(time.time())
    dated = [(now, consented(1, 1, 1))] + [change for number in range(1, count + 1) for change in grant(number, now)]
    with open(f"{root}/examples/registry.json") as text:
        batches = [rules_of(json.load(text))] + [changes_of(dated[at:at + 20]) for at in range(0, len(dated), 20)]
    with open(path, "wb", opener=lambda name, flags: os.open(name, flags, 0o600)) as to:
        to.write(file_of(batches))


if __name__ == "__main__":
    main()
