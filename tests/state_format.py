"""The bytes of a state file, read and written by a second hand: the trials of state files spell and take apart files by it.

A file is a header, a frame for each batch, and zeros. A frame is a byte 255, the batch's length in four bytes, the first 16 bytes
of the SHA-256 of what vouches for all before it, of the length and of the batch, and the batch itself."""

import hashlib

HEADER = b"oauthd state v3\n"
MARK_OF_FRAME = b"\xff"

# The first byte of a batch tells what it is.
RULES, CHANGES, MARK = 0, 1, 3


def body(before, batch):
    """What stands behind the first byte of a frame, and the digest that vouches for it."""
    length = len(batch).to_bytes(4, "big")
    digest = hashlib.sha256(before + length + batch).digest()[:16]
    return length + digest + batch, digest


def file_of(batches):
    """The file of these batches."""
    parts, before = [HEADER], HEADER
    for batch in batches:
        text, before = body(before, batch)
        parts += [MARK_OF_FRAME, text]
    return b"".join([*parts, b"\0"])


def batches_of(content):
    """The batches of a file, as long as each has its digest."""
    at, batches, before = len(HEADER), [], HEADER
    while content[at:at + 1] == MARK_OF_FRAME:
        length = int.from_bytes(content[at + 1:at + 5], "big")
        text, before = body(before, content[at + 21:at + 21 + length])
        if content[at + 1:at + 21 + length] != text:
            break
        batches.append(content[at + 21:at + 21 + length])
        at += 21 + length
    return batches


def size_of(content):
    """Where the frames of a file end."""
    return len(HEADER) + sum(21 + len(batch) for batch in batches_of(content))


def next_frame(content, batch):
    """What an append of this batch writes behind the frames of a file."""
    before = HEADER
    for known in batches_of(content):
        before = body(before, known)[1]
    return MARK_OF_FRAME + body(before, batch)[0]


def without_mark(batch):
    """What a batch tells behind the moment with which it may begin: nothing, where it is a mark alone."""
    return batch[9:] if batch[0] == MARK else batch


def first_kind_of(batches):
    """The file of these batches as the first version of the program wrote it: a latch of 1, a length and the batch for each."""
    frames = (b"\1" + len(batch).to_bytes(4, "big") + batch for batch in map(without_mark, batches) if batch)
    return b"".join(frames) + b"\0"


def mark_of(moment):
    """A batch that says until when what is told by the clock is kept."""
    return bytes([MARK]) + moment.to_bytes(8, "big")


def short(number):
    return number.to_bytes(4, "big")


def owner_told(place, owner):
    """What rules tell of an owner: its number, the digest of its key, and that of what it is called, if anything."""
    owner = owner if isinstance(owner, dict) and "key" in owner else {"key": owner}
    key, sub = owner["key"], owner.get("sub")
    digest = bytes.fromhex(key["sha256"]) if isinstance(key, dict) else hashlib.sha256(key.encode()).digest()
    called = b"\0" if sub is None else b"\1" + hashlib.sha256(sub.encode()).digest()
    return short(owner.get("number", place)) + digest + called


def rules_of(registry):
    """The batch of a registry's rules. `registry` is its JSON, as a dictionary."""
    places = {name: place for place, name in enumerate(registry["scopes"])}
    owners = registry["owners"]
    numbered = all(isinstance(owner, dict) and "number" in owner for owner in owners)

    def text(it):
        return short(len(it)) + it.encode()

    parts = [bytes([RULES]), short(len(registry["scopes"])), *map(text, registry["scopes"]), short(len(owners)),
             *(owner_told(place, owner) for place, owner in enumerate(owners, 1)), bytes([numbered, "gateway" in registry]),
             short(len(registry["clients"]))]
    for client in registry["clients"]:
        mask = sum(1 << places[name] for name in client["scope"].split())
        parts += [text(client["id"]), mask.to_bytes(8, "big")]
    return b"".join([*parts, short(registry["access_life"]), short(registry["refresh_life"])])


def changes_of(dated):
    """The batch of changes, each a moment and the change's bytes."""
    parts = [bytes([CHANGES]), len(dated).to_bytes(4, "big")]
    for moment, change in dated:
        parts += [moment.to_bytes(8, "big"), change]
    return b"".join(parts)


def token_issued(family, client, owner, kind, digest, scope, life):
    """A change: a token of these is issued, in the family with the number. `owner` is 0 where the family is the client's own."""
    return b"\3" + family.to_bytes(8, "big") + client.to_bytes(4, "big") + owner.to_bytes(4, "big") + token(kind, digest, scope, life)


def token(kind, digest, scope, life):
    return bytes([kind == "refresh"]) + digest + scope.to_bytes(8, "big") + life.to_bytes(4, "big")


def code_given(family, client, owner, scope, redirect, challenge, digest):
    """A change: a code is given, which opens the family with the number."""
    texts = b"".join(len(text).to_bytes(4, "big") + text.encode() for text in (redirect, challenge))
    named = family.to_bytes(8, "big") + client.to_bytes(4, "big") + owner.to_bytes(4, "big")
    return b"\2" + named + scope.to_bytes(8, "big") + texts + digest


def spent(digest):
    """A change: a code or a refresh token is used up."""
    return b"\4" + digest


def numbered(last):
    """A change: numbers up to this one were families'. It stands in a list that was shortened."""
    return b"\x08" + last.to_bytes(8, "big")


def consented(owner, client, mask):
    """A change: an owner consents to scopes for a client."""
    return b"\1" + owner.to_bytes(4, "big") + client.to_bytes(4, "big") + mask.to_bytes(8, "big")
