"""Hands a server state files of all kinds: each byte changed, cut at each, changed at random, of other programs, of the first
version, on disks that are full, and registries that allow less. It starts on each with all that was acknowledged, or it says in
one line why not and writes nothing.

Words: PROGRAM REGISTRY [DRAWS [TRIAL ..]]; a trial is named by a part of its function's name. Ends by itself, with 0 where all is
as wanted. SEED=n draws as before."""

import json
import os
import random
import secrets
import shutil
import sys
import tempfile
import time

import state_clocks
import state_disks
import state_paths
from crashes import consents
from state_format import (HEADER, batches_of, changes_of, code_given, consented, file_of, first_kind_of, mark_of, next_frame, numbered, rules_of, spent,
                          token_issued)
from state_trials import LIFE, NotServed, Trials, bytes_of, is_named, without_marks

# The line that tells how much ended beyond the registry, behind how many that were.
ENDED = " codes and tokens ended, beyond the registry"
WOULD_END = " codes and tokens would end, beyond the registry"

# What may follow `oauthd: State` where the bytes of a file are wrong.
OF_BYTES = ["NotState", "Version", "Damaged"]


def worked_on(trials):
    """The bytes of a state file after some grants, refreshes, revocations, consents and tokens of a client's own: 50 batches, and one
    zero behind."""
    path = trials.make(f"{trials.room}/state")
    begun, client = trials.served("a new file", path)
    consents(client, "read")
    for _ in range(6):
        client.begin()
    for _ in range(3):
        client.refresh()
    client.revoke()
    kinds = [thing["kind"] for thing in trials.listed("a file in use", path)]
    if any(kinds.count(kind) == 0 for kind in ["consent", "family", "code", "access", "refresh"]):
        trials.wrong("a file in use", f"lines of {kinds}")
    while len(batches_of(bytes_of(path))) < 50:
        client.own_token()
    begun.end()
    return file_of(batches_of(bytes_of(path)))


def places(content):
    """Where the frames of a file begin, and at last where they end."""
    at = [len(HEADER)]
    for batch in batches_of(content):
        at.append(at[-1] + 21 + len(batch))
    return at


def tries_every_byte(trials, content):
    """Every byte of a file is changed once, one bit and all eight. Where that is told from what a crash leaves, the file is
    refused and stays as it is; else what it says is right, and what is cut off is put aside: the last batch, where zeros that were
    written ahead stand behind it."""
    batches, begins = batches_of(content), places(content)
    for_one, for_all = [], []
    for at in range(len(content)):
        for change in (1 << at % 8, 255):
            changed = content[:at] + bytes([content[at] ^ change]) + content[at + 1:]
            what = f"byte {at} of {len(content)} changed by {change}"
            if at < len(HEADER):
                digit = at == len(HEADER) - 2 and chr(changed[at]).isascii() and chr(changed[at]).isdigit()
                for_one.append((what, changed, f"Version {chr(changed[at])}" if digit else "NotState"))
            elif at != begins[-2] or changed[at]:
                for_one.append((what, changed, f"Damaged {sum(1 for end in begins[1:] if end <= at)}"))
            else:
                for_all.append((what, changed, batches[:-1], changed[at:].rstrip(b"\0")))
            if begins[-2] <= at < begins[-1]:
                for_all.append((f"{what}, with zeros behind", changed + bytes(15), batches[:-1], changed[begins[-2]:].rstrip(b"\0")))
    trials.all(trials.refused, for_one)
    trials.all(trials.taken, for_all)
    print(f"{len(content)} bytes changed: {len(for_one)} files were to be refused, {len(for_all)} to be read rightly", flush=True)


def tries_every_front(trials, content):
    """No front of a file is taken for the file: only an append may be cut off anywhere, as a crash does it."""
    batches, begins = batches_of(content), places(content)
    damaged = ((f"the first {length} bytes of {len(content)}", content[:length], f"Damaged {sum(1 for end in begins[1:] if end <= length)}")
               for length in range(len(HEADER), len(content)))
    trials.all(trials.refused, damaged)
    trials.all(trials.refused, ((f"the first {length} bytes", content[:length], "NotState") for length in range(len(HEADER))))
    frame = next_frame(content, changes_of([(1, consented(1, 1, 1))]))

    def torn(what, left):
        """An append of which this is left, over zeros."""
        return what, content[:-1] + left + bytes(len(frame) - len(left) + 16), batches, left.rstrip(b"\0")

    trials.all(trials.taken, (torn(f"an append cut off after {length} bytes", frame[:length]) for length in range(len(frame))))
    trials.all(trials.taken, (torn(f"byte {at} of an append changed", frame[:at] + bytes([frame[at] ^ 255]) + frame[at + 1:]) for at in range(len(frame))))


def tries_a_damaged_front(trials, content):
    """`state --front` lists what the batches before the damage stand for, as `state` does of a file that has no others."""
    batches, begins = batches_of(content), places(content)
    for number in (0, 1, 20, len(batches) - 1):
        at = begins[number] + 8
        damaged = trials.file_of(content[:at] + bytes([content[at] ^ 1]) + content[at + 1:], f"{trials.room}/damaged")
        told = trials.run("state", "--front", damaged)
        whole = trials.run("state", trials.file_of(file_of(batches[:number])))
        if told.returncode or told.stdout.split('"age"')[0] != whole.stdout.split('"age"')[0]:
            trials.wrong(f"a front of {number} batches", f"status {told.returncode}, {told.stderr!r}, {told.stdout[-200:]!r}, not {whole.stdout[-200:]!r}")


def drawn_change(chance, content):
    """The bytes with some of them changed, left out, or put in."""
    changed = bytearray(content)
    for _ in range(chance.choice([1, 1, 1, 2, 5, 40])):
        at = chance.randrange(len(changed) + 1)
        kind = chance.randrange(4)
        if kind == 0 and at < len(changed):
            changed[at] ^= 1 << chance.randrange(8)
        elif kind == 1:
            changed[at:at + chance.choice([1, 2, 4, 50])] = b""
        elif kind == 2:
            changed[at:at] = chance.randbytes(chance.choice([1, 2, 4, 50]))
        else:
            other = chance.randrange(len(changed) + 1)
            changed[at:at + 40] = changed[other:other + 40]
        if not changed:
            break
    return bytes(changed)


def tries_draws(trials, content, chance, draws):
    """What was changed at random is refused by name, or taken with some first batches of the file, and then nothing is gone:
    the rest stands beside it."""
    def tried(what, changed):
        came = trials.outcome(changed)
        if came.status is not None:
            if came.status != 2 or not any(is_named(came.lines, name) for name in OF_BYTES) or came.files != {"state": changed}:
                trials.wrong(what, f"status {came.status}, {came.lines}, {sorted(came.files)}")
            return
        taken.append(what)
        found, kept = without_marks(batches_of(came.files["state"])), without_marks(batches_of(content))
        front = next((n for n, pair in enumerate(zip(found, kept)) if pair[0] != pair[1]), min(len(found), len(kept)))
        if front < len(kept) and not changed.rstrip(b"\0").endswith(came.files.get("state.torn") or b"none"):
            trials.wrong(what, f"{front} of {len(kept)} batches, and the rest is nowhere")

    taken = []
    trials.all(tried, [(f"change {number}", drawn_change(chance, content)) for number in range(draws)])
    trials.all(tried, [(f"drawn bytes {number}", chance.randbytes(chance.randrange(200))) for number in range(draws // 4)])
    print(f"of {draws + draws // 4} files of other bytes {len(taken)} were taken, all others refused by name", flush=True)


def tries_the_first_kind(trials, content):
    """A file of the first version is told as that and left."""
    old = trials.file_of(first_kind_of(batches_of(content)))
    trials.refused("a file of the first version", bytes_of(old), "Version 1")
    trials.refused("one that is cut off in its first batch", bytes_of(old)[:40], "NotState")


def tries_moments(trials, content, registry):
    """A mark is no change, and an empty file has no moment. What is not of this program's batches is refused."""
    last = max(thing["last"] for thing in trials.listed("a file", trials.file_of(content)) if thing["kind"] == "file")
    marked = trials.file_of(file_of([*batches_of(content), mark_of(last + 500)]))
    told = trials.listed("a marked file", marked)
    if told[-1]["last"] < last + 500 or told[-1]["batches"] != len(batches_of(content)) + 1:
        trials.wrong("a marked file", f"{told[-1]}")
    rules = rules_of(registry)
    trials.taken("a file of rules", file_of([rules]), [rules])
    trials.refused("a mark that is too long", file_of([rules, mark_of(last) + b"\0"]), "Spelling")
    for kind in (2, 7):
        trials.refused("a batch of another version", file_of([rules, bytes([kind])]), "Spelling")
    trials.refused("changes without rules", file_of([changes_of([(last, consented(1, 1, 1))])]), "NoRules")


def tries_what_is_left(trials, registry):
    """What is left of a list says up to which number families were: the next one has a greater number. A token may stand in it of
    a family of which nothing is unexpired then."""
    now = int(time.time())
    issued = [(now + at, token_issued(7, 1, 0, "access", bytes([digest]) * 32, 1, life)) for at, digest, life in [(-20, 1, 10), (0, 2, 300)]]
    path = trials.file_of(file_of([rules_of(registry), changes_of([*issued, (now, numbered(900))])]))
    begun, client = trials.served("what is left of a list", path)
    client.own_token()
    begun.end()
    families = [(thing["family"], thing["client"]) for thing in trials.listed("what is left of a list", path) if thing["kind"] == "family"]
    if sorted(families) != [(7, "app"), (901, "bot")]:
        trials.wrong("what is left of a list", f"families {families}")


def grants(things):
    """The codes and tokens of what was listed."""
    return [thing for thing in things if thing["kind"] in ("code", "access", "refresh")]


def good(things):
    """How many of them are good: neither used up nor of a family that has ended."""
    ended = {thing["family"] for thing in things if thing["kind"] == "family" and thing["ended"]}
    return sum(1 for thing in grants(things) if not thing["spent"] and thing["family"] not in ended)


def given_to(client, things):
    """What is listed of a client's families."""
    own = {thing["family"] for thing in things if thing["kind"] == "family" and thing["client"] == client}
    return [thing for thing in things if thing.get("family") in own]


def under(trials, what, registry, path):
    """The file is taken under this registry: what the start told."""
    config = f"{trials.room}/another.json"
    with open(config, "w") as own:
        json.dump(registry, own)
    before = bytes_of(path)
    would = trials.run("registry", config, "--state", path)
    if would.returncode or bytes_of(path) != before:
        trials.wrong(what, f"what it would end: status {would.returncode}, {would.stderr!r}, or the file was changed")
    told = trials.served(what, path, registry=config)[0].end()
    count = told.removeprefix("oauthd: state: ").removesuffix(f"{ENDED}\n") or "0"
    if would.stdout != f"{count}{WOULD_END}\n":
        trials.wrong(what, f"it said {told!r}, and before {would.stdout!r}")
    return told


def tries_narrower_registries(trials, content, registry):
    """Under a registry that allows less, what goes beyond it has ended, and nothing else; under any other, nothing. Another name is refused."""
    app, others = registry["clients"][0], registry["clients"][1:]
    path = trials.file_of(content)
    before = trials.listed("before", path)

    told = under(trials, "as it was", registry, path)
    if told or trials.listed("as it was", path)[:-1] != before[:-1]:
        trials.wrong("as it was", f"{told!r}, or something has ended")
    told = under(trials, "longer lives", dict(registry, refresh_life=registry["refresh_life"] + 1), path)
    if told or len(trials.listed("longer lives", path)) != len(before):
        trials.wrong("longer lives", f"{told!r}, or something has ended")

    path = trials.file_of(content)
    told = under(trials, "shorter lives", dict(registry, access_life=200), path)
    after = trials.listed("shorter lives", path)
    lives = [thing["life"] for thing in after if thing["kind"] == "access"]
    if told != f"oauthd: state: 0{ENDED}\n" or len(grants(after)) != len(grants(before)) or set(lives) != {200}:
        trials.wrong("shorter lives", f"{told!r}, {len(grants(before))} and {len(grants(after))} codes and tokens, lives {lives}")

    less = dict(registry, access_life=200, clients=[dict(app, scope="write"), *others])
    gone = good(given_to(app["id"], before))
    told = under(trials, "fewer scopes", less, path)
    after = trials.listed("fewer scopes", path)
    left = grants(given_to(app["id"], after))
    consents_then = [[thing for thing in things if thing["kind"] == "consent"] for things in (before, after)]
    if told != f"oauthd: state: {gone}{ENDED}\n" or left or consents_then[0] != consents_then[1]:
        trials.wrong("fewer scopes", f"{told!r}, {gone} were good, now {after}")

    for what, rules in [("the same once more", less), ("the first registry again", registry)]:
        told = under(trials, what, rules, path)
        if told or len(grants(trials.listed(what, path))) != len(grants(after)):
            trials.wrong(what, f"{told!r}, or something was revived")

    moved = dict(less, clients=[dict(app, id="other", scope="write"), *others])
    with open(f"{trials.room}/another.json", "w") as own:
        json.dump(moved, own)
    path, kept = trials.file_of(content), content
    trials.path_refused("another name", path, f"ClientMoved {app['id']}", registry=f"{trials.room}/another.json")
    if bytes_of(path) != kept:
        trials.wrong("another name", "refused, and the file was written")


def granted(now, family, owner):
    """Changes: the owner consents, and a code is given and used for a token, whose digest is full of the owner's number."""
    code, token = bytes([100 + owner]) * 32, bytes([owner]) * 32
    texts = ("https://app.example/cb", "")
    return [(now, it) for it in (consented(owner, 1, 1), code_given(family, 1, owner, 1, *texts, code), spent(code),
                                 token_issued(family, 1, owner, "access", token, 1, 300))]


def tries_other_owners(trials, registry):
    """What an owner granted ends who is left out, and nobody else's. One at another place, and another one at a place, is refused."""
    now = int(time.time())
    ann, bob, cat = ({"key": f"{name}-key", "sub": name} for name in ("ann", "bob", "cat"))

    def with_owners(*owners):
        return {name: value for name, value in registry.items() if name != "gateway"} | {"owners": owners}

    def numbers(*owners):
        return with_owners(*(dict(owner, number=number) for number, owner in owners))

    def left(path):
        things = trials.listed("other owners", path)
        return sorted(it["owner"] for it in things if it["kind"] == "consent"), sorted(it["digest"] for it in things if it["kind"] == "access")

    def file_under(told):
        return trials.file_of(file_of([rules_of(told), changes_of(granted(now, 1, 1) + granted(now, 2, 2))]))

    places, both = with_owners(ann, bob), ([1, 2], ["01010101", "02020202"])
    for what, wanted, rules in [("owners who changed places", 1, with_owners(bob, ann)), ("one left out, one behind", 1, with_owners(bob, cat)),
                                ("the last one left out", 2, with_owners(ann)), ("one called otherwise", 2, with_owners(ann, dict(bob, sub="rob")))]:
        with open(f"{trials.room}/another.json", "w") as own:
            json.dump(rules, own)
        path = file_under(places)
        before = bytes_of(path)
        trials.path_refused(what, path, f"OwnerMoved {wanted}", registry=f"{trials.room}/another.json")
        if bytes_of(path) != before:
            trials.wrong(what, "refused, and the file was written")

    path = file_under(places)
    stated = numbers((2, bob), (3, cat), (1, ann))
    for what, rules in [("another key", with_owners(ann, dict(bob, key="bob-other-key"))), ("one more", with_owners(ann, bob, cat)), ("numbers stated", stated)]:
        told = under(trials, what, rules, path)
        if told or left(path) != both:
            trials.wrong(what, f"{told!r}, {left(path)}")
    told = under(trials, "one with a number left out", numbers((3, cat), (2, bob)), path)
    if told != f"oauthd: state: 1{ENDED}\n" or left(path) != ([2], ["02020202"]):
        trials.wrong("one with a number left out", f"{told!r}, {left(path)}")
    told = under(trials, "it comes again", stated, path)
    if left(path) != ([2], ["02020202"]):
        trials.wrong("it comes again", f"{told!r}, {left(path)}")


def main():
    program, given = sys.argv[1:3]
    draws, names = int((sys.argv[3:] + ["400"])[0]), sys.argv[4:]
    seed = int(os.environ.get("SEED", secrets.randbits(32)))
    print(f"seed {seed}", flush=True)
    with open(given) as text:
        registry = dict(json.load(text), access_life=LIFE, refresh_life=LIFE)
    with tempfile.TemporaryDirectory() as room:
        with open(f"{room}/registry.json", "w") as own:
            json.dump(registry, own)
        program = shutil.copy(program, f"{room}/oauthd")
        for path, mode in [(room, 0o755), (program, 0o755), (f"{room}/registry.json", 0o644)]:
            os.chmod(path, mode)
        trials = Trials(program, f"{room}/registry.json", room)
        content = worked_on(trials)
        all_trials = [
            (tries_narrower_registries, content, registry), (tries_the_first_kind, content), (tries_moments, content, registry),
            (tries_what_is_left, registry), (tries_other_owners, registry),
            (state_paths.tries_new_files,), (state_paths.tries_other_files,), (state_paths.tries_what_is_no_file, content),
            (state_paths.tries_two_names,), (state_paths.tries_moved_away,), (state_paths.tries_owners, content), (state_paths.tries_order,),
            *((it,) for it in state_clocks.all_trials()), *((it, content) for it in state_disks.all_trials()),
            (tries_a_damaged_front, content), (tries_every_byte, content), (tries_every_front, content), (tries_draws, content, random.Random(seed), draws),
        ]
        for trial, *given in all_trials:
            if names and not any(name in trial.__name__ for name in names):
                continue
            try:
                trial(trials, *given)
            except NotServed as fault:
                trials.faults.append(str(fault))
        for it in trials.faults[:20]:
            print(it)
        print(f"{len(trials.faults)} not as wanted")
        return 1 if trials.faults else 0


if __name__ == "__main__":
    sys.exit(main())
