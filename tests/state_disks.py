"""Trials of state files in use: a long round, copies that are taken meanwhile, and disks that refuse something: no room to append, no
room for a shorter file, a file that is mounted by itself. Those want root, and mount what they need."""

import contextlib
import os
import signal
import socket
import subprocess
import threading
import time

from crashes import Client, Gone, consents
from state_format import batches_of, size_of
from state_trials import bytes_of, is_named

# It is told once that the file cannot be shortened.
LONG = "oauthd: state: the file cannot be shortened; it grows until that works"
# Once that it wants room, while what was reserved serves.
FULL = "oauthd: state: no room on the disk; what was reserved serves until it is used up"
# It ends where there is no room for one batch more.
NO_ROOM = "oauthd: stopped: State: NoRoom: no storage space"
# In so many seconds a server that nobody asks has gone over a file of a megabyte.
SLICES = 5

# A hook that is as long as one may be: it takes 32,768 bytes in the file.
LONGEST_HOOK = bytes.fromhex("b700000001000000") * 4095 + bytes.fromhex("9500000000000000")


@contextlib.contextmanager
def disk_of(trials, size):
    """A disk of that size, in memory."""
    disk = f"{trials.room}/disk"
    os.makedirs(disk, exist_ok=True)
    subprocess.run(["mount", "-t", "tmpfs", "-o", f"size={size}", "tmpfs", disk], check=True)
    try:
        yield disk
    finally:
        subprocess.run(["umount", "-l", disk], check=True)


def resize(disk, size):
    subprocess.run(["mount", "-o", f"remount,size={size}", disk], check=True)


def asks_again(trials, what, path, client):
    """A server starts on the path, and all that was acknowledged to the client is there."""
    begun, other = trials.served(what, path)
    client.server, client.connection = other.server, None
    asked, lost = client.faults()
    for it in lost:
        trials.wrong(what, it)
    print(f"{what}: {asked} tokens were asked for again", flush=True)
    begun.end()


def until_it_stops(begun, client):
    """Asks for grants until the server ends: what it said."""
    try:
        while True:
            client.begin()
    except Gone:
        return begun.process.wait(timeout=20), begun.process.stderr.read().splitlines()


def hook_request(name, body):
    """A request that installs the longest hook, or removes one."""
    if body:
        head = f"POST /hooks?name={name} HTTP/1.1\r\n"
    else:
        head, body = "POST /hooks/remove HTTP/1.1\r\n", f"name={name}".encode()
    return f"{head}Host: a\r\nX-Operator-Key: op-key\r\nContent-Length: {len(body)}\r\n\r\n".encode() + body


def tries_a_long_round(trials, _):
    """More than a megabyte of changes is kept in one round: 64 connections end their requests while the server stands still, every
    other one a hook of 32,768 bytes, which the next one removes."""
    path = trials.make(f"{trials.room}/round")
    begun, client = trials.served("a long round", path)
    requests = [hook_request("passing", LONGEST_HOOK if number % 2 == 0 else b"") for number in range(64)]
    streams = [socket.create_connection(client.server.address) for _ in requests]
    for stream, request in zip(streams, requests):
        stream.sendall(request[:-1])
        time.sleep(0.02)
    os.kill(begun.process.pid, signal.SIGSTOP)
    for stream, request in zip(streams, requests):
        stream.sendall(request[-1:])
    os.kill(begun.process.pid, signal.SIGCONT)
    heads = [stream.recv(4096)[:15] for stream in streams]
    longest = max(map(len, batches_of(bytes_of(path))))
    told = begun.end()
    print(f"a long round: {heads.count(b'HTTP/1.1 200 OK')} replies with 200, a batch of {longest} bytes", flush=True)
    if told or b"" in heads:
        trials.wrong("a long round", f"{told!r}, {heads}")


def tries_copies(trials, _):
    """A copy that is taken while clients work has all that the file had when the copying began, or it met a write and is refused as
    damaged: then the next one is good."""
    path, copy = trials.make(f"{trials.room}/copied"), f"{trials.room}/copy"
    begun, client = trials.served("a file that is copied", path)
    consents(client, "read")
    workers = [threading.Thread(target=Client(client.server, number).work) for number in range(8)]
    for worker in workers:
        worker.start()
    copies, refused = [], 0
    while size_of(bytes_of(path)) < 400000:
        before = len(batches_of(bytes_of(path)))
        subprocess.run(["cp", path, copy], check=True)
        done = trials.run("state", copy)
        if done.returncode == 0:
            copies.append((before, batches_of(bytes_of(copy))))
        elif is_named(done.stderr.splitlines(), "Damaged"):
            refused += 1
        else:
            trials.wrong("a copy", done.stderr)
    begun.end()
    for worker in workers:
        worker.join()
    whole = batches_of(bytes_of(path))
    for before, batches in copies:
        if len(batches) < before or batches != whole[:len(batches)]:
            trials.wrong("a copy", f"of {before} batches or more {len(batches)} are there, or they are others")
    print(f"{len(copies)} copies of a file in use were good, {refused} met a write", flush=True)


def installs(client, name):
    status, _, body = client.ask("POST", f"/hooks?name={name}", body=LONGEST_HOOK, headers={"X-Operator-Key": "op-key"})
    assert status == 200, (status, body)


def removes(client, name):
    status, _, body = client.ask("POST", "/hooks/remove", {"name": name}, {"X-Operator-Key": "op-key"})
    assert status == 200, (status, body)


def grows_to(client, path, size):
    """The file's frames are as long, by a hook that comes and goes."""
    while size_of(bytes_of(path)) < size:
        installs(client, "passing")
        removes(client, "passing")


def gets_short(trials, what, path, size):
    """A server on the file shortens it, some of it in each round, to frames of fewer bytes."""
    begun, _ = trials.served(what, path)
    until = time.monotonic() + 20
    while size_of(bytes_of(path)) > size and time.monotonic() < until:
        time.sleep(0.1)
    told = begun.end()
    if told or size_of(bytes_of(path)) > size or os.path.exists(f"{path}.next"):
        trials.wrong(what, f"{told!r}, still {size_of(bytes_of(path))} bytes")


def tries_a_full_disk(trials, _):
    """On a full disk the zeros serve that were written ahead, of which it tells once; then the server stops, says so, and what it
    acknowledged is there once there is room."""
    with disk_of(trials, "1100k") as disk:
        path = trials.make(f"{disk}/state")
        begun, client = trials.served("a small disk", path)
        consents(client, "read")
        grows_to(client, path, 900000)
        status, told = until_it_stops(begun, client)
        if status != 2 or told[-1:] != [NO_ROOM] or sorted(told[:-1]) not in ([FULL], [FULL, LONG]):
            trials.wrong("a full disk", f"status {status}, {told}")
        full = bytes_of(path)
        if len(full) - size_of(full) > 500:
            trials.wrong("a full disk", f"{len(full) - size_of(full)} bytes behind the frames did not serve")
        trials.path_refused("a start on a full disk", path, "Device")
        if bytes_of(path) != full or sorted(os.listdir(disk)) != ["state", "state.lock"]:
            trials.wrong("a start on a full disk", f"something was written: {os.listdir(disk)}")
        resize(disk, "4m")
        asks_again(trials, "a disk that was full", path, client)


def tries_less_room_than_zeros(trials, _):
    """Where less than a megabyte is free, the file grows by what a batch needs, until the disk is full."""
    with disk_of(trials, "600k") as disk:
        path = trials.make(f"{disk}/state")
        begun, client = trials.served("a disk of less than a megabyte", path)
        consents(client, "read")
        grows_to(client, path, 400000)
        status, told = until_it_stops(begun, client)
        if status != 2 or told[-1:] != [NO_ROOM]:
            trials.wrong("less room than zeros", f"status {status}, {told}")
        full = bytes_of(path)
        if size_of(full) < 500000 or len(full) - size_of(full) > 500:
            trials.wrong("less room than zeros", f"{size_of(full)} bytes, and {len(full) - size_of(full)} behind them did not serve")
        resize(disk, "4m")
        asks_again(trials, "a disk of less than a megabyte that was full", path, client)


def tries_no_room_to_shorten(trials, _):
    """Where there is no room for a shorter file, the server says so once and goes on appending; once there is room, it gets short."""
    with disk_of(trials, "2200k") as disk:
        path = trials.make(f"{disk}/state")
        begun, client = trials.served("a disk for a shorter file", path)
        consents(client, "read")
        for number in range(7):
            installs(client, f"kept-{number}")
        grows_to(client, path, 2000000)
        status, told = until_it_stops(begun, client)
        if status != 2 or told[-1:] != [NO_ROOM] or sorted(told[:-1]) != [FULL, LONG]:
            trials.wrong("no room to shorten", f"status {status}, {told}")
        if size_of(bytes_of(path)) < 2000000 or os.path.exists(f"{path}.next"):
            trials.wrong("no room to shorten", f"{size_of(bytes_of(path))} bytes; {os.listdir(disk)}")
        resize(disk, "8m")
        asks_again(trials, "no room to shorten, and then room", path, client)
        gets_short(trials, "room to shorten", path, 500000)


def tries_a_file_mounted_by_itself(trials, content):
    """No start where the file cannot be renamed over; a server that runs goes on, and does not shorten."""
    with disk_of(trials, "8m") as disk:
        path = trials.file_of(content, f"{disk}/state")
        subprocess.run(["mount", "--bind", path, path], check=True)
        trials.path_refused("a file mounted by itself", path, "Device")
        if bytes_of(path) != content or sorted(os.listdir(disk)) != ["state", "state.lock"]:
            trials.wrong("a file mounted by itself", f"something was written: {os.listdir(disk)}")
        subprocess.run(["umount", path], check=True)

        begun, client = trials.served("a file before it is mounted", path)
        consents(client, "read")
        subprocess.run(["mount", "--bind", path, path], check=True)
        grows_to(client, path, 1300000)
        for _ in range(20):
            client.begin()
        time.sleep(SLICES)
        subprocess.run(["umount", path], check=True)
        told = begun.end().splitlines()
        if told != [LONG] or size_of(bytes_of(path)) < 1300000 or os.path.exists(f"{path}.next"):
            trials.wrong("a file mounted while it is in use", f"{told}, {size_of(bytes_of(path))} bytes")
        gets_short(trials, "a file that was mounted by itself", path, 100000)
        asks_again(trials, "a file that was mounted by itself", path, client)


def all_trials():
    if os.geteuid() != 0:
        print("full disks and mounts were not tried: that wants root")
        return [tries_a_long_round, tries_copies]
    full = [tries_a_full_disk, tries_less_room_than_zeros, tries_no_room_to_shorten]
    return [tries_a_long_round, tries_copies, *full, tries_a_file_mounted_by_itself]
