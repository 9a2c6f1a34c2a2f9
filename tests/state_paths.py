"""Trials of state files: what `--new` makes, files of other programs, things that are no files, and one file under two names."""

import os
import shutil
import signal
import sqlite3

from state_format import HEADER
from state_trials import bytes_of, gone, is_named


def tries_new_files(trials):
    """`--new` makes a file where nothing is, and nothing else; a server starts on it, and on nothing that `--new` has not made."""
    path = trials.make(f"{trials.room}/made")
    if bytes_of(path) != HEADER + b"\0" or os.stat(path).st_mode & 0o7777 != 0o600:
        trials.wrong("a new file", f"{bytes_of(path)!r}, mode {os.stat(path).st_mode:o}")
    trials.served("a new file", path)[0].end()
    kept = bytes_of(path)
    os.symlink(f"{trials.room}/nowhere", f"{trials.room}/dangling")
    for there in (path, trials.room, f"{trials.room}/dangling", f"{trials.room}/missing/state"):
        done = trials.run("state", "--new", there)
        if done.returncode != 2 or done.stderr.count("\n") != 1 or bytes_of(path) != kept or os.path.exists(f"{trials.room}/nowhere"):
            trials.wrong(f"a new file at {there}", f"status {done.returncode}, {done.stderr!r}")


def others(trials):
    """The bytes of other programs' files, by what they are."""
    database = sqlite3.connect(f"{trials.room}/database")
    database.execute("create table tokens (digest blob, life integer)")
    database.commit()
    database.close()
    return {"an empty file": b"", "a registry": bytes_of(trials.registry), "a database": bytes_of(f"{trials.room}/database"),
            "a program": bytes_of(trials.program)[:100000], "zeros": bytes(4096), "a zero": b"\0", "a text": b"oauthd state\n",
            "another word": b"oauthd state vx\n\0", "half a header": HEADER[:9], "many ones": b"\1" * 4}


def tries_other_files(trials):
    """No other program's file is taken for a state file. `state FILE` says so, too."""
    for what, content in others(trials).items():
        trials.refused(what, content, "NotState")
        done = trials.run("state", trials.file_of(content))
        if done.returncode != 2 or not is_named(done.stderr.splitlines(), "NotState"):
            trials.wrong(f"state of {what}", f"status {done.returncode}, {done.stderr!r}")
    for digit in "012456789":
        content = HEADER.replace(b"3", digit.encode()) + bytes(40)
        trials.refused(f"version {digit}", content, f"Version {digit}")
    own = shutil.copy(trials.registry, f"{trials.room}/own.json")
    os.chmod(own, 0o600)
    before = bytes_of(own)
    trials.path_refused("the registry itself", own, "NotState", registry=own)
    if bytes_of(own) != before:
        trials.wrong("the registry itself", "was written to")


def tries_what_is_no_file(trials, content):
    """What is there has to be a file with one name, that nobody else may write."""
    room = f"{trials.room}/paths"
    os.mkdir(room)
    state = trials.file_of(content, f"{room}/state")
    os.symlink(state, f"{room}/link")
    os.symlink("nowhere", f"{room}/dangling")
    os.mkfifo(f"{room}/pipe", 0o600)
    os.mkdir(f"{room}/folder")
    for name, wanted in [("missing", "Missing"), ("folder", "NotAFile"), ("pipe", "NotAFile"), ("link", "Link"), ("dangling", "Link"),
                         ("missing/state", "Missing"), ("state/state", "Open: not a directory")]:
        trials.path_refused(name, f"{room}/{name}", wanted)
        if sorted(os.listdir(room)) != sorted(["state", "link", "dangling", "pipe", "folder"] + [it for it in os.listdir(room) if it.endswith(".lock")]):
            trials.wrong(name, f"something was made: {os.listdir(room)}")
    for device in ("/dev/null", "/dev/full", "/dev/zero"):
        trials.path_refused(device, device, "NotAFile")
    for mode in (0o660, 0o606, 0o622, 0o666):
        os.chmod(state, mode)
        trials.path_refused(f"mode {mode:o}", state, "WritableByOthers")
    os.chmod(state, 0o600)
    os.link(state, f"{room}/second")
    trials.path_refused("a second name", state, "SecondLink")
    trials.path_refused("the second name", f"{room}/second", "SecondLink")
    os.remove(f"{room}/second")
    if bytes_of(state) != content:
        trials.wrong("paths", "a refused start wrote")


def tries_two_names(trials):
    """While a server holds a file, no other one starts on it, whatever name leads there."""
    room = f"{trials.room}/names"
    os.makedirs(f"{room}/folder/below")
    state = trials.make(f"{room}/folder/state")
    os.symlink(f"{room}/folder", f"{room}/way")
    begun, _ = trials.served("a file", state)
    os.symlink(state, f"{room}/link")
    for name, wanted in [("folder/state", "InUse"), ("way/state", "InUse"), ("folder/below/../state", "InUse"), ("folder//./state", "InUse"), ("link", "Link")]:
        trials.path_refused(f"a file in use, as {name}", f"{room}/{name}", wanted)
    trials.path_refused("a file in use, from its folder", "state", "InUse", cwd=f"{room}/folder", registry=trials.registry)
    os.link(state, f"{room}/second")
    trials.path_refused("a file in use, as a second name", f"{room}/second", "SecondLink")
    begun.end()
    trials.path_refused("a file with a second name", state, "SecondLink")
    os.remove(f"{room}/second")


def tries_moved_away(trials):
    """A server whose file or lock is moved, removed or another one acknowledges nothing more, and ends by that name."""
    def moved(path):
        os.rename(path, f"{path}.away")

    def linked(path):
        moved(path)
        os.symlink(f"{path}.away", path)

    def another(path):
        moved(path)
        shutil.copy(f"{path}.away", path)

    for name in ("", ".lock"):
        for number, away in enumerate((moved, another, os.remove) if name else (moved, linked, another, os.remove)):
            path = trials.make(f"{trials.room}/{'unlocked' if name else 'moved'}{number}")
            begun, client = trials.served("a file that will move", path)
            token, kept = client.own_token(), bytes_of(path)
            away(path + name)
            status, told = gone(begun, client)
            if (status, told) != (2, "oauthd: stopped: State: Displaced\n"):
                trials.wrong(f"state{name}: {away.__name__}", f"status {status}, {told!r}")
            if away is os.remove and not name:
                continue
            if os.path.lexists(f"{path}.away"):
                os.replace(f"{path}.away", path)
            if bytes_of(path) != kept:
                trials.wrong(f"state{name}: {away.__name__}", "it was written to")
            begun, client = trials.served("a file that is back", path)
            if not client.is_active(token):
                trials.wrong(f"state{name}: {away.__name__}", "a token is gone")
            begun.end()


def tries_owners(trials, content):
    """A file that takes another's place has its owner, its group and its mode. Who may not write the folder is refused."""
    if os.geteuid() != 0 or not shutil.which("setpriv"):
        return print("other owners were not tried: that wants root, and setpriv")
    room = f"{trials.room}/owners"
    os.mkdir(room)
    state = trials.file_of(content, f"{room}/state")
    for owner, group, mode in [(65534, 65534, 0o600), (65534, 0, 0o640), (0, 65534, 0o400), (1, 2, 0o644)]:
        os.chown(state, owner, group)
        os.chmod(state, mode)
        inode = os.stat(state).st_ino
        trials.served(f"owner {owner}", state)[0].end()
        now = os.stat(state)
        if now.st_ino == inode or (now.st_uid, now.st_gid, now.st_mode & 0o7777) != (owner, group, mode):
            trials.wrong(f"owner {owner}, group {group}, mode {mode:o}", f"another file: {now.st_ino != inode}, {now}")
    os.mkdir(f"{room}/closed", 0o755)
    state = trials.file_of(content, f"{room}/closed/state")
    os.chown(state, 65534, 65534)
    nobody = ["setpriv", "--reuid=65534", "--regid=65534", "--clear-groups"]
    trials.path_refused("a folder of somebody else", state, "Open: permission denied", run_as=nobody)
    trials.file_of(b"", f"{room}/closed/state.lock")
    os.chown(f"{room}/closed/state.lock", 65534, 65534)
    trials.path_refused("a folder of somebody else, with a lock", state, "Device", run_as=nobody)
    if bytes_of(state) != content or sorted(os.listdir(f"{room}/closed")) != ["state", "state.lock"]:
        trials.wrong("a folder of somebody else", "something was written")


def tries_order(trials):
    """The order of the calls of the system: nothing counts before what it rests on is on the disk, and nothing is answered before."""
    if not shutil.which("strace"):
        return print("the order of calls was not tried: there is no strace")
    path, log = trials.make(f"{trials.room}/traced"), f"{trials.room}/trace"
    traced = ["strace", "-f", "-y", "-o", log, "-e", "trace=pwrite64,write,fdatasync,fsync,rename,renameat,renameat2,unlink,sendto"]
    begun, client = trials.served("under strace", path, run_as=traced)
    client.own_token()
    lines = open(log, errors="replace").read().splitlines()
    os.kill(int(lines[0].split()[0]), signal.SIGKILL)       # the server: strace ends with it
    begun.process.wait()
    calls = [deed for deed in map(deed_of, lines) if deed]
    wanted = {"a start": ["write next", "fsync next", "rename", "fsync folder", "listening"],
              "an append": ["fdatasync state", "pwrite state", "fdatasync state", "reply"]}
    for what, order in wanted.items():
        if not any(calls[at:at + len(order)] == order for at in range(len(calls))):
            trials.wrong(f"the order of calls of {what}", f"wanted {order} among {calls}")


def deed_of(line):
    """What a line of strace tells, in a word or two; nothing where it is of no file of ours."""
    name = line.split(maxsplit=1)[-1].split("(")[0]
    if name.startswith("rename"):
        return "rename"
    if name in ("write", "sendto") and "HTTP/1.1 200" in line:
        return "reply"
    if name == "write" and '"listening' in line:
        return "listening"
    for end, what in [("traced.next>", "next"), ("traced>", "state")]:
        if end in line:
            return f"{name.removesuffix('64')} {what}"
    return "fsync folder" if name == "fsync" else None
