"""What the trials of state files share: they start the program on a file, look at what it says and at what it leaves, and count
what came out otherwise than wanted."""

import json
import os
import signal
import subprocess
import tempfile
from concurrent.futures import ThreadPoolExecutor
from dataclasses import dataclass

from crashes import Client, Gone, Refused, Server
from state_format import batches_of, without_mark

# Tokens live for so many seconds, so that none expires while a trial runs.
LIFE = 3000

# A server that neither listens nor ends within so many seconds hangs.
PATIENCE = 100


class NotServed(Exception):
    """No server started where one should."""


@dataclass
class Start:
    """A start of a server: the line that it listens, or none, with its status and what it wrote to standard error."""
    process: subprocess.Popen
    line: str
    status: int | None = None
    told: str = ""

    def end(self):
        """Kills the server: what it wrote to standard error."""
        self.process.send_signal(signal.SIGKILL)
        return self.process.communicate()[1]


def gone(begun, client, asks=Client.own_token):
    """A server that ends by itself once it is asked: its status, and what it wrote to standard error."""
    try:
        asks(client)
    except (Gone, Refused, OSError):
        pass
    try:
        told = begun.process.communicate(timeout=PATIENCE)[1]
    except subprocess.TimeoutExpired:
        return "goes on", begun.end()
    return begun.process.returncode, told


@dataclass
class Outcome:
    """What a start on some bytes came to: its status, none where the server listened, its lines, and what then stood in the folder."""
    status: int | None
    lines: list[str]
    files: dict[str, bytes]


class Trials:
    """What is tried, and what came out otherwise than wanted."""

    def __init__(self, program, registry, room):
        self.program, self.registry, self.room = program, registry, room
        self.faults = []

    def wrong(self, what, told):
        self.faults.append(f"{what}: {told}")

    def run(self, *words, **others):
        """A command that ends by itself."""
        return subprocess.run([self.program, *words], capture_output=True, text=True, timeout=PATIENCE, **others)

    def make(self, path):
        """Makes an empty state file."""
        done = self.run("state", "--new", path)
        if done.returncode:
            raise NotServed(f"no state file is made: {done.stderr}")
        return path

    def start(self, path, *options, run_as=(), registry=None, **others):
        """Starts a server on the path."""
        words = [*run_as, self.program, "start", "127.0.0.1:0", registry or self.registry, "--state", path, *options]
        process = subprocess.Popen(words, stdout=subprocess.PIPE, stderr=subprocess.PIPE, text=True, **others)
        line = process.stdout.readline()
        if line:
            return Start(process, line)
        try:
            status = process.wait(timeout=PATIENCE)
        except subprocess.TimeoutExpired:
            process.kill()
            status = "hangs"
        return Start(process, "", status, process.stderr.read())

    def served(self, what, path, *options, **others):
        """A server on the path that has to start, and a client of it."""
        begun = self.start(path, *options, **others)
        if not begun.line:
            raise NotServed(f"{what}: not taken: status {begun.status}, {begun.told!r}")
        server = Server(self.program, self.registry, path)
        server.take(begun.process, begun.line)
        return begun, Client(server, 2)

    def outcome(self, content):
        """What a start on a file of these bytes comes to, in a folder of its own. The lock's file is not looked at."""
        with tempfile.TemporaryDirectory(dir=self.room) as folder:
            path = self.file_of(content, f"{folder}/state")
            begun = self.start(path)
            told = begun.end() if begun.line else begun.told
            return Outcome(begun.status, told.splitlines(), {name: bytes_of(f"{folder}/{name}") for name in os.listdir(folder) if name != "state.lock"})

    def file_of(self, content, path=None):
        path = path or f"{self.room}/tried"
        with open(path, "wb", opener=lambda name, flags: os.open(name, flags, 0o600)) as to:
            to.write(content)
        return path

    def taken(self, what, content, batches, torn=b""):
        """A server starts on these bytes, with these batches; what a write that was not finished left is put aside, and told."""
        came = self.outcome(content)
        if came.status is not None:
            return self.wrong(what, f"not taken: status {came.status}, {came.lines}")
        wanted = without_marks(batches)
        if without_marks(batches_of(came.files["state"]))[:len(wanted)] != wanted:
            self.wrong(what, "its batches are others")
        if came.files.get("state.torn", b"") != torn:
            self.wrong(what, f"{len(torn)} bytes were torn, but aside are {came.files.get('state.torn')!r}")
        if [str(len(torn)) in line for line in came.lines] != ([True] if torn else []):
            self.wrong(what, f"{len(torn)} bytes were torn, and it said {came.lines}")

    def refused(self, what, content, wanted):
        """No server starts on these bytes, it is said why, in one line, and nothing is written. `state FILE` says the same."""
        came = self.outcome(content)
        if came.status != 2 or not is_named(came.lines, wanted):
            self.wrong(what, f"wanted {wanted!r}: status {came.status}, {came.lines}")
        if came.files != {"state": content}:
            self.wrong(what, f"refused, and yet something was written: {sorted(came.files)}")

    def path_refused(self, what, path, wanted, **others):
        """No server starts on this path, and it is said why."""
        begun = self.start(path, **others)
        if begun.line:
            begun.end()
        if begun.status != 2 or not is_named(begun.told.splitlines(), wanted, path):
            self.wrong(what, f"wanted {wanted!r}: status {begun.status}, {begun.told!r}")

    def listed(self, what, path):
        """What `state` lists of a file, a line of JSON for each thing, and the last one for the file; nothing is written."""
        before = bytes_of(path)
        done = self.run("state", path)
        lines = [json.loads(line) for line in done.stdout.splitlines()]
        if done.returncode or done.stderr or not lines or lines[-1]["kind"] != "file" or lines[-1]["bytes"] != len(before):
            self.wrong(what, f"not listed: status {done.returncode}, {done.stderr!r}, {done.stdout[-200:]!r}")
            return [{"kind": "file", "batches": 0, "bytes": 0, "torn": 0, "last": 0, "age": 0}]
        if bytes_of(path) != before:
            self.wrong(what, "changed by being listed")
        return lines

    def all(self, trial, rows):
        """One trial for each row, some at a time."""
        with ThreadPoolExecutor(os.cpu_count()) as workers:
            for done in [workers.submit(trial, *row) for row in rows]:
                done.result()


def without_marks(batches):
    """What the batches tell but moments, since a server adds such."""
    return [batch for batch in map(without_mark, batches) if batch]


def is_named(lines, wanted, path=""):
    """Whether this is one line that says `oauthd: State`, the name and then the path."""
    said = f"oauthd: State {wanted}"
    return len(lines) == 1 and lines[0].startswith(said) and lines[0][len(said):][:1] in (":", " ") and path in lines[0]


def bytes_of(path):
    with open(path, "rb") as file:
        return file.read()
