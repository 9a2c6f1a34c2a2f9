"""Sees over real sockets that no client of a server can keep another one waiting.

Words: the program, a registry, and the names of the checks to make; without names all are made. Each check starts a
server of its own, prints one line, `ok NAME: what was seen` or `NOT NAME: what was wrong`, and ends that server.
"""

import base64
import fcntl
import json
import os
import resource
import select
import signal
import socket
import struct
import subprocess
import sys
import tempfile
import threading
import time

from server import address_of

PLACES = 64
FAULTY = b"HTTP/1.1 400 Bad Request\r\nContent-Length: 0\r\nConnection: close\r\n\r\n"
NO_PATH = b"GET /a HTTP/1.1\r\n\r\n"
NO_PATH_REPLY = b"HTTP/1.1 404 Not Found\r\nContent-Length: 0\r\n\r\n"
INACTIVE_REPLY = (
    b"HTTP/1.1 200 OK\r\nContent-Type: application/json\r\nCache-Control: no-store\r\nPragma: no-cache\r\n"
    b'Content-Length: 16\r\n\r\n{"active":false}'
)
# Another client waits less long for its reply than this, in seconds, also on a machine in use.
PATIENCE = 0.5

program, registry = sys.argv[1:3]
with open(registry) as text:
    rules = json.load(text)
client = rules["clients"][0]
secrets = [rules["operator"], *rules["owners"], *(each["secret"] for each in rules["clients"])]


def request_of(client, path, body):
    """A request of a client."""
    words = f"{client['id']}:{client['secret']}".encode()
    head = (
        f"POST {path} HTTP/1.1\r\nHost: oauthd\r\n"
        f"Authorization: Basic {base64.b64encode(words).decode()}\r\n"
        f"Content-Type: application/x-www-form-urlencoded\r\nContent-Length: {len(body)}\r\n\r\n"
    )
    return (head + body).encode()


def introspection(token="x"):
    """A request of the first client, about a token that there is not."""
    return request_of(client, "/introspect", f"token={token}")


class Wrong(Exception):
    """What was seen is not what is wanted."""


def want(truth, text):
    if not truth:
        raise Wrong(text)


class Server:
    """A server that runs for one check."""

    def __init__(self, silence=60, full=5, descriptors=None, options=(), errors=None, output=None):
        self.errors = errors or tempfile.TemporaryFile()
        words = [program, "start", "127.0.0.1:0", registry, str(silence), str(full), *options]
        limit = None
        if descriptors is not None:
            limit = lambda: resource.setrlimit(resource.RLIMIT_NOFILE, (descriptors, descriptors))
        self.process = subprocess.Popen(
            words, stdout=output or subprocess.PIPE, stderr=self.errors, preexec_fn=limit
        )
        self.began = time.monotonic()
        line = (self.process.stdout or output.reader).readline().decode()
        if not line.startswith("listening "):
            self.process.kill()
            raise Wrong(f"`{' '.join(words)}` said {line!r} and {self.lines()}")
        self.at = address_of(line)

    def __enter__(self):
        return self

    def __exit__(self, kind, value, trace):
        alive = self.process.poll() is None
        self.process.send_signal(signal.SIGTERM)
        status = self.process.wait()
        if kind is None:
            want(alive, f"the server had ended with {status}: {self.lines()}")
            want(status == -signal.SIGTERM, f"SIGTERM ended it with {status}")
            lines = self.lines()
            seconds = time.monotonic() - self.began
            want(len(lines) <= seconds + 2, f"{len(lines)} lines of standard error in {seconds:.0f} seconds")
            told = [secret for secret in secrets if any(secret in line for line in lines)]
            want(not told, f"standard error has the secrets {told}")

    def lines(self):
        """Its lines of standard error."""
        self.errors.seek(0)
        return self.errors.read().decode().splitlines()

    def connect(self, room=None):
        """A connection; with room for so many bytes that were not read."""
        connection = socket.socket()
        if room is not None:
            connection.setsockopt(socket.SOL_SOCKET, socket.SO_RCVBUF, room)
        connection.settimeout(20)
        connection.connect(self.at)
        connection.setsockopt(socket.IPPROTO_TCP, socket.TCP_NODELAY, 1)
        return connection

    def idle(self, count):
        """So many connections that say nothing."""
        connections = [self.connect() for _ in range(count)]
        self.settle(lambda: self.descriptors() >= count)
        return connections

    def settle(self, is_so, seconds=5):
        """Whether something comes to be so, in some seconds."""
        end = time.monotonic() + seconds
        while not is_so():
            if time.monotonic() > end:
                return False
            time.sleep(0.01)
        return True

    def rests(self, seconds):
        """Whether for some second of so many it has little to do."""
        end = time.monotonic() + seconds
        while time.monotonic() < end:
            before = self.processor_seconds()
            time.sleep(1)
            if self.processor_seconds() - before < 0.5:
                return True
        return False

    def descriptors(self):
        return len(os.listdir(f"/proc/{self.process.pid}/fd"))

    def resident(self):
        """Its memory, in MB."""
        with open(f"/proc/{self.process.pid}/status") as text:
            for line in text:
                if line.startswith("VmRSS:"):
                    return int(line.split()[1]) / 1024
        return 0.0

    def processor_seconds(self):
        with open(f"/proc/{self.process.pid}/stat") as text:
            fields = text.read().rsplit(")", 1)[1].split()
        return (int(fields[11]) + int(fields[12])) / os.sysconf("SC_CLK_TCK")


def receive(connection, count):
    """So many bytes of a connection, or fewer where it ends before."""
    parts = b""
    while len(parts) < count:
        part = connection.recv(count - len(parts))
        if not part:
            break
        parts += part
    return parts


def ask(connection, request=None, reply=INACTIVE_REPLY):
    """Makes a request, and says after how many seconds its reply was there."""
    began = time.monotonic()
    connection.sendall(request or introspection())
    given = receive(connection, len(reply))
    want(given == reply, f"the reply was {given!r}")
    return time.monotonic() - began


def segments(connection):
    """How many segments with bytes came on a connection, as Linux counts them (`tcpi_data_segs_in`)."""
    return struct.unpack_from("I", connection.getsockopt(socket.IPPROTO_TCP, socket.TCP_INFO, 160), 152)[0]


def to_the_end(connection):
    """What comes until the connection ends, and whether it ended in peace."""
    parts = b""
    try:
        while part := connection.recv(65536):
            parts += part
    except ConnectionResetError:
        return parts, False
    return parts, True


def ends_within(connection, seconds):
    """After how many seconds a connection that gets nothing ends, or None."""
    began = time.monotonic()
    connection.settimeout(seconds)
    try:
        want(connection.recv(1) == b"", "bytes came to a client that asked nothing")
    except ConnectionResetError:
        pass
    except TimeoutError:
        return None
    finally:
        connection.settimeout(20)
    return time.monotonic() - began


class Active:
    """A client that asks all the time, beside others."""

    def __init__(self, server):
        self.connection = server.connect()
        self.times = []
        self.fault = None
        self.stop = threading.Event()
        self.thread = threading.Thread(target=self.run)

    def __enter__(self):
        ask(self.connection)
        self.thread.start()
        return self

    def __exit__(self, *_):
        self.stop.set()
        self.thread.join()
        self.connection.close()

    def run(self):
        try:
            while not self.stop.is_set():
                self.times.append(ask(self.connection))
                time.sleep(0.005)
        except (Wrong, OSError) as fault:
            self.fault = fault

    def seen(self):
        """How it fared, where it fared well."""
        want(self.fault is None, f"the other client met {self.fault}")
        slowest = max(self.times)
        want(slowest < PATIENCE, f"the other client waited {slowest:.2f} seconds")
        return f"another client got {len(self.times)} replies, the slowest in {slowest * 1000:.1f} ms"


def median_time(connection, count=2000):
    return sorted(ask(connection) for _ in range(count))[count // 2]


def sixty_three_idle():
    with Server() as server:
        active = server.connect()
        alone = median_time(active)
        idle = server.idle(PLACES - 1)
        beside = median_time(active)
        want(beside < 3 * alone + 0.0005, f"{beside * 1e6:.0f} microseconds a reply, {alone * 1e6:.0f} alone")
        for connection in idle:
            ask(connection)
        return f"{beside * 1e6:.0f} microseconds a reply, {alone * 1e6:.0f} alone; then all 63 were answered"


def a_sixty_fifth():
    with Server(full=4) as server:
        eldest = server.connect()
        time.sleep(1.5)
        idle = server.idle(PLACES - 1)
        began = time.monotonic()
        last = server.connect()
        waited = ask(last)
        want(2.4 <= waited < 7, f"the 65th waited {waited:.1f} seconds")
        want(ends_within(eldest, 1) is not None, "the connection that was silent longest is still there")
        for connection in idle:
            ask(connection)
        further = server.connect()
        again = ask(further)
        want(3.9 <= again < 8, f"the 66th waited {again:.1f} seconds, and all others were active just before")
        want(time.monotonic() - began < 18, "it took too long")
        return (
            f"the 65th was answered after {waited:.1f} seconds, when the oldest was silent for 4 and closed; all others"
            f" were answered, and then a 66th after {again:.1f}"
        )


class Guests:
    """64 clients that keep their connections, each of which asks again after so many seconds, beside others."""

    def __init__(self, server, every):
        self.every = every
        self.connections = [server.connect() for _ in range(PLACES)]
        began = time.monotonic()
        self.due = {each: began + every * number / PLACES for number, each in enumerate(self.connections)}
        self.given = {}
        self.replies = 0
        self.left = 0
        self.fault = None
        self.stop = threading.Event()
        self.thread = threading.Thread(target=self.run)

    def __enter__(self):
        self.thread.start()
        return self

    def __exit__(self, *_):
        self.stop.set()
        self.thread.join()
        for connection in self.connections:
            connection.close()

    def run(self):
        try:
            while not self.stop.is_set():
                self.ask_those_due()
                for connection in select.select(list(self.due), [], [], 0.005)[0]:
                    self.hear(connection)
        except (Wrong, OSError) as fault:
            self.fault = fault

    def ask_those_due(self):
        now = time.monotonic()
        for connection in [each for each, due in self.due.items() if due <= now and each not in self.given]:
            if not select.select([connection], [], [], 0)[0]:
                connection.sendall(introspection())
                self.given[connection] = b""
                self.due[connection] = max(now, self.due[connection] + self.every)

    def hear(self, connection):
        """One that waits for a reply gets it whole, and none ends before."""
        part = connection.recv(65536)
        if connection not in self.given:
            want(part == b"", f"bytes came behind a reply: {part!r}")
            del self.due[connection]
            self.left += 1
            return
        given = self.given[connection] + part
        want(part and INACTIVE_REPLY.startswith(given), f"of a reply there came {given!r}, and then {part!r}")
        self.given[connection] = given
        if given == INACTIVE_REPLY:
            del self.given[connection]
            self.replies += 1


def busy_guests(every):
    """64 that ask each so many seconds give way to others, each of them right behind a reply."""

    def check():
        with Server() as server, Guests(server, every) as guests:
            others = []
            waits = []
            for _ in range(8):
                others.append(server.connect())
                waits.append(ask(others[-1]))
                want(waits[-1] < 10, f"one more waited {waits[-1]:.1f} seconds")
            enough = server.settle(lambda: guests.left >= len(waits), 2)
            want(guests.fault is None, f"one of the 64 met {guests.fault}")
            want(enough, f"{guests.left} of the 64 gave way to {len(waits)}")
            return (
                f"8 more were answered, after {waits[0]:.1f} seconds the first and at most {max(waits[1:]):.1f} the"
                f" others; the 64 got {guests.replies} whole replies, and {guests.left} of them gave way behind one"
            )

    return check


def slow_guests():
    """64 that take a byte of a reply each four seconds."""
    with Server() as server:
        guests = [server.connect() for _ in range(PLACES)]
        for guest in guests:
            guest.sendall(introspection())
        taken = dict.fromkeys(guests, b"")
        stop = threading.Event()

        def take():
            while True:
                for guest in guests:
                    taken[guest] += guest.recv(1)
                if stop.wait(4):
                    return

        thread = threading.Thread(target=take)
        thread.start()
        try:
            waited = ask(server.connect())
        finally:
            stop.set()
            thread.join()
        want(waited < 10, f"the 65th waited {waited:.1f} seconds")
        for guest in guests:
            given = taken[guest] + receive(guest, len(INACTIVE_REPLY) - len(taken[guest]))
            want(given == INACTIVE_REPLY, f"one of the 64 got {given!r}")
        return f"the 65th was answered after {waited:.1f} seconds; each of the 64 got its reply whole"


def pipelining_guests():
    """64 that have eight requests on the way all the time."""
    with Server() as server:
        guests = [server.connect() for _ in range(PLACES)]
        given = dict.fromkeys(guests, 0)
        here = set(guests)
        faults = []
        stop = threading.Event()
        many = NO_PATH_REPLY * 100

        def go_on():
            try:
                for guest in guests:
                    guest.sendall(NO_PATH * 8)
                while not stop.is_set():
                    for guest in select.select(list(here), [], [], 0.005)[0]:
                        try:
                            part = guest.recv(4 * len(NO_PATH_REPLY))
                            before = given[guest] % len(NO_PATH_REPLY)
                            want(many[before : before + len(part)] == part, f"a wrong reply: {part!r}")
                            given[guest] += len(part)
                            if part:
                                done = (before + len(part)) // len(NO_PATH_REPLY)
                                guest.sendall(NO_PATH * done)
                        except (BrokenPipeError, ConnectionResetError):
                            part = b""
                        if not part:
                            here.remove(guest)
                            want(given[guest] % len(NO_PATH_REPLY) == 0, "a reply was cut")
            except (Wrong, OSError) as fault:
                faults.append(fault)

        thread = threading.Thread(target=go_on)
        thread.start()
        try:
            waited = ask(server.connect())
        finally:
            stop.set()
            thread.join()
        want(waited < 10, f"the 65th waited {waited:.1f} seconds")
        want(not faults, f"one of the 64 met {faults}")
        replies = sum(given.values()) // len(NO_PATH_REPLY)
        return f"the 65th was answered after {waited:.1f} seconds; the 64 got {replies} whole replies"


def silence():
    with Server(silence=4) as server:
        connection = server.connect()
        with Active(server) as active:
            after = ends_within(connection, 15)
            want(after is not None, "a silent connection was not closed")
            want(3.9 <= after < 8, f"it was closed after {after:.1f} seconds")
            return f"closed after {after:.1f} seconds, where 4 are the limit; {active.seen()}"


def one_byte_a_second():
    with Server(silence=4) as server, Active(server) as active:
        slow = server.connect()
        for byte in NO_PATH:
            slow.sendall(bytes([byte]))
            time.sleep(0.1)
        given = receive(slow, len(NO_PATH_REPLY))
        want(given == NO_PATH_REPLY, f"a request byte by byte, ten a second, got {given!r}")
        began = time.monotonic()
        try:
            for byte in introspection():
                slow.sendall(bytes([byte]))
                if ends_within(slow, 1) is not None:
                    break
        except (BrokenPipeError, ConnectionResetError):
            pass
        after = time.monotonic() - began
        want(3.9 <= after < 9, f"one byte a second: it was closed after {after:.1f} seconds")
        return f"ten bytes a second were answered, one was closed after {after:.1f} seconds; {active.seen()}"


def send_all_it_takes(connection, request):
    """Sends requests until for a second no more are taken; how many bytes were."""
    connection.setblocking(False)
    many = request * (1_000_000 // len(request))
    sent = 0
    try:
        while select.select([], [connection], [], 1)[1]:
            sent += connection.send(many[sent % len(many):])
    except (BrokenPipeError, ConnectionResetError):
        raise Wrong(f"it was closed after {sent} bytes") from None
    return sent


def never_reads():
    with Server(silence=4) as server, Active(server) as active:
        before = server.descriptors()
        deaf = server.connect(room=4096)
        sent = send_all_it_takes(deaf, NO_PATH)
        want(server.rests(60), "the server is still at work after a minute in which nobody read")
        memory = server.resident()
        want(server.settle(lambda: server.descriptors() <= before, 10), "it was not closed")
        want(memory < 14, f"the server had {memory:.1f} MB")
        return (
            f"the server took {sent / 1e6:.1f} MB of requests and stopped, in {memory:.1f} MB of memory, and closed it"
            f" later; {active.seen()}"
        )


def resets():
    with Server() as server, Active(server) as active:
        before = server.descriptors()
        for number in range(200):
            connection = server.connect()
            request = introspection()
            connection.sendall(request * 3 if number % 3 == 0 else request[: number % len(request)])
            if number % 2 == 0:
                time.sleep(0.002)
            connection.setsockopt(socket.SOL_SOCKET, socket.SO_LINGER, struct.pack("ii", 1, 0))
            connection.close()
        want(server.settle(lambda: server.descriptors() <= before), "the server kept descriptors")
        return f"200 resets, no descriptor is left, {len(server.lines())} lines of standard error; {active.seen()}"


def short_connections():
    with Server() as server, Active(server) as active:
        before = server.descriptors()
        memory = server.resident()
        began = time.monotonic()
        for _ in range(10_000):
            connection = server.connect()
            ask(connection)
            connection.close()
        rate = 10_000 / (time.monotonic() - began)
        want(server.settle(lambda: server.descriptors() <= before), "the server kept descriptors")
        more = server.resident() - memory
        want(more < 4, f"the server has {more:.1f} MB more")
        return f"10,000 were answered, {rate:.0f} a second, with {more:.1f} MB more; {active.seen()}"


def are_answered(connections, seconds):
    """The connections of which a reply comes in some seconds."""
    waiting, answered = list(connections), []
    end = time.monotonic() + seconds
    while waiting and time.monotonic() < end:
        for connection in select.select(waiting, [], [], 0.1)[0]:
            want(receive(connection, len(INACTIVE_REPLY)) == INACTIVE_REPLY, "a wrong reply")
            waiting.remove(connection)
            answered.append(connection)
    return answered


def twenty_descriptors():
    with Server(descriptors=20) as server:
        waiting = [server.connect() for _ in range(40)]
        for connection in waiting:
            connection.sendall(introspection())
        first = are_answered(waiting, 2)
        busy = server.processor_seconds()
        time.sleep(2)
        busy = server.processor_seconds() - busy
        want(busy < 0.3, f"the server worked {busy:.2f} seconds of two in which there was nothing to do")
        answered = first
        turns = 0
        while waiting:
            want(answered and turns < 20, f"{len(waiting)} of 40 were never answered")
            for connection in answered:
                connection.close()
            waiting = [connection for connection in waiting if connection not in answered]
            answered = are_answered(waiting, 3)
            turns += 1
        return f"{len(first)} of 40 were answered at once, all once places came free; idle, it worked {busy:.2f} of 2 seconds"


def faulty_heads():
    with Server() as server, Active(server) as active:
        peaceful = 0
        for number in range(200):
            connection = server.connect()
            front, reply = (introspection(), INACTIVE_REPLY) if number % 2 else (b"", b"")
            behind = front + b"GET / HTTP/1.0\r\n\r\n" + introspection() * (90_000 // len(introspection()))
            try:
                connection.sendall(behind)
            except (BrokenPipeError, ConnectionResetError):
                pass
            given, in_peace = to_the_end(connection)
            want(given == reply + FAULTY, f"the client of head {number} saw {given!r}")
            peaceful += in_peace
            connection.close()
        return f"200 of 200 clients saw their 400, {peaceful} of them no reset behind it; {active.seen()}"


def half_closed():
    with Server() as server, Active(server) as active:
        before = server.descriptors()
        for number in range(100):
            connection = server.connect()
            connection.sendall(introspection() * (number % 20))
            connection.shutdown(socket.SHUT_WR)
            given, in_peace = to_the_end(connection)
            want(given == INACTIVE_REPLY * (number % 20) and in_peace, f"{number % 20} requests got {given!r}")
            connection.close()
            cut = server.connect()
            cut.sendall(introspection() + introspection()[:-1])
            cut.shutdown(socket.SHUT_WR)
            given, in_peace = to_the_end(cut)
            want(given == INACTIVE_REPLY and in_peace, f"one request and a part of one got {given!r}")
            cut.close()
        want(server.settle(lambda: server.descriptors() <= before), "the server kept descriptors")
        return f"200 clients got all their replies and then the end; {active.seen()}"


def whole_replies():
    with Server() as server:
        connection = server.connect()
        for _ in range(100):
            ask(connection)
        count = segments(connection)
        want(count == 100, f"100 replies came in {count} segments")
        return "each of 100 replies came in one segment"


def many_at_once():
    with Server() as server, Active(server) as active:
        for request, reply in [(introspection(), INACTIVE_REPLY), (NO_PATH, NO_PATH_REPLY)]:
            connection = server.connect()
            sender = threading.Thread(target=connection.sendall, args=(request * 1000,))
            sender.start()
            given = receive(connection, len(reply) * 1000)
            sender.join()
            want(given == reply * 1000, f"{len(given)} bytes in place of {len(reply) * 1000}")
            connection.close()
        return f"1,000 replies to 1,000 requests in one write, long ones and short ones; {active.seen()}"


# The members of a report, each with its own members where it is an object.
REPORT = {
    "moment": None,
    "seconds": None,
    "connections": ["open", "accepted"],
    "requests": [
        "authorize", "consent", "token", "revoke", "introspect", "hooks", "hooks_remove", "owners_end",
        "hooks_list", "nowhere",
    ],
    "replies": ["200", "302", "400", "401", "403", "404", "405", "503"],
    "unavailable": ["memory", "store_full", "client_full", "drawn_twice", "consents_full"],
    "denied_by_hooks": None,
    "records": None,
    "consents": None,
    "hooks": None,
}


def reports():
    """Each second a line of JSON says what was done."""
    with Server(options=["--report", "1"]) as server:
        connections = [server.connect(), server.connect()]
        for connection in connections:
            ask(connection)
            ask(connection, NO_PATH, NO_PATH_REPLY)
        connections[1].close()
        began = time.time()
        want(server.settle(lambda: any('"introspect":2' in line for line in server.lines())), f"no report: {server.lines()}")
        time.sleep(1.2)
        lines = [json.loads(line) for line in server.lines()]
        for line in lines:
            shape = {name: list(value) if isinstance(value, dict) else None for name, value in line.items()}
            want(list(shape.items()) == list(REPORT.items()), f"the members are {shape}")
        last = lines[-1]
        want(len(lines) >= 2, f"one line in two seconds: {lines}")
        want(abs(last["moment"] - began) < 5, f"it is {began}, and the line says {last['moment']}")
        want(last["connections"] == {"open": 1, "accepted": 2}, f"connections: {last['connections']}")
        asked = {name: count for name, count in last["requests"].items() if count}
        want(asked == {"introspect": 2, "nowhere": 2}, f"requests: {asked}")
        replied = {name: count for name, count in last["replies"].items() if count}
        want(replied == {"200": 2, "404": 2}, f"replies: {replied}")
        want(not any(last["unavailable"].values()), f"503s: {last['unavailable']}")
        kept = (last["denied_by_hooks"], last["records"], last["consents"], last["hooks"])
        want(kept == (0, 0, 0, 0), f"denied by hooks, records, consents and hooks are {kept}")
        return f"{len(lines)} lines, the last of which counts 4 requests of 2 connections"


def stalled_pipe():
    """Nobody reads its standard error, which is a pipe of 4,096 bytes. Each request is answered all the same; once somebody
    reads, it is told how many lines were dropped."""
    reader, writer = os.pipe()
    fcntl.fcntl(writer, fcntl.F_SETPIPE_SZ, 4096)
    with tempfile.TemporaryFile() as read, Server(options=["--report", "1"], errors=os.fdopen(writer, "wb")) as server:
        server.errors = read
        connection, longest, end = server.connect(), 0, time.monotonic() + 12
        while time.monotonic() < end:
            began = time.monotonic()
            ask(connection)
            longest = max(longest, time.monotonic() - began)
            time.sleep(0.05)
        want(longest < PATIENCE, f"a request took {longest:.2f} seconds")
        lines = os.read(reader, 65536)
        want(b"dropped" not in lines and lines.endswith(b"\n"), f"no whole lines: {lines[-200:]!r}")
        time.sleep(1.5)
        after = os.read(reader, 65536).split(b"\n")
        want(after[0].startswith(b"oauthd: ") and after[0].endswith(b" lines were dropped"), f"{after[0]!r}")
        return f"{after[0].decode()}; no request took longer than {1000 * longest:.0f} ms"


def token_of(server):
    """A token that a client is given for itself."""
    asking = next(each for each in rules["clients"] if "client_credentials" in each["grants"])
    connection = server.connect()
    connection.sendall(request_of(asking, "/token", "grant_type=client_credentials"))
    head = b""
    while not head.endswith(b"\r\n\r\n"):
        byte = connection.recv(1)
        want(byte, f"the connection ended behind {head!r}")
        head += byte
    length = next(int(line.split(b":")[1]) for line in head.split(b"\r\n") if line.startswith(b"Content-Length:"))
    return json.loads(receive(connection, length))["access_token"]


# The members of a line about a request.
AUDITED = [
    "asked", "client", "error", "family", "grant", "hooks", "life", "moment", "owner", "path", "scope", "status",
]


def audited():
    """Each answered request has a line, which stands before its reply comes, and no secret or token is in it."""
    with tempfile.TemporaryDirectory() as folder:
        path = f"{folder}/audit"
        with Server(options=["--audit", path]) as server:
            connection = server.connect()
            ask(connection)
            ask(connection, NO_PATH, NO_PATH_REPLY)
            token = token_of(server)
            with open(path) as lines:
                text = lines.read()
        want(not any(secret in text for secret in [*secrets, token]), f"a secret is in {text}")
        begun, *lines = [json.loads(line) for line in text.splitlines()]
        counts = {"clients": len(rules["clients"]), "owners": len(rules["owners"])}
        want({**begun, "began": None} == {"began": None, **counts}, f"the life begins with {begun}")
        want(begun["began"] <= lines[0]["moment"], f"it begins at {begun} before {lines[0]}")
        for line in lines:
            want(list(line) == AUDITED, f"the members are {list(line)}")
        told = [(line["path"], line["status"], line["client"], line["grant"]) for line in lines]
        asking = next(each for each in rules["clients"] if "client_credentials" in each["grants"])
        wanted = [
            ("/introspect", 200, client["id"], None),
            (None, 404, None, None),
            ("/token", 200, asking["id"], "client_credentials"),
        ]
        want(told == wanted, f"told is {told}")
        given = lines[2]
        want(given["hooks"] == [] and given["owner"] is None, f"no hook, and no owner: {given}")
        want(given["asked"] == {"life": given["life"], "scope": given["scope"]}, f"all that was asked: {given}")
        want(given["family"] is not None, f"its family: {given}")
        return "three requests have three lines, in their order"


class Output:
    """A socket, or a pipe of 4,096 bytes, that is a server's standard output."""

    def __init__(self, is_socket):
        if is_socket:
            here, self.there = socket.socketpair()
            self.reader = here.makefile("rb")
        else:
            here, writer = os.pipe()
            fcntl.fcntl(writer, fcntl.F_SETPIPE_SZ, 4096)
            self.reader, self.there = os.fdopen(here, "rb"), os.fdopen(writer, "wb")
        self.lines, self.lost = 0, 0

    def fileno(self):
        return self.there.fileno()

    def read(self):
        """Counts the lines of requests that come, and those that were lost."""
        for line in self.reader:
            told = json.loads(line)
            self.lines += list(told) == AUDITED
            self.lost += told.get("dropped", 0)


def audited_output():
    """Standard output is a socket, and then a pipe. While nobody reads it, each request is answered all the same. Once somebody does,
    each line is whole, and each request has one, or is counted."""
    told = []
    for is_socket in (True, False):
        output, longest = Output(is_socket), 0
        with Server(options=["--audit", "-"], output=output) as server:
            connection = server.connect()
            for _ in range(2999):
                longest = max(longest, ask(connection))
            want(longest < PATIENCE, f"a request took {longest:.2f} seconds")
            threading.Thread(target=output.read, daemon=True).start()
            time.sleep(0.5)
            ask(connection)
            time.sleep(0.5)
        want(output.lines + output.lost == 3000 and output.lost > 0, f"{output.lines} lines, {output.lost} lost")
        want(output.lines > 0, "the last request has no line")
        told.append(f"{output.lost} of 3,000 are lost")
    return "; ".join(told)


def other_draws():
    """Two starts, and two connections of each: no token comes twice."""
    tokens = []
    for _ in range(2):
        with Server() as server:
            tokens += [token_of(server), token_of(server)]
    want(len(set(tokens)) == 4, f"of the first tokens of two starts some are alike: {tokens}")
    return "the first two tokens of two starts are four"


CHECKS = {
    "63-idle-and-one-active": sixty_three_idle,
    "64-idle-and-a-65th": a_sixty_fifth,
    "64-that-ask-each-second": busy_guests(1),
    "64-that-ask-each-four-seconds": busy_guests(4),
    "64-that-take-a-byte-each-four": slow_guests,
    "64-that-pipeline": pipelining_guests,
    "silence": silence,
    "one-byte-a-second": one_byte_a_second,
    "never-reads": never_reads,
    "1000-requests-at-once": many_at_once,
    "200-resets": resets,
    "10000-short-connections": short_connections,
    "20-descriptors": twenty_descriptors,
    "faulty-head-and-90-KB": faulty_heads,
    "half-closed": half_closed,
    "whole-replies": whole_replies,
    "reports": reports,
    "stalled-pipe": stalled_pipe,
    "audited": audited,
    "audited-output": audited_output,
    "other-draws": other_draws,
}


def main():
    names = sys.argv[3:] or list(CHECKS)
    failed = 0
    for name in names:
        try:
            print(f"ok {name}: {CHECKS[name]()}", flush=True)
        except (Wrong, OSError) as fault:
            failed += 1
            print(f"NOT {name}: {fault or type(fault).__name__}", flush=True)
    print(f"{len(names)} checks, {failed} not as wanted")
    return 1 if failed else 0


if __name__ == "__main__":
    sys.exit(main())
