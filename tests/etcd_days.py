"""Bad days of a list in etcd, on a cluster of three members on loopback: no quorum, a full database, members that forget who asked,
a restored snapshot, a list that is made shorter, a list that is listed while it is written, and a member that answers what none does. Prints a line for each check.

Words: PROGRAM REGISTRY [DAY..]; the days are quorum, full, password, restored, shorter, listed, strange. Ends by itself, with 0 where all is as wanted."""

import base64
import json
import os
import random
import re
import shutil
import signal
import subprocess
import sys
import tempfile
import threading
import time
import urllib.error

from crashes import Client, Gone, Refused, consents
from etcd import Machine, Pair
from members import Members, Relay

wrong = 0


def check(name, got, *wanted):
    """One of the things that are wanted came."""
    global wrong
    if any(it in got if isinstance(it, str) and isinstance(got, str) else it == got for it in wanted):
        print(f"ok {name}: {got}", flush=True)
        return
    wrong += 1
    print(f"DIFFERS: {name}: {got}, wanted: {' or '.join(str(it) for it in wanted)}", flush=True)


def text(word):
    return base64.b64encode(word.encode()).decode()


class Day:
    """A cluster with a list, and servers on it."""

    def __init__(self, program, registry, words=(), user=None):
        self.room = tempfile.mkdtemp()
        self.program, self.registry = program, registry
        self.members = Members(self.room, words=words)
        self.user = user
        self.machines, self.relays = [], []

    def list_words(self, urls=None, prefix="oauthd"):
        words = ["--etcd", urls or ",".join(self.members.urls), "--prefix", prefix]
        if self.user:
            words += ["--etcd-user", self.user[0], "--etcd-password-file", self.user[1]]
        return words

    def run(self, *words, urls=None, prefix="oauthd"):
        """What a command tells that comes to an end."""
        done = subprocess.run([self.program, *words, *self.list_words(urls, prefix)], stdout=subprocess.PIPE, stderr=subprocess.STDOUT,
                              text=True, timeout=120)
        return done.stdout.strip() or "done"

    def serve(self, count=1, urls=None, *more, lease="3", seconds=40):
        words = [self.program, self.registry, *self.list_words(urls), "--lease", lease, *more]
        self.machines = [Machine(self.room, f"o{n}", words) for n in range(count)]
        self.pair = Pair(self.machines)
        return self.pair.await_leader(seconds)

    def client(self, timeout=40):
        it = Client(self.pair, 0)
        it.timeout = timeout
        return it

    def told(self):
        return " ".join(" ".join(sorted(set(it.told().split("\n")))) for it in self.machines).strip()

    def control(self, *words):
        """etcdctl."""
        done = subprocess.run(["etcdctl", "--endpoints", self.members.urls[0], *words], env=dict(os.environ, ETCDCTL_API="3"),
                              stdout=subprocess.PIPE, stderr=subprocess.STDOUT, text=True, timeout=60)
        return done.stdout.strip()

    def halt(self):
        """Servers and members end; what these have on disk stays."""
        for it in self.machines:
            it.end()
        self.members.end()

    def end(self):
        self.halt()
        shutil.rmtree(self.room, ignore_errors=True)


def room_told(day):
    """What deploy/machines/etcd-room tells."""
    return subprocess.run(["deploy/machines/etcd-room", *day.members.urls], stdout=subprocess.PIPE, stderr=subprocess.STDOUT, text=True).stdout


def token(client):
    """What came of asking for a token, and how long that took."""
    began = time.monotonic()
    try:
        it = client.own_token()
        return it, "granted", time.monotonic() - began
    except Refused:
        return None, "503", time.monotonic() - began
    except Gone:
        return None, "gone", time.monotonic() - began


def is_active(client, it):
    try:
        return client.is_active(it)
    except Gone:
        return "gone"
    except AssertionError as other:
        return str(other)


def until_granted(day, seconds):
    """Whether a token is granted, after so many seconds at most."""
    end = time.monotonic() + seconds
    while time.monotonic() < end:
        for it in day.machines:
            it.again()
        if token(day.client(2))[1] == "granted":
            return True
        time.sleep(0.1)
    return False


def full(program, registry):
    """Its quota is used up: nobody leads any more, until there is room again."""
    day = Day(program, registry, ["--quota-backend-bytes", str(4 << 20)])
    check("made", day.run("state", "--new"), "done")
    check("leads", day.serve() is not None, True)
    client = day.client()
    first, _, _ = token(client)
    check("room", room_told(day) or "enough", "enough")
    filled = 0
    try:
        while True:
            day.members.ask(0, "/v3/kv/put", {"key": text(f"fill/{filled % 4}"), "value": base64.b64encode(os.urandom(1 << 18)).decode()})
            filled += 1
    except urllib.error.HTTPError as fault:
        check("filled", json.loads(fault.read())["code"], 8)
    check("no-room", room_told(day), "of its quota")
    check("alarm", day.control("alarm", "list"), "NOSPACE")
    check("introspected-still", is_active(client, first), True)
    check("not-granted", token(client)[1], "gone")
    check("told", day.told(), "State Unclear")
    check("not-led", until_granted(day, 10), False)
    for line in way_out():
        done = subprocess.run(line, shell=True, env=dict(os.environ, ETCDCTL_ENDPOINTS=day.members.urls[0]), stdout=subprocess.PIPE,
                              stderr=subprocess.STDOUT, text=True, timeout=60)
        check("way-out", done.returncode, 0)
    check("granted-again", until_granted(day, 40), True)
    check("there-still", is_active(day.client(), first), True)
    check("room-again", room_told(day) or "enough", "enough")
    day.end()


def way_out():
    """The commands of docs/MACHINES.md, without their user."""
    with open("docs/MACHINES.md") as page:
        return [line.strip().replace(" --user root", "") for line in page if line.startswith(" ") and ("compact" in line or "defrag" in line)]


def quorum(program, registry):
    """Two members are stopped: for less than a lease, so that a client waits, and for so long that the server ends."""
    day = Day(program, registry)
    check("made", day.run("state", "--new"), "done")
    check("leads", day.serve(1, None, "--standby-answers", lease="9") is not None, True)
    check("granted", until_granted(day, 20), True)
    first, _, _ = token(day.client())
    number = day.members.leader()
    two = [number, (number + 1) % 3]

    def stop(name):
        for one in two:
            day.members.signal(one, name)

    stop(signal.SIGSTOP)
    threading.Timer(4, stop, [signal.SIGCONT]).start()
    _, came, took = token(day.client())
    check("waits", came, "granted")
    check("goes-on", day.machines[0].ends, [])
    print(f"    after {took:.1f} s")
    stop(signal.SIGSTOP)
    _, came, took = token(day.client())
    check("ends", came, "gone")
    print(f"    after {took:.1f} s")
    check("told", day.told(), "State Unclear")
    time.sleep(1)
    day.machines[0].again()
    time.sleep(1)
    check("not-led", token(day.client())[1], "503")
    check("not-introspected", str(is_active(day.client(), first)), "503")
    stop(signal.SIGCONT)
    check("granted-again", until_granted(day, 40), True)
    check("there-still", is_active(day.client(), first), True)
    day.end()


def password(program, registry):
    """Members forget, when they are started anew, whom they have let in."""
    day = Day(program, registry)
    for words in ("user add root:r00t", "user add oauthd:0authd", "role add oauthd", "role grant-permission oauthd readwrite --prefix=true oauthd/",
                  "user grant-role oauthd oauthd", "user grant-role root root", "auth enable"):
        day.control(*words.split())
    for name, word in (("password", "0authd"), ("wrong", "other")):
        with open(f"{day.room}/{name}", "w") as file:
            file.write(word + "\n")
    check("nobody", day.run("state"), "State Denied 3")
    day.user = ("oauthd", f"{day.room}/wrong")
    check("wrong-password", day.run("state"), "State Denied 3")
    day.user = ("oauthd", f"{day.room}/password")
    check("other-prefix", day.run("state", prefix="other"), "State Denied 7")
    check("made", day.run("state", "--new"), "done")
    check("leads", day.serve() is not None, True)
    client = day.client()
    first, _, _ = token(client)
    for number in range(3):
        day.members.kill(number)
        check("one-is-away", day.run("state").splitlines()[-1], '"kind":"file"')
        day.members.start(number)
        day.members.await_leader()
        check("granted", token(client)[1], "granted")
    check("there-still", is_active(client, first), True)
    check("goes-on", day.machines[0].ends, [])
    day.end()


def restored(program, registry):
    """A snapshot is restored: under another token it is another cluster, under its own it is the one that it was."""
    day = Day(program, registry)
    check("made", day.run("state", "--new"), "done")
    check("leads", day.serve() is not None, True)
    first, _, _ = token(day.client())
    day.control("snapshot", "save", f"{day.room}/snapshot")
    behind, _, _ = token(day.client())
    day.halt()
    for name in ("other", day.room):
        for number in range(3):
            peer = day.members.ports[number][1]
            subprocess.run(["rm", "-rf", f"{day.room}/m{number}"], check=True)
            day.control("snapshot", "restore", f"{day.room}/snapshot", "--name", f"m{number}", "--data-dir", f"{day.room}/m{number}",
                        "--initial-cluster", day.members.cluster(), "--initial-cluster-token", name,
                        "--initial-advertise-peer-urls", f"http://127.0.0.1:{peer}")
            day.members.start(number)
        day.members.await_leader()
        if name == "other":
            check("another-cluster", day.run("state"), "State OtherCluster")
            check("not-copied", day.run("state", "--to", f"{day.room}/copy"), "State OtherCluster")
            check("not-made", day.run("state", "--new"), "State OtherCluster", "State Led")
            day.serve(seconds=10)
            check("not-led", day.told(), "State OtherCluster")
        else:
            check("the-same-cluster", day.run("state").splitlines()[-1], '"kind":"file"')
            check("copied", day.run("state", "--to", f"{day.room}/copy"), "done")
            check("leads-again", day.serve() is not None, True)
            check("there-still", is_active(day.client(), first), True)
            check("lost-behind-it", is_active(day.client(), behind), False)
        day.halt()
    day.end()


def shorter(program, registry):
    """The list is made shorter while clients work: what is over goes, with etcd's older revisions, and what counts stays."""
    day = Day(program, registry)
    with open(registry) as given, open(f"{day.room}/registry.json", "w") as own:
        json.dump(dict(json.load(given), access_life=2), own)
    day.registry = f"{day.room}/registry.json"
    check("made", day.run("state", "--new"), "done")
    check("leads", day.serve() is not None, True)
    consents(day.client(), "read")
    day.client().begin()
    ends = time.monotonic() + 240

    def generations():
        reply = day.members.ask(0, "/v3/kv/range", {"key": text("oauthd/at/"), "range_end": text("oauthd/at0"), "keys_only": True})
        return {base64.b64decode(it["key"]).decode().split("/")[2] for it in reply.get("kvs", [])}

    def work():
        client = day.client()
        while time.monotonic() < ends and generations() == {"0" * 16}:
            for _ in range(100):
                client.own_token()

    threads = [threading.Thread(target=work) for _ in range(16)]
    for it in threads:
        it.start()
    for it in threads:
        it.join()
    check("another-generation", min(generations()) > "0" * 16, True)
    check("compacted", day.control("get", "oauthd/head", "--rev", "2"), "required revision has been compacted")
    day.machines[0].kill()
    check("leads-again", day.pair.await_leader(40) is not None, True)
    client = day.client()
    client.begin()
    check("consent-still", len(client.grants), 1)
    listed = day.run("state").splitlines()[-1]
    check("short", json.loads(listed)["bytes"] < 3 << 20, True)
    check("one-generation", len(generations()), 1)
    day.end()


def listed(program, registry):
    """Who made a list leads no more. It is listed and copied while 64 clients work, each time as it stood at one version, and while what stood there is let go of."""
    day = Day(program, registry)
    check("made", day.run("state", "--new"), "done")
    took = day.serve(seconds=10)
    check("leads-at-once", took is not None and took < 4, True)
    consents(day.client(), "read")
    ends = time.monotonic() + 30

    def work():
        client = day.client()
        while time.monotonic() < ends:
            token(client)

    def let_go():
        while time.monotonic() < ends:
            day.control("compact", str(day.members.ask(0, "/v3/kv/range", {"key": text("oauthd/head")})["header"]["revision"]))

    threads = [threading.Thread(target=work) for _ in range(64)]
    for it in threads:
        it.start()
    sizes = []
    for _ in range(10):
        told = day.run("state").splitlines()[-1]
        check("listed", told, '"kind":"file"')
        sizes.append(json.loads(told).get("bytes", 0) if told.startswith("{") else 0)
    check("each-later", sizes == sorted(sizes) and sizes[0] < sizes[-1], True)
    check("copied", day.run("state", "--to", f"{day.room}/copy"), "done")
    copy = subprocess.run([program, "state", f"{day.room}/copy"], stdout=subprocess.PIPE, stderr=subprocess.STDOUT, text=True).stdout
    check("whole", copy.splitlines()[-1], '"kind":"file"')
    other = threading.Thread(target=let_go)
    other.start()
    for _ in range(5):
        check("let-go", day.run("state").splitlines()[-1], '"kind":"file"', "State Unread")
    for it in [other, *threads]:
        it.join()
    check("goes-on", day.machines[0].ends, [])
    day.end()


class Strange(Relay):
    """A member that answers otherwise than any does, now and then."""

    WAYS = ("cut", "page", "nothing", "empty", "broken", "chunks", "lines", "long", "twice", "status", "cluster", "number",
            "ahead", "behind", "silent")

    def __init__(self, target, chance, share):
        super().__init__(target)
        self.chance, self.often = chance, share
        self.ways = dict.fromkeys(self.WAYS, 0)

    @staticmethod
    def parts(reply):
        """The first line, the other lines, and the body."""
        head, rest = reply.split(b"\r\n\r\n", 1)
        lines = head.split(b"\r\n")
        body = rest
        if b"transfer-encoding: chunked" in head.lower():
            body = b""
            while rest:
                size, rest = rest.split(b"\r\n", 1)
                body += rest[:int(size, 16)]
                rest = rest[int(size, 16) + 2:]
        kept = [line for line in lines[1:] if not line.lower().startswith((b"content-length", b"transfer-encoding", b"trailer"))]
        return lines[0], kept, body

    @staticmethod
    def whole(first, lines, body):
        return b"\r\n".join([first, *lines, b"Content-Length: %d" % len(body)]) + b"\r\n\r\n" + body

    @staticmethod
    def revision(way, body):
        found = re.search(rb'"revision":"(\d+)"', body)
        return 1 if way == "behind" or not found else int(found[1]) + 1000

    def told(self, reply):
        if self.chance.random() >= self.often:
            return reply, False
        way = self.chance.choice(self.WAYS)
        self.ways[way] += 1
        first, lines, body = self.parts(reply)
        if way == "silent":
            time.sleep(3)
            return b"", True
        if way == "cut":
            return self.whole(first, lines, body)[:-self.chance.randrange(1, len(body) + 1)], True
        if way == "page":
            return self.whole(b"HTTP/1.1 200 OK", [b"Content-Type: text/html"], b"<html><body>Welcome</body></html>"), False
        if way == "nothing":
            return self.whole(first, lines, b""), False
        if way == "empty":
            return self.whole(first, lines, b"{}"), False
        if way == "broken":
            return self.whole(first, lines, body[:-1] + b",,"), False
        if way == "chunks":
            out, size = b"", 0
            while size < len(body):
                piece = body[size:size + self.chance.randrange(1, 200)]
                out += b"%x;a=b\r\n%s\r\n" % (len(piece), piece)
                size += len(piece)
            head = b"\r\n".join([first, *lines, b"Transfer-Encoding: chunked", b"Trailer: X-One"])
            return head + b"\r\n\r\n" + out + b"0\r\nX-One: 1\r\n\r\n", False
        if way == "lines":
            return self.whole(first, [*lines, *[b"X-%d: %s" % (n, b"v" * 30) for n in range(90)]], body), False
        if way == "long":
            return self.whole(first, lines, b" " * 100_000_000 + body), False
        if way == "twice":
            return self.whole(first, lines, body) * 2, False
        if way == "status":
            return self.whole(b"HTTP/1.1 500 Internal Server Error", lines, b'{"error":"x","code":14}'), False
        if way == "cluster":
            return self.whole(first, lines, re.sub(rb'"cluster_id":"\d+"', b'"cluster_id":"77"', body)), False
        if way in ("ahead", "behind"):
            return self.whole(first, lines, re.sub(rb'("revision":)"(\d+)"', rb'\1"%d"' % self.revision(way, body), body, count=1)), False
        return self.whole(first, lines, re.sub(rb'"revision":"(\d+)"', rb'"revision":"99999999999999999999\1"', body)), False


def strange(program, registry):
    """All members answer strangely, one reply of twelve, while clients work and the server is killed; and then one does with each reply."""
    day = Day(program, registry)
    chance = random.Random(int(os.environ.get("SEED", "1")))
    check("made", day.run("state", "--new"), "done")
    relays = [Strange(ports[0], chance, 1 / 12) for ports in day.members.ports]
    check("leads", day.serve(2, ",".join(it.url for it in relays)) is not None, True)
    consents(day.client(), "read")
    clients = [Client(day.pair, chance.random()) for _ in range(16)]
    asked, faults = 0, []
    for _ in range(4):
        threads = [threading.Thread(target=it.work) for it in clients]
        for it in threads:
            it.start()
        time.sleep(5)
        day.pair.leads.end()
        for it in threads:
            it.join()
        check("leads-again", day.pair.await_leader(120) is not None, True)
        for it in clients:
            it.connection = None
            try:
                number, told = it.faults()
            except Gone:
                day.pair.await_leader(120)
                continue
            asked += number
            faults += told
    check("nothing-lost", faults, [])
    print(f"    {sum(it.acknowledged for it in clients)} acknowledged, {asked} asked for again; "
          + ", ".join(f"{sum(it.ways[way] for it in relays)} {way}" for way in Strange.WAYS))
    day.halt()
    for number in range(3):
        day.members.start(number)
    day.members.await_leader()
    for way in Strange.WAYS:
        one = Strange(day.members.ports[0][0], chance, 1)
        one.WAYS = (way,)
        listed = way in ("chunks", "ahead", "behind")
        wanted = {"cluster": ["State OtherCluster"], "twice": ['"kind":"file"', "State Unclear"]}.get(way, ['"kind":"file"' if listed else "State Unclear"])
        check(way, day.run("state", urls=one.url).splitlines()[-1], *wanted)
    day.end()


DAYS = {"quorum": quorum, "full": full, "password": password, "restored": restored, "shorter": shorter, "listed": listed, "strange": strange}


def main():
    program, registry = sys.argv[1:3]
    for name in sys.argv[3:] or DAYS:
        print(f"{name}:", flush=True)
        DAYS[name](program, registry)
    print(f"{wrong} differ")
    return 1 if wrong else 0


if __name__ == "__main__":
    sys.exit(main())
