"""A cluster of etcd on loopback, for a test: members that are started, stopped, woken and killed by their processes, and what stands
between them and a server: a relay that passes requests on, and drops or holds back some of them."""

import json
import os
import random
import signal
import socket
import subprocess
import threading
import time
import urllib.request


def free_port():
    with socket.socket() as one:
        one.bind(("127.0.0.1", 0))
        return one.getsockname()[1]


class Members:
    """Three members, each with a folder of its own."""

    def __init__(self, room, count=3, words=()):
        self.room, self.words = room, list(words)
        self.ports = [(free_port(), free_port()) for _ in range(count)]
        self.urls = [f"http://127.0.0.1:{client}" for client, _ in self.ports]
        self.processes = [None] * count
        for number in range(count):
            self.start(number)
        self.await_leader()

    def cluster(self):
        return ",".join(f"m{n}=http://127.0.0.1:{ports[1]}" for n, ports in enumerate(self.ports))

    def start(self, number):
        client, peer = self.ports[number]
        words = ["etcd", "--name", f"m{number}", "--data-dir", f"{self.room}/m{number}", "--logger", "zap",
                 "--listen-client-urls", f"http://127.0.0.1:{client}", "--advertise-client-urls", f"http://127.0.0.1:{client}",
                 "--listen-peer-urls", f"http://127.0.0.1:{peer}", "--initial-advertise-peer-urls", f"http://127.0.0.1:{peer}",
                 "--initial-cluster", self.cluster(), "--initial-cluster-token", self.room, *self.words]
        with open(f"{self.room}/m{number}.log", "ab") as log:
            self.processes[number] = subprocess.Popen(words, stdin=subprocess.DEVNULL, stdout=log, stderr=log)

    def ask(self, number, path, body):
        request = urllib.request.Request(self.urls[number] + path, json.dumps(body).encode())
        with urllib.request.urlopen(request, timeout=2) as reply:
            return json.load(reply)

    def leader(self):
        """The number of the member that leads, or None."""
        for number in range(len(self.ports)):
            try:
                told = self.ask(number, "/v3/maintenance/status", {})
                if told["header"]["member_id"] == told.get("leader"):
                    return number
            except (OSError, ValueError, KeyError):
                pass
        return None

    def await_leader(self):
        end = time.monotonic() + 30
        while self.leader() is None:
            if time.monotonic() > end:
                raise SystemExit("etcd elects no leader")
            time.sleep(0.1)

    def signal(self, number, name):
        """Sends a signal. Whoever is to stop has stopped then."""
        process = self.processes[number]
        process.send_signal(name)
        while name == signal.SIGSTOP:
            with open(f"/proc/{process.pid}/stat") as stat:
                if stat.read().rsplit(")", 1)[1].split()[0] == "T":
                    return
            time.sleep(0.01)

    def kill(self, number):
        self.signal(number, signal.SIGKILL)
        self.processes[number].wait()

    def end(self):
        for number, process in enumerate(self.processes):
            if process.poll() is None:
                self.signal(number, signal.SIGCONT)
                self.kill(number)


class Relay:
    """Passes on to one member what is asked, request by request: of the replies it drops a share, and a share of the requests it
    holds back, tells nothing of, and sends up to six seconds later. While it is cut nothing goes through."""

    def __init__(self, target, share=0.0):
        self.target, self.share, self.cut = target, share, False
        self.counts = {"passed": 0, "dropped": 0, "late": 0}
        self.listener = socket.socket()
        self.listener.setsockopt(socket.SOL_SOCKET, socket.SO_REUSEADDR, 1)
        self.listener.bind(("127.0.0.1", 0))
        self.listener.listen(64)
        self.url = f"http://127.0.0.1:{self.listener.getsockname()[1]}"
        threading.Thread(target=self.accept, daemon=True).start()

    def accept(self):
        while True:
            connection, _ = self.listener.accept()
            threading.Thread(target=self.serve, args=(connection,), daemon=True).start()

    def wait(self):
        while self.cut:
            time.sleep(0.02)

    @staticmethod
    def message(stream, rest):
        """The next message of a stream, whole, and what came behind it."""
        while b"\r\n\r\n" not in rest:
            came = stream.recv(65536)
            if not came:
                return None, b""
            rest += came
        head, rest = rest.split(b"\r\n\r\n", 1)
        lower = head.lower()
        if b"transfer-encoding: chunked" in lower:
            while not rest.endswith(b"0\r\n\r\n"):
                came = stream.recv(65536)
                if not came:
                    return None, b""
                rest += came
            return head + b"\r\n\r\n" + rest, b""
        size = int(lower.split(b"content-length:")[1].split(b"\r\n")[0])
        while len(rest) < size:
            came = stream.recv(65536)
            if not came:
                return None, b""
            rest += came
        return head + b"\r\n\r\n" + rest[:size], rest[size:]

    def told(self, reply):
        """What is told in the place of a reply, and whether nothing more is told behind it."""
        return reply, False

    def afterwards(self, request, delay):
        time.sleep(delay)
        self.wait()
        try:
            with socket.create_connection(("127.0.0.1", self.target), 5) as late:
                late.sendall(request)
                late.settimeout(8)
                self.message(late, b"")
        except OSError:
            pass

    def serve(self, connection):
        try:
            with connection, socket.create_connection(("127.0.0.1", self.target), 5) as member:
                rest = member_rest = b""
                while True:
                    request, rest = self.message(connection, rest)
                    if request is None:
                        return
                    self.wait()
                    drawn = random.random()
                    if drawn < self.share / 2:
                        self.counts["late"] += 1
                        delay = random.choice((0.01, 0.05, 0.3, 6 * random.random()))
                        threading.Thread(target=self.afterwards, args=(request, delay), daemon=True).start()
                        return
                    member.sendall(request)
                    reply, member_rest = self.message(member, member_rest)
                    self.wait()
                    if reply is None:
                        return
                    if drawn < self.share:
                        self.counts["dropped"] += 1
                        return
                    self.counts["passed"] += 1
                    told, ends = self.told(reply)
                    connection.sendall(told)
                    if ends:
                        return
        except (OSError, IndexError, ValueError):
            pass
