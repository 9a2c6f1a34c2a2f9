"""Sees over real sockets that nobody notices a reload.

Words: the program, and a registry. Twelve clients ask without pause on connections that they keep, and others are silent; meanwhile
the registry's file is changed again and again, and the server is asked to reload it. No reply is another than 200, no connection
is closed. Then what is refused, and how. Each line that it prints is `ok NAME: what was seen` or `NOT NAME: what was wrong`.
"""

import base64
import copy
import json
import os
import signal
import socket
import subprocess
import sys
import tempfile
import threading
import time

from server import address_of

program, registry = sys.argv[1:3]
with open(registry) as text:
    RULES = json.load(text)
CLIENTS = 12
RELOADS = 20


class Wrong(Exception):
    """What was seen is not what is wanted."""


def want(truth, text):
    if not truth:
        raise Wrong(text)


class Talk:
    """A connection that is kept, on which requests are made one after another."""

    def __init__(self, at):
        self.socket = socket.create_connection(at, timeout=20)
        self.socket.setsockopt(socket.IPPROTO_TCP, socket.TCP_NODELAY, 1)
        self.bytes = b""

    def more(self):
        bytes = self.socket.recv(65536)
        want(bytes, f"the connection was closed behind {self.bytes!r}")
        self.bytes += bytes

    def reply(self):
        """The status of the next reply, and its body."""
        while b"\r\n\r\n" not in self.bytes:
            self.more()
        head, self.bytes = self.bytes.split(b"\r\n\r\n", 1)
        lines = head.decode().split("\r\n")
        length = next(int(line.split(":")[1]) for line in lines if line.lower().startswith("content-length:"))
        while len(self.bytes) < length:
            self.more()
        body, self.bytes = self.bytes[:length], self.bytes[length:]
        return int(lines[0].split(" ")[1]), body.decode()

    def ask(self, request):
        self.socket.sendall(request)
        return self.reply()


class Server:
    """A server on a state file, by a registry that can be changed."""

    def __init__(self, room, options=None):
        self.rules = copy.deepcopy(RULES)
        self.config = os.path.join(room, "registry.json")
        self.state = os.path.join(room, "state")
        self.write()
        if options is None:
            subprocess.run([program, "state", "--new", self.state], check=True)
            options = ["--state", self.state]
        self.errors = tempfile.TemporaryFile()
        self.words = [program, "start", "127.0.0.1:0", self.config, *options]
        self.start()

    def start(self):
        self.process = subprocess.Popen(self.words, stdout=subprocess.PIPE, stderr=self.errors)
        self.at = address_of(self.process.stdout.readline().decode())

    def restart(self):
        self.process.send_signal(signal.SIGTERM)
        self.process.wait()
        self.start()

    def __enter__(self):
        return self

    def __exit__(self, kind, value, trace):
        alive = self.process.poll() is None
        self.process.send_signal(signal.SIGTERM)
        self.process.wait()
        if kind is None:
            self.errors.seek(0)
            want(alive, f"the server had ended with {self.process.returncode}: {self.errors.read().decode()}")

    def write(self, text=None):
        """Puts the rules, or a text, into the registry's file."""
        with open(self.config + ".new", "w") as file:
            file.write(json.dumps(self.rules) if text is None else text)
        os.replace(self.config + ".new", self.config)

    def reload(self, key=RULES["operator"], fields=""):
        """What comes of asking for a reload."""
        head = f"POST /reload HTTP/1.1\r\nX-Operator-Key: {key}\r\n{fields}\r\n" if key else "POST /reload HTTP/1.1\r\n\r\n"
        return Talk(self.at).ask(head.encode())


def request_of(client, path, body):
    words = f"{client['id']}:{client['secret']}".encode()
    return (
        f"POST {path} HTTP/1.1\r\nAuthorization: Basic {base64.b64encode(words).decode()}\r\n"
        f"Content-Type: application/x-www-form-urlencoded\r\nContent-Length: {len(body)}\r\n\r\n{body}"
    ).encode()


def token_by(talk):
    """A token that a client is given for itself, and the request that asks of it."""
    client = next(each for each in RULES["clients"] if "client_credentials" in each["grants"])
    status, body = talk.ask(request_of(client, "/token", "grant_type=client_credentials"))
    want(status == 200, f"no token: {status} {body}")
    return request_of(client, "/introspect", "token=" + json.loads(body)["access_token"])


class Client(threading.Thread):
    """Asks without pause on a connection that it keeps, until it is told to end."""

    def __init__(self, at, request, over):
        super().__init__()
        self.talk, self.request, self.over = Talk(at), request, over
        self.count, self.wrong, self.longest = 0, None, 0.0
        self.start()

    def run(self):
        try:
            while not self.over.is_set():
                began = time.monotonic()
                status, body = self.talk.ask(self.request)
                want(status == 200 and '"active":true' in body, f"{status} {body}")
                self.longest = max(self.longest, time.monotonic() - began)
                self.count += 1
        except (Wrong, OSError) as fault:
            self.wrong = f"behind {self.count} replies: {fault or type(fault).__name__}"


def refused_meanwhile(server):
    """Two that are refused: one by the registry's text, and one beside the state, behind which the server goes on as it was."""
    server.write("{")
    want(server.reload()[0] == 400, "no JSON is taken")
    server.write(json.dumps(dict(server.rules, scopes=list(reversed(server.rules["scopes"])))))
    status, body = server.reload()
    want((status, json.loads(body)["detail"]) == (400, "ScopeMoved read"), f"other scopes: {status} {body}")
    server.write()


def nobody_notices(room):
    with Server(room) as server:
        request = token_by(Talk(server.at))
        silent = [Talk(server.at) for _ in range(CLIENTS)]
        for talk in silent[::2]:
            want(talk.ask(request)[0] == 200, "a first reply is another than 200")
        over = threading.Event()
        clients = [Client(server.at, request, over) for _ in range(CLIENTS)]
        slowest = 0.0
        for nth in range(RELOADS):
            time.sleep(0.05)
            extra = dict(server.rules["clients"][0], id=f"extra{nth}", secret=f"extra-secret-{nth}")
            server.rules["clients"].append(extra)
            server.write()
            began = time.monotonic()
            status, body = server.reload()
            slowest = max(slowest, time.monotonic() - began)
            want(status == 200, f"reload {nth}: {status} {body}")
            want(json.loads(body)["clients"] == len(server.rules["clients"]), f"reload {nth} told {body}")
            status, body = Talk(server.at).ask(request_of(extra, "/introspect", "token=x"))
            want(status == 200, f"the client of reload {nth}: {status} {body}")
            if nth % 5 == 2:
                refused_meanwhile(server)
        over.set()
        for each in clients:
            each.join()
        wrong = [each.wrong for each in clients if each.wrong]
        want(not wrong, "; ".join(wrong))
        for talk in silent:
            status, body = talk.ask(request)
            want(status == 200 and '"active":true' in body, f"one that was silent: {status} {body}")
        count, longest = sum(each.count for each in clients), max(each.longest for each in clients)
        return f"{count} replies, all 200, on {CLIENTS} connections, {RELOADS} reloads, the slowest {1000 * slowest:.0f} ms, a reply {1000 * longest:.0f} ms at most"


class Guest(threading.Thread):
    """Opens a connection for each token that it asks for, without pause, until it is told to end."""

    def __init__(self, at, over):
        super().__init__()
        self.at, self.over, self.requests, self.wrong = at, over, [], None
        self.start()

    def run(self):
        try:
            while not self.over.is_set():
                self.requests.append(token_by(Talk(self.at)))
        except (Wrong, OSError) as fault:
            self.wrong = f"behind {len(self.requests)} tokens: {fault or type(fault).__name__}"


def nothing_is_lost(room):
    """Four clients ask for tokens without pause, each on a connection of its own: all are good after ten reloads and a restart."""
    with Server(room) as server:
        over = threading.Event()
        guests = [Guest(server.at, over) for _ in range(4)]
        for _ in range(10):
            time.sleep(0.1)
            want(server.reload()[0] == 200, "a reload is refused")
        over.set()
        for each in guests:
            each.join()
        wrong = [each.wrong for each in guests if each.wrong]
        want(not wrong, "; ".join(wrong))
        requests = [request for each in guests for request in each.requests]
        for restarted in (False, True):
            if restarted:
                server.restart()
            talk = Talk(server.at)
            good = sum('"active":true' in talk.ask(request)[1] for request in requests)
            want(good == len(requests), f"{good} of {len(requests)} are good, restarted: {restarted}")
        return f"{len(requests)} tokens, all good after 10 reloads and a restart"


def is_refused(server, wanted, **asked):
    status, body = server.reload(**asked)
    want((status, body) == wanted, f"{(status, body)} in place of {wanted}")


def refusals(room):
    def refused(detail, spot=None):
        return 400, ("{" + (f'"at":"{spot}",' if spot else "") + f'"detail":"{detail}","error":"reload_refused"' + "}")

    with Server(room) as server:
        kept = Talk(server.at)
        request = token_by(kept)
        denied = 403, '{"error":"access_denied"}'
        is_refused(server, denied, key=None)
        is_refused(server, denied, key="another")
        server.write("{")
        is_refused(server, refused("NotJson"))
        server.rules["clients"][0]["scope"] = "unknown"
        server.write()
        is_refused(server, refused("BadScope", "clients[0].scope"))
        server.rules = copy.deepcopy(RULES)
        server.rules["scopes"] = list(reversed(RULES["scopes"]))
        server.write()
        status, body = server.reload()
        want(status == 400 and '"error":"reload_refused"' in body, f"other scopes: {status} {body}")
        seen = json.loads(body)["detail"]
        os.remove(server.config)
        is_refused(server, refused("CannotRead"))
        server.rules = copy.deepcopy(RULES)
        server.write()
        status, body = kept.ask(request)
        want(status == 200 and '"active":true' in body, f"behind refusals: {status} {body}")
        want(server.reload()[0] == 200, "a registry that is right is refused")
        status, body = kept.ask(request)
        want(status == 200 and '"active":true' in body, f"behind a reload: {status} {body}")
        want(kept.ask(b"POST /reload HTTP/1.1\r\n\r\n")[0] == 404, "no 404 on a connection that had another request")
        want(Talk(server.at).ask(b"GET /reload HTTP/1.1\r\n\r\n")[0] == 404, "GET")
        return f"without key, with another, of no JSON, of a fault, of scopes that are others ({seen}), of no file"


def without_state(room):
    with Server(room, options=[]) as server:
        kept = Talk(server.at)
        request = token_by(kept)
        is_refused(server, (400, '{"detail":"NoState","error":"reload_refused"}'))
        want('"active":true' in kept.ask(request)[1], "the token is gone")
        return "refused by name"


def half_a_request(room):
    """One has sent half a request: the reload waits for the rest of it, and others are served meanwhile."""
    with Server(room) as server:
        kept, other = Talk(server.at), Talk(server.at)
        request = token_by(kept)
        kept.socket.sendall(request[:40])
        time.sleep(0.1)
        came = []
        asker = threading.Thread(target=lambda: came.append(server.reload()))
        asker.start()
        time.sleep(0.5)
        want(not came, f"the reload did not wait: {came}")
        want(other.ask(request)[0] == 200, "another one is not served")
        want(server.reload() == (503, ""), "a second reload is taken")
        kept.socket.sendall(request[40:])
        status, body = kept.reply()
        asker.join()
        want(status == 200 and '"active":true' in body, f"{status} {body}")
        want(came[0][0] == 200, f"the reload: {came}")
        want(other.ask(request)[0] == 200 and kept.ask(request)[0] == 200, "one of them is not served any more")
        return "it waited for the rest, a second one was 503, and all were served"


def never_whole(room):
    """One has sent half a request, and never sends the rest: some seconds later it is closed, and the reload is made."""
    with Server(room) as server:
        kept, other = Talk(server.at), Talk(server.at)
        request = token_by(other)
        kept.socket.sendall(request[:40])
        time.sleep(0.1)
        began = time.monotonic()
        status, body = server.reload()
        seconds = time.monotonic() - began
        want(status == 200 and 4 < seconds < 9, f"{status} {body} after {seconds:.1f} seconds")
        want(kept.socket.recv(1) == b"", "it is not closed")
        want(other.ask(request)[0] == 200, "another one is closed, too")
        return f"made after {seconds:.1f} seconds"


def piece_by_piece(room):
    """A reload is asked for byte by byte."""
    with Server(room) as server:
        talk = Talk(server.at)
        for byte in f"POST /reload HTTP/1.1\r\nX-Operator-Key: {RULES['operator']}\r\n\r\n".encode():
            talk.socket.sendall(bytes([byte]))
            time.sleep(0.002)
        status, body = talk.reply()
        want(status == 200, f"{status} {body}")
        return "made"


def ended_before(room):
    """One has sent a part of such a request, and ends its side: it is closed at once. One that sent it whole is answered."""
    with Server(room) as server:
        talk = Talk(server.at)
        talk.socket.sendall(b"POST /rel")
        time.sleep(0.1)
        talk.socket.shutdown(socket.SHUT_WR)
        began = time.monotonic()
        want(talk.socket.recv(1) == b"" and time.monotonic() - began < 1, "it is not closed")
        talk = Talk(server.at)
        talk.socket.sendall(f"POST /reload HTTP/1.1\r\nX-Operator-Key: {RULES['operator']}\r\n\r\n".encode())
        talk.socket.shutdown(socket.SHUT_WR)
        status, body = talk.reply()
        want(status == 200, f"{status} {body}")
        return "closed at once; answered"


def narrower(room):
    """By a registry that allows less, what goes beyond it ends, as at a start; another token stays good."""
    with Server(room) as server:
        kept = Talk(server.at)
        request = token_by(kept)
        number = next(n for n, each in enumerate(RULES["clients"]) if "client_credentials" in each["grants"])
        server.rules["clients"][number]["scope"] = "write"
        server.write()
        want(server.reload()[0] == 200, "a narrower registry is refused")
        want(kept.ask(request) == (200, '{"active":false}'), "the token is good still")
        want('"active":true' in kept.ask(token_by(kept))[1], "a new token is none")
        server.errors.seek(0)
        want(b"1 codes and tokens ended, beyond the registry" in server.errors.read(), "that is not told")
        return "the token ended, and that is told"


def other_operator(room):
    """The operator's key is changed by a reload."""
    with Server(room) as server:
        server.rules["operator"] = "another-operator-key"
        server.write()
        want(server.reload()[0] == 200, "the old key is refused while it counts")
        want(server.reload()[0] == 403, "the old key is taken still")
        want(server.reload(key="another-operator-key")[0] == 200, "the new key is refused")
        return "the old key until then, the new one from then on"


CHECKS = {
    "nobody-notices": nobody_notices,
    "nothing-is-lost": nothing_is_lost,
    "refusals": refusals,
    "without-state": without_state,
    "half-a-request": half_a_request,
    "never-whole": never_whole,
    "piece-by-piece": piece_by_piece,
    "ended-before": ended_before,
    "narrower": narrower,
    "other-operator": other_operator,
}


def main():
    names = sys.argv[3:] or list(CHECKS)
    failed = 0
    for name in names:
        try:
            with tempfile.TemporaryDirectory() as room:
                print(f"ok {name}: {CHECKS[name](room)}", flush=True)
        except (Wrong, OSError) as fault:
            failed += 1
            print(f"NOT {name}: {fault or type(fault).__name__}", flush=True)
    print(f"{len(names)} checks, {failed} not as wanted")
    return 1 if failed else 0


if __name__ == "__main__":
    sys.exit(main())
