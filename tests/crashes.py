"""Kills a server with a state file again and again, in the middle of its work, and asks it afterwards for all that it
acknowledged: no grant, refresh, revocation or consent that was acknowledged is lost, and none is revived.

Words: PROGRAM REGISTRY [KILLS [CLIENTS]]. Ends by itself, with 0 where nothing was lost and nothing revived."""

import base64
import hashlib
import http.client
import json
import os
import random
import secrets
import signal
import subprocess
import sys
import tempfile
import threading
import time
import urllib.parse

from server import address_of

APP = {"client_id": "app", "client_secret": "s3cret"}
BOT = {"client_id": "bot", "client_secret": "b0t"}
# Tokens live for so many seconds, so that the store is not full of those that nobody asks for again.
LIFE = 120
REDIRECT = "https://app.example/cb"
OWNERS = ["ann-key", "bob-key"]


class Gone(Exception):
    """The server was killed before the whole reply came: what was asked for may have happened or not."""


class Refused(Exception):
    """The server has no room for what was asked for: nothing happened."""


class Server:
    """The program, on a state file, killed and started again."""

    def __init__(self, program, registry, state):
        self.words = [program, "start", "127.0.0.1:0", registry, "--state", state]
        self.process = None
        self.address = None

    def start(self):
        process = subprocess.Popen(self.words, stdout=subprocess.PIPE, text=True)
        line = process.stdout.readline()
        if not line:
            raise SystemExit(f"the server did not start: status {process.wait()}")
        self.take(process, line)

    def take(self, process, line):
        """The server is this process, which has said that it listens."""
        self.process, self.address = process, address_of(line)

    def kill(self):
        self.process.send_signal(signal.SIGKILL)
        self.process.wait()
        self.process.stdout.close()


class Client:
    """Asks for things, and remembers what was acknowledged."""

    def __init__(self, server, number):
        self.server = server
        self.random = random.Random(number)
        self.connection = None
        self.timeout = 10
        # a refresh token and the access tokens of one grant
        self.grants = []
        self.ended = []
        self.used = []
        self.acknowledged = 0

    def ask(self, method, path, form=None, headers=None, body=None):
        headers = dict(headers or {})
        if form is not None:
            body = urllib.parse.urlencode(form)
            headers["Content-Type"] = "application/x-www-form-urlencoded"
        try:
            if self.connection is None:
                self.connection = http.client.HTTPConnection(*self.server.address, timeout=self.timeout)
            self.connection.request(method, path, body, headers)
            reply = self.connection.getresponse()
            return reply.status, reply.getheader("Location"), reply.read()
        except (OSError, http.client.HTTPException) as fault:
            self.connection = None
            raise Gone() from fault

    def begin(self):
        """A grant by a code with a proof key."""
        verifier = secrets.token_urlsafe(32)
        challenge = base64.urlsafe_b64encode(hashlib.sha256(verifier.encode()).digest()).rstrip(b"=").decode()
        query = urllib.parse.urlencode({"response_type": "code", "client_id": "app", "redirect_uri": REDIRECT,
                                        "code_challenge": challenge, "code_challenge_method": "S256", "scope": "read"})
        status, location, _ = self.ask("GET", f"/authorize?{query}", headers={"X-Owner-Key": self.random.choice(OWNERS)})
        answer = urllib.parse.parse_qs(urllib.parse.urlsplit(location or "").query)
        if status == 503 or answer.get("error") == ["temporarily_unavailable"]:
            raise Refused()
        told = self.tokens(grant_type="authorization_code", code=answer["code"][0], redirect_uri=REDIRECT, code_verifier=verifier)
        self.grants.append({"refresh": told["refresh_token"], "access": [told["access_token"]], "since": time.monotonic()})

    def own_token(self):
        """A token of a client's own."""
        status, _, body = self.ask("POST", "/token", dict(BOT, grant_type="client_credentials"))
        if status == 503:
            raise Refused()
        assert status == 200, (status, body)
        return json.loads(body)["access_token"]

    def tokens(self, **form):
        status, _, body = self.ask("POST", "/token", dict(APP, **form))
        if status == 503:
            raise Refused()
        assert status == 200, (status, body)
        return json.loads(body)

    def refresh(self):
        """The grant's refresh token is changed for another. While no reply came, the grant is in nobody's memory."""
        grant = self.grants.pop(self.random.randrange(len(self.grants)))
        told = self.tokens(grant_type="refresh_token", refresh_token=grant["refresh"])
        self.used.append(grant["refresh"])
        grant["refresh"] = told["refresh_token"]
        grant["access"].append(told["access_token"])
        self.grants.append(grant)

    def revoke(self):
        """A grant is revoked."""
        grant = self.grants.pop(self.random.randrange(len(self.grants)))
        status, _, body = self.ask("POST", "/revoke", dict(APP, token=grant["access"][-1]))
        assert status == 200, (status, body)
        self.ended.append(grant)

    def forget_old(self):
        """A grant that began a quarter of a life ago is used no more: behind a restart the server may be a minute ahead, and its tokens
        expired."""
        self.grants = [grant for grant in self.grants if time.monotonic() - grant["since"] < LIFE / 4]

    def work(self):
        try:
            while True:
                self.forget_old()
                choice = self.random.random()
                try:
                    if choice < 0.4 or len(self.grants) < 3:
                        self.begin()
                    elif choice < 0.75:
                        self.refresh()
                    else:
                        self.revoke()
                    self.acknowledged += 1
                except Refused:
                    time.sleep(0.01)
        except Gone:
            pass

    def is_active(self, token):
        status, _, body = self.ask("POST", "/introspect", dict(APP, token=token))
        assert status == 200, (status, body)
        return json.loads(body)["active"]

    def faults(self):
        """What the server answers otherwise than it acknowledged, of what is remembered; and forgets what is older."""
        self.forget_old()
        live = [it for grant in self.grants for it in [grant["refresh"], *grant["access"]]]
        dead = [it for grant in self.ended for it in [grant["refresh"], *grant["access"]]] + self.used
        told = [f"lost {it}" for it in live if not self.is_active(it)] + [f"revived {it}" for it in dead if self.is_active(it)]
        self.grants, self.ended, self.used = self.grants[-20:], self.ended[-20:], self.used[-20:]
        return len(live) + len(dead), told


def consents(client, scope):
    """Each owner's consent to the client, as it was acknowledged."""
    for owner in OWNERS:
        status, _, body = client.ask("POST", "/consent", {"client_id": "app", "scope": scope}, {"X-Owner-Key": owner})
        assert status == 200, (status, body)


def main():
    program, registry = sys.argv[1:3]
    kills, count = [int(it) for it in (sys.argv[3:] + ["200", "64"][len(sys.argv[3:]):])]
    seed = int(os.environ.get("SEED", secrets.randbits(32)))
    chance = random.Random(seed)
    print(f"seed {seed}", flush=True)
    with tempfile.TemporaryDirectory() as room:
        with open(registry) as given, open(f"{room}/registry.json", "w") as own:
            json.dump(dict(json.load(given), access_life=LIFE, refresh_life=LIFE), own)
        subprocess.run([program, "state", "--new", f"{room}/state"], check=True, stdout=subprocess.DEVNULL)
        server = Server(program, f"{room}/registry.json", f"{room}/state")
        server.start()
        consents(Client(server, 0), "read")
        clients = [Client(server, chance.random()) for _ in range(count)]
        asked, faults, slowest = 0, [], 0.0
        for kill in range(1, kills + 1):
            threads = [threading.Thread(target=it.work) for it in clients]
            for it in threads:
                it.start()
            time.sleep(chance.uniform(0.02, 0.4))
            server.kill()
            for it in threads:
                it.join()
            began = time.monotonic()
            server.start()
            slowest = max(slowest, time.monotonic() - began)
            for it in clients:
                it.connection = None
                number, told = it.faults()
                asked += number
                faults += told
            if kill % 20 == 0 or faults:
                print(f"{kill} kills, {sum(it.acknowledged for it in clients)} acknowledged, {asked} asked for again, {len(faults)} wrong, "
                      f"the slowest start {slowest * 1000:.0f} ms, {os.path.getsize(f'{room}/state')} bytes", flush=True)
            if faults:
                break
        server.kill()
    for it in faults[:20]:
        print(it)
    print(f"{len(faults)} wrong of {asked} that were asked for again, after {kill} kills")
    return 1 if faults else 0


if __name__ == "__main__":
    sys.exit(main())
