"""Two servers whose state stands in a cluster of etcd on loopback: the one that leads is killed, stopped, or cut off, again and again, in
the middle of its clients' work, and so are members of the cluster; whoever leads then is asked for all that was acknowledged.

Words: PROGRAM REGISTRY [TEST=ROUNDS..]; the tests are kill, member, both, pause, past, quorum, cut, lossy. Ends by itself, with 0 where nothing
was lost, nothing revived, and no server that was overtaken answered."""

import http.client
import json
import os
import random
import secrets
import signal
import statistics
import subprocess
import sys
import tempfile
import threading
import time
import urllib.parse

from crashes import BOT, LIFE, Client, Gone, Refused, consents
from members import Members, Relay, free_port

LEASE = "3"


class Machine:
    """A server of the two, at a port of its own; it is started again whenever it has ended, as a unit of systemd would be."""

    def __init__(self, room, name, words):
        self.room, self.name, self.words = room, name, words
        self.process, self.ends = None, []
        self.address_at = ("127.0.0.1", free_port())
        self.start()

    def start(self):
        host, port = self.address_at
        with open(f"{self.room}/{self.name}.out", "ab") as out, open(f"{self.room}/{self.name}.err", "ab") as err:
            words = [self.words[0], "start", f"{host}:{port}", *self.words[1:]]
            self.process = subprocess.Popen(words, stdin=subprocess.DEVNULL, stdout=out, stderr=err)

    def again(self):
        if self.process.poll() is not None:
            self.ends.append(self.process.returncode)
            self.start()

    def kill(self):
        self.process.send_signal(signal.SIGKILL)
        self.process.wait()

    def end(self):
        if self.process.poll() is None:
            self.process.send_signal(signal.SIGCONT)
            self.kill()

    def told(self):
        with open(f"{self.room}/{self.name}.err") as err:
            return err.read()


class Asked:
    """A machine, as a client asks it."""

    def __init__(self, machine):
        self.address = machine.address_at


class Pair:
    """The two, of which one leads."""

    def __init__(self, machines):
        self.machines = machines
        self.leads = machines[0]

    @property
    def address(self):
        return self.leads.address_at

    def answers(self, machine, timeout=1.0):
        """Whether a machine grants a token: then it leads."""
        asker = Client(Asked(machine), 0)
        asker.timeout = timeout
        try:
            asker.own_token()
            return True
        except Refused:
            return True
        except (Gone, AssertionError):
            return False

    def await_leader(self, seconds, without=None):
        """Waits until one of them grants a token, and gives how long that took; None where none did."""
        began = time.monotonic()
        while time.monotonic() - began < seconds:
            for machine in self.machines:
                machine.again()
                if machine is not without and self.answers(machine):
                    self.leads = machine
                    return time.monotonic() - began
            time.sleep(0.02)
        return None


class Trial:
    """What is tried, on one cluster and one list."""

    def __init__(self, room, program, registry, count, chance):
        self.room, self.chance = room, chance
        self.members = Members(room)
        self.relays = []
        self.program, self.registry = program, registry
        self.urls = ",".join(self.members.urls)
        self.prefix = "oauthd"
        subprocess.run([program, "state", "--new", "--etcd", self.urls, "--prefix", self.prefix], check=True)
        self.machines = []
        self.pair = None
        self.clients = []
        self.count = count
        self.gaps, self.asked, self.faults = {}, 0, []

    def set_out(self, urls_of):
        """Two servers, each of which reaches the cluster by its own URLs."""
        words = [[self.program, self.registry, "--etcd", urls_of(n), "--prefix", self.prefix, "--lease", LEASE] for n in range(2)]
        self.machines = [Machine(self.room, f"o{n}-{len(self.gaps)}", words[n]) for n in range(2)]
        self.pair = Pair(self.machines)
        if self.pair.await_leader(40) is None:
            raise SystemExit("no server leads: " + " ".join(it.told() for it in self.machines))
        if not self.clients:
            consents(Client(self.pair, 0), "read")
            self.clients = [Client(self.pair, self.chance.random()) for _ in range(self.count)]
        for it in self.clients:
            it.server, it.connection = self.pair, None

    def halt(self):
        for it in self.machines:
            it.end()

    def load(self, fault):
        """All clients at work, until the fault, which is done in the middle of it; they go on until their connection breaks."""
        threads = [threading.Thread(target=it.work) for it in self.clients]
        for it in threads:
            it.start()
        time.sleep(self.chance.uniform(0.1, 0.8))
        done = fault()
        return threads, done

    def ask_all(self):
        for it in self.clients:
            number, told = self.asked_of(it)
            self.asked += number
            self.faults += told

    def asked_of(self, client):
        """What a client finds. Where a server is overtaken meanwhile, since the machine stalls, whoever leads then is asked anew."""
        for _ in range(5):
            client.connection = None
            try:
                return client.faults()
            except Gone:
                self.pair.await_leader(60)
        raise SystemExit("nobody answers: " + " ".join(it.told() for it in self.machines))

    def round(self, test, fault, mend, without_leader=True):
        """One fault, whose takeover is waited for, and all is asked for then."""
        led = self.pair.leads
        threads, done = self.load(lambda: fault(led))
        gap = self.pair.await_leader(40, led if without_leader else None)
        mend(led, done)
        for it in threads:
            it.join()
        if gap is None:
            gap = self.pair.await_leader(60)
            if gap is None:
                raise SystemExit(f"{test}: nobody leads: " + " ".join(it.told() for it in self.machines))
            gap += 40
        self.gaps.setdefault(test, []).append(gap)
        self.ask_all()
        if len(self.gaps[test]) % 10 == 0:
            print(f"    {test}: {len(self.gaps[test])} rounds, {len(self.faults)} wrong", flush=True)
        if self.faults:
            raise SystemExit("\n".join(self.faults[:20]))


def stopped(led):
    """The server is stopped; then it is asked of a token that it has granted."""
    asker = Client(Asked(led), 0)
    asker.timeout = 30
    token = asker.own_token()
    led.process.send_signal(signal.SIGSTOP)
    form = urllib.parse.urlencode(dict(BOT, token=token))
    asker.connection.request("POST", "/introspect", form, {"Content-Type": "application/x-www-form-urlencoded"})
    return asker, token


def woken(trial, led, done):
    """It is woken, when another one leads, and the token was revoked there: it is to tell nothing, and to grant nothing."""
    asker, token = done
    overtaken = trial.pair.leads is not led
    if overtaken:
        assert Client(trial.pair, 0).ask("POST", "/revoke", dict(BOT, token=token))[0] == 200
    led.process.send_signal(signal.SIGCONT)
    try:
        if b"true" in asker.connection.getresponse().read() and overtaken:
            trial.faults.append("a server that was overtaken told that a token is active which was revoked by then")
    except (OSError, http.client.HTTPException):
        pass
    if overtaken and trial.pair.answers(led):
        trial.faults.append("a server that was overtaken granted a token")


def tries(trial, test, rounds):
    members, chance = trial.members, trial.chance
    direct = lambda n: trial.urls
    if test == "kill":
        trial.set_out(direct)
        for _ in range(rounds):
            trial.round(test, lambda led: led.kill(), lambda led, _: None, False)
    elif test == "member":
        trial.set_out(direct)
        for _ in range(rounds):
            def fault(led):
                number = members.leader()
                members.kill(number)
                time.sleep(6)
                led.kill()
                return number
            trial.round(test, fault, lambda led, number: (members.start(number), members.await_leader()), False)
    elif test == "both":
        trial.set_out(direct)
        for _ in range(rounds):
            def fault(led):
                number = members.leader()
                members.kill(number)
                led.kill()
                return number
            trial.round(test, fault, lambda led, number: (members.start(number), members.await_leader()), False)
    elif test in ("pause", "past"):
        trial.set_out(direct)
        for _ in range(rounds):
            if test == "pause":
                trial.round(test, stopped, lambda led, done: woken(trial, led, done))
                continue
            led = trial.pair.leads
            done = stopped(led)
            trial.gaps.setdefault(test, []).append(trial.pair.await_leader(60, led))
            woken(trial, led, done)
            if trial.faults:
                raise SystemExit("\n".join(trial.faults))
    elif test == "quorum":
        trial.set_out(direct)
        for _ in range(rounds):
            def fault(led):
                number = members.leader()
                two = [number, (number + 1) % 3]
                for one in two:
                    members.signal(one, signal.SIGSTOP)
                time.sleep(chance.choice((3, 8, 15)))
                for one in two:
                    members.signal(one, signal.SIGCONT)
                led.kill()
            trial.round(test, fault, lambda led, _: None, False)
    elif test == "cut":
        relays = [Relay(members.ports[n][0]) for n in range(2)]
        trial.set_out(lambda n: relays[n].url)
        for _ in range(rounds):
            def fault(led):
                relays[trial.machines.index(led)].cut = True
            def mend(led, _):
                relays[trial.machines.index(led)].cut = False
            trial.round(test, fault, mend)
    elif test == "lossy":
        relays = [Relay(ports[0], 0.04) for ports in members.ports]
        trial.set_out(lambda n: ",".join(it.url for it in relays))
        for _ in range(rounds):
            trial.round(test, lambda led: led.kill(), lambda led, _: None, False)
        print("    the network: " + ", ".join(f"{sum(it.counts[kind] for it in relays)} {kind}" for kind in relays[0].counts))
    else:
        raise SystemExit(f"no test {test}")
    trial.halt()


def main():
    program, registry = sys.argv[1:3]
    wanted = [it.split("=") for it in sys.argv[3:]]
    seed = int(os.environ.get("SEED", secrets.randbits(32)))
    chance = random.Random(seed)
    print(f"seed {seed}", flush=True)
    with tempfile.TemporaryDirectory() as room:
        with open(registry) as given, open(f"{room}/registry.json", "w") as own:
            json.dump(dict(json.load(given), access_life=LIFE, refresh_life=LIFE), own)
        trial = Trial(room, program, f"{room}/registry.json", int(os.environ.get("CLIENTS", "64")), chance)
        try:
            for test, rounds in wanted:
                tries(trial, test, int(rounds))
                gaps = trial.gaps[test]
                print(f"{test}: {len(gaps)} rounds, seconds until another one granted a token: median {statistics.median(gaps):.2f}, "
                      f"longest {max(gaps):.2f}; {sum(it.acknowledged for it in trial.clients)} acknowledged, "
                      f"{trial.asked} asked for again, {len(trial.faults)} wrong", flush=True)
        finally:
            for name in sorted(os.listdir(room)):
                if name.endswith(".err"):
                    with open(f"{room}/{name}") as err:
                        lines = err.read().splitlines()
                    for line in sorted(set(lines)):
                        print(f"    {name[:-4]}: {lines.count(line)} times: {line}")
            trial.halt()
            trial.members.end()
    return 1 if trial.faults else 0


if __name__ == "__main__":
    sys.exit(main())
