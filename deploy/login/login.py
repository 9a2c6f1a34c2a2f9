#!/usr/bin/env python3
"""A login and a consent page for oauthd, behind nginx, of Python's standard library alone.

    login.py serve CONFIG KEPT    serves; CONFIG is as login.json, KEPT the file of what owners have allowed
    login.py password             reads a password, unseen where it is typed, and prints what CONFIG has of it
    login.py passwords CONFIG     gives each user of CONFIG a new password, and prints them: a line NAME PASSWORD each

nginx passes /login on, and asks /owner itself before each /authorize (deploy/nginx/oauthd.conf). The answer of /owner:

    401                           the user has to see a page first: nginx sends the browser to /login?back=REQUEST
    200 with X-Owner-Key          signed in, and all that is asked for is allowed: nginx passes the key on to oauthd
    200 without it                oauthd shall answer for nobody: the user has denied, or the request is faulty

So an owner's key goes from here to nginx and to oauthd, and never to a browser. A session is a cookie that is signed with
the key in KEPT.key, so it outlives a restart; it ends after eight hours, when its user signs out, which KEPT.ended tells, and
when the user gets another password or goes. A password that a user chose is kept in KEPT.passwords, and counts until CONFIG has
another one of that user than then. What owners have allowed is kept in KEPT, and told to oauthd again whenever it
counts, for oauthd may have forgotten it. A user who denies changes nothing at oauthd: the client hears access_denied, once.

A user of CONFIG with an owner_key is the owner of that key. For one without, CONFIG has the gateway_key of oauthd's registry,
and the owner's number is drawn here, once, and kept in KEPT.numbers: such users come and go without an edit of the registry.
"""
import base64
import concurrent.futures
import getpass
import hashlib
import hmac
import html
import http.client
import http.server
import json
import os
import secrets
import sys
import threading
import time
import urllib.parse

COOKIE = "__Host-login"     # this prefix: browsers take it over TLS alone, for this host alone
SESSION_LIFE = 8 * 3600     # in seconds
DENIALS = 10000             # of more, the oldest is forgotten: its user is asked again
TRIES_OF_USER = (10, 30)    # wrong passwords for one user from one address: so many at once, then one in so many seconds
TRIES = (100, 2)            # and for all users from it
LEAST_PASSWORD = 12         # characters of one that a user chooses
LEAST_NUMBER = 65537        # of an owner; those below are places in oauthd's registry
MOST_NUMBER = 4294967295
HEADERS = (
    ("Cache-Control", "no-store"),
    ("Content-Security-Policy", "default-src 'none'; style-src 'unsafe-inline'; base-uri 'none'; frame-ancestors 'none'"),
    ("X-Frame-Options", "DENY"),
    ("X-Content-Type-Options", "nosniff"),
    ("Referrer-Policy", "no-referrer"),
)   # no form-action: browsers would hold the way back to the client against it
PAGE = """<!DOCTYPE html>
<html lang="en">
<meta charset="utf-8">
<meta name="viewport" content="width=device-width">
<title>{title}</title>
<style>
body {{ font: 1.1em/1.5 sans-serif; max-width: 26em; margin: 3em auto; padding: 0 1em; color: #222 }}
h1 {{ font-size: 1.5em }}
input, button {{ font: inherit; padding: .4em .8em; margin: .2em .4em .2em 0 }}
label {{ display: block }}
.wrong {{ color: #a00 }}
</style>
<h1>{title}</h1>
{body}
</html>
"""


def digest(password, salt):
    return hashlib.scrypt(password.encode(), salt=salt, n=16384, r=8, p=1)


def kept_form(password):
    salt = secrets.token_bytes(16)
    return base64.b64encode(salt).decode() + "$" + base64.b64encode(digest(password, salt)).decode()


def matches(password, form):
    salt, wanted = (base64.b64decode(part) for part in form.split("$"))
    return hmac.compare_digest(digest(password, salt), wanted)


def renew(config_file):
    """Gives each user a new password, which is printed here and known nowhere else."""
    with open(config_file, encoding="utf-8") as file:
        config = json.load(file)
    drawn = {name: secrets.token_urlsafe(12) for name in config["users"]}
    with concurrent.futures.ThreadPoolExecutor(4) as pool:
        for user, form in zip(config["users"].values(), pool.map(kept_form, drawn.values())):
            user["password"] = form
    with open(config_file, "w", encoding="utf-8") as file:
        json.dump(config, file, indent=2, ensure_ascii=False)
    for name, password in drawn.items():
        print(name, password)


def write_whole(path, data):
    """Puts a file with these bytes in the place of the one at that path: a crash leaves the one or the other."""
    with open(path + ".new", "wb", opener=lambda name, flags: os.open(name, flags, 0o600)) as file:
        file.write(data)
        file.flush()
        os.fsync(file.fileno())
    os.replace(path + ".new", path)


class Session:
    """A browser whose user has signed in: its number, and until when, in seconds since 1970."""

    def __init__(self, user, ends, number):
        self.user = user
        self.ends = ends
        self.number = number


class Tries:
    """How many wrong passwords there may be, by whom: so many at once, and then one in so many seconds."""

    def __init__(self, at_once, seconds):
        self.at_once = at_once
        self.seconds = seconds
        self.free = {}          # by whom: the moment at which all that were wrong are forgiven
        self.lock = threading.Lock()

    def take(self, who):
        """Takes one, if one is left. It is given back where the password is right."""
        now = time.monotonic()
        with self.lock:
            free = max(self.free.get(who, now), now)
            if free - now > (self.at_once - 1) * self.seconds:
                return False
            if len(self.free) > 10000:
                self.free = {w: at for w, at in self.free.items() if at > now}
            self.free[who] = free + self.seconds
            return True

    def give_back(self, who):
        with self.lock:
            if who in self.free:
                self.free[who] -= self.seconds


class Login:
    def __init__(self, config_file, kept_file):
        with open(config_file, encoding="utf-8") as file:
            config = json.load(file)
        self.listen = config["listen"]
        self.oauthd = config["oauthd"]
        self.users = config["users"]
        self.gateway_key = config.get("gateway_key")
        if not self.gateway_key and any(not user.get("owner_key") for user in self.users.values()):
            sys.exit("a user has no owner_key, and there is no gateway_key")
        self.clients = config["clients"]
        self.scopes = config["scopes"]
        self.kept_file = kept_file
        self.key = self.kept_key()
        self.denied = {}        # by a session's number, the request that was denied last: it goes to oauthd without a key, once
        self.tries_of_user = Tries(*TRIES_OF_USER)
        self.tries = Tries(*TRIES)
        self.sessions_lock = threading.Lock()
        self.kept_lock = threading.RLock()
        self.at_once = threading.Semaphore(4)       # passwords that are looked at: each takes 16 MB
        self.nobody = kept_form(secrets.token_urlsafe(16))
        self.kept = self.read(kept_file)
        self.ended = self.read(kept_file + ".ended")    # the sessions that were left, and until when they would have lasted
        self.numbers = self.read(kept_file + ".numbers")        # of owners, by their users' names
        self.chosen = self.read(kept_file + ".passwords")       # by users' names: what CONFIG had of the password then, and what counts

    def read(self, path):
        try:
            with open(path, encoding="utf-8") as file:
                return json.load(file)
        except FileNotFoundError:
            return {}

    def kept_key(self):
        """The key of KEPT.key, which is made where there is none."""
        try:
            with open(self.kept_file + ".key", "rb") as file:
                key = file.read()
        except FileNotFoundError:
            key = b""
        if len(key) != 32:
            key = secrets.token_bytes(32)
            write_whole(self.kept_file + ".key", key)
        return key

    # Sessions

    def token(self, name):
        """What each form carries that is shown to the browser with this cookie: other sites do not know it."""
        return hmac.new(self.key, b"form " + name.encode(), "sha256").hexdigest()

    def signature(self, user, ends, number):
        """Of a session. Another password of its user gives another one."""
        told = json.dumps([user, ends, number, self.form_of(user)])
        return hmac.new(self.key, b"session " + told.encode(), "sha256").hexdigest()

    def begin(self, user):
        """The name of a new session."""
        ends = int(time.time()) + SESSION_LIFE
        number = secrets.token_urlsafe(16)
        told = base64.urlsafe_b64encode(json.dumps([user, ends, number]).encode()).decode().rstrip("=")
        return told + "." + self.signature(user, ends, number)

    def session(self, name):
        """The session of this name, if it is one that was begun here and has not ended."""
        told, _, signature = name.partition(".")
        try:
            user, ends, number = json.loads(base64.urlsafe_b64decode(told + "=" * (-len(told) % 4)))
            good = user in self.users and hmac.compare_digest(signature, self.signature(user, ends, number))
        except (ValueError, TypeError, RecursionError):     # no session's name
            return None
        return Session(user, ends, number) if good and ends > time.time() and number not in self.ended else None

    def end(self, name):
        session = self.session(name)
        if session is None:
            return
        with self.sessions_lock:
            now = time.time()
            self.denied.pop(session.number, None)
            self.ended = {number: ends for number, ends in self.ended.items() if ends > now}
            self.ended[session.number] = session.ends
            write_whole(self.kept_file + ".ended", json.dumps(self.ended).encode())

    def deny(self, session, back):
        with self.sessions_lock:
            self.denied.pop(session.number, None)
            self.denied[session.number] = back
            if len(self.denied) > DENIALS:
                del self.denied[next(iter(self.denied))]

    def was_denied(self, session, back):
        """Was this request denied last? It is asked once."""
        with self.sessions_lock:
            if self.denied.get(session.number) != back:
                return False
            del self.denied[session.number]
            return True

    def may_try(self, user, address):
        """Takes a try of this address for this user, if it has one."""
        if not self.tries_of_user.take((user, address)):
            return False
        if self.tries.take(address):
            return True
        self.tries_of_user.give_back((user, address))
        return False

    def form_of(self, user):
        """What is kept of the user's password."""
        listed = self.users.get(user, {}).get("password", self.nobody)
        then, chosen = self.chosen.get(user, (listed, listed))
        return chosen if then == listed else listed

    def choose(self, user, password):
        """The user's password is this one from now on."""
        with self.at_once:
            form = kept_form(password)
        with self.kept_lock:
            chosen = {**self.chosen, user: (self.users[user]["password"], form)}
            write_whole(self.kept_file + ".passwords", json.dumps(chosen).encode())
            self.chosen = chosen

    def entered(self, user, password, address):
        """Is this the user's password? Takes as long for users that there are not."""
        form = self.form_of(user)
        with self.at_once:
            right = matches(password, form) and user in self.users
        if right:
            self.tries_of_user.give_back((user, address))
            self.tries.give_back(address)
        return right

    # What oauthd knows owners by

    def number(self, user):
        """The number of the user's owner, which is nobody else's: drawn, so that it is no former one, also if the file is lost."""
        with self.kept_lock:
            while user not in self.numbers:
                number = LEAST_NUMBER + secrets.randbelow(MOST_NUMBER - LEAST_NUMBER + 1)
                if number not in self.numbers.values():
                    write_whole(self.kept_file + ".numbers", json.dumps({**self.numbers, user: number}).encode())
                    self.numbers[user] = number
            return self.numbers[user]

    def key_of(self, user):
        """What X-Owner-Key is to be for the user: its owner's key, or the gateway's with the number."""
        return self.users[user].get("owner_key") or f"{self.gateway_key} {self.number(user)}"

    # What is asked of oauthd

    def ask(self, method, path, headers, body=None):
        connection = http.client.HTTPConnection(self.oauthd, timeout=10)
        try:
            connection.request(method, path, body, headers)
            reply = connection.getresponse()
            reply.read()
            return reply.status, reply.getheader("Location")
        except (OSError, http.client.HTTPException):
            return 503, None
        finally:
            connection.close()

    def asked(self, back):
        """What the request asks an owner for: client, scopes and the address to go back to. None where oauthd
        refuses it whoever the owner is: asked without a key, it then gives another answer than access_denied."""
        if not request_in(back):
            return None
        status, location = self.ask("GET", back, {})
        if status != 302:
            return None
        to = urllib.parse.urlsplit(location)
        if urllib.parse.parse_qs(to.query).get("error") != ["access_denied"]:
            return None
        parameters = dict(urllib.parse.parse_qsl(urllib.parse.urlsplit(back).query))
        client = parameters.get("client_id")
        if client not in self.clients:
            return None
        scopes = parameters.get("scope", self.clients[client]["scope"]).split(" ")
        return client, scopes, f"{to.scheme}://{to.netloc}"

    def consent(self, user, client, scopes):
        """Tells oauthd that this user lets this client have these scopes, and no others."""
        body = urllib.parse.urlencode({"client_id": client, "scope": " ".join(scopes)})
        headers = {"X-Owner-Key": self.key_of(user), "Content-Type": "application/x-www-form-urlencoded"}
        return self.ask("POST", "/consent", headers, body)[0] == 200

    def allow(self, user, client, scopes):
        """Keeps it and tells it, in one go for all users."""
        with self.kept_lock:
            if not self.consent(user, client, scopes):
                return False
            self.kept.setdefault(user, {})[client] = scopes
            write_whole(self.kept_file, json.dumps(self.kept).encode())
            return True

    def owner_key(self, session, back):
        """The answer of /owner: a key, None for no key, or False where the user has to see a page first."""
        if session is None:
            return False
        if self.was_denied(session, back):
            return None
        asked = self.asked(back)
        if asked is None:
            return None
        client, scopes, _ = asked
        with self.kept_lock:
            kept = self.kept.get(session.user, {}).get(client, [])
            if not set(scopes) <= set(kept) or not self.consent(session.user, client, kept):
                return False
        return self.key_of(session.user)


def request_in(text):
    """A request for /authorize as a browser sends it, or the empty text: nobody is sent to another place by a link."""
    good = text.startswith("/authorize?") and all("!" <= c <= "~" for c in text)
    return text if good else ""


class Handler(http.server.BaseHTTPRequestHandler):
    protocol_version = "HTTP/1.1"
    server_version = "login"
    sys_version = ""
    timeout = 30

    def log_message(self, form, *words):
        pass                                        # nginx has a log; a line here would have requests in it

    def reply(self, status, body="", headers=()):
        data = body.encode()
        self.send_response(status)
        for name, value in HEADERS + tuple(headers):
            self.send_header(name, value)
        if data:
            self.send_header("Content-Type", "text/html; charset=utf-8")
        self.send_header("Content-Length", str(len(data)))
        self.end_headers()
        self.wfile.write(data)

    def page(self, title, body, status=200, headers=()):
        self.reply(status, PAGE.format(title=html.escape(title), body=body), headers)

    def send(self, back, headers=()):
        self.reply(303, headers=(("Location", back),) + tuple(headers))

    def cookie(self, name):
        life = "" if name else "; Max-Age=0"
        return (("Set-Cookie", f"{COOKIE}={name}; Path=/{life}; Secure; HttpOnly; SameSite=Lax"),)

    def session_name(self):
        for part in self.headers.get("Cookie", "").split(";"):
            name, _, value = part.strip().partition("=")
            if name == COOKIE:
                return value
        return ""

    def do_GET(self):
        login = self.server.login
        path, _, query = self.path.partition("?")
        session = login.session(self.session_name())
        if path == "/owner":
            key = login.owner_key(session, self.headers.get("X-Request-Uri", ""))
            if key is False:
                self.reply(401)
            else:
                self.reply(200, headers=(("X-Owner-Key", key),) if key else ())
        elif path == "/login":
            # All behind back= is the request as the browser has sent it, with its own ? and &.
            back = query[len("back="):] if query.startswith("back=") else ""
            self.show(session, self.session_name(), request_in(back))
        else:
            self.reply(404)

    def form(self, name, back, inner):
        return (f'<form method="post" action="/login"><input type="hidden" name="token" '
                f'value="{self.server.login.token(name)}"><input type="hidden" name="back" '
                f'value="{html.escape(back)}">{inner}</form>')

    def show(self, session, name, back, wrong=""):
        """The page that comes next: who are you, this client wants these scopes, or what you have allowed."""
        login = self.server.login
        if session is None:
            headers = () if name else self.cookie(name := secrets.token_urlsafe(32))
            return self.page("Who are you?", self.form(name, back, (
                (f'<p class="wrong">{wrong}</p>' if wrong else "") +
                '<p><label>Name <input name="user" autocomplete="username" autofocus></label>'
                '<label>Password <input name="password" type="password" autocomplete="current-password"></label></p>'
                '<button name="do" value="enter">Sign in</button>')), 403 if wrong else 200, headers)
        user = html.escape(session.user)
        leave = self.form(name, "", f'<p>You are {user}. <button name="do" value="leave">Sign out</button></p>')
        if not back:
            kept = login.kept.get(session.user, {})
            rows = "".join(self.form(name, "", (
                f'<p>{html.escape(login.clients.get(client, {}).get("name", client))}: {html.escape(", ".join(scopes))} '
                f'<input type="hidden" name="client" value="{html.escape(client)}">'
                '<button name="do" value="withdraw">Withdraw</button></p>')) for client, scopes in list(kept.items()) if scopes)
            change = self.form(name, "", (
                (f'<p class="wrong">{wrong}</p>' if wrong else "") +
                '<p><label>Your password <input name="password" type="password" autocomplete="current-password"></label>'
                '<label>A new one <input name="new" type="password" autocomplete="new-password"></label>'
                '<label>The new one again <input name="again" type="password" autocomplete="new-password"></label>'
                '<button name="do" value="change">Change it</button></p>'))
            return self.page("What you have allowed", (rows or "<p>Nothing.</p>") + change + leave, 403 if wrong else 200)
        asked = login.asked(back)
        if asked is None:
            return self.send(back)                  # oauthd says what is wrong with it
        client, scopes, to = asked
        listed = "".join(f"<li>{html.escape(login.scopes.get(scope, scope))} ({html.escape(scope)})</li>" for scope in scopes)
        self.page(f"{login.clients[client]['name']} asks", self.form(name, back, (
            f"<p><b>{html.escape(login.clients[client]['name'])}</b> wants to:</p><ul>{listed}</ul>"
            f"<p>You then go back to {html.escape(to)}.</p>"
            '<button name="do" value="allow">Allow</button><button name="do" value="deny">Deny</button>')) + leave)

    def enter(self, form, name, session, back):
        """Signs a user in, by name and password; or changes the password of the one who is, by that of before."""
        login, changes = self.server.login, form["do"] == "change"
        user = session.user if changes else form.get("user", "")
        address = self.headers.get("X-Address", "")             # nginx's word
        if not login.may_try(user, address):
            return self.page("Too many tries", "<p>Wait for a minute, and try again.</p>", 429)
        if not login.entered(user, form.get("password", ""), address):
            wrong = "This is not your password." if changes else "Name and password do not belong together."
            return self.show(session if changes else None, name, back, wrong)
        if changes:
            new = form.get("new", "")
            if len(new) < LEAST_PASSWORD or new != form.get("again"):
                return self.show(session, name, "", f"A new password has {LEAST_PASSWORD} characters or more, twice the same.")
            login.choose(user, new)                 # no session of before is one any more
        login.end(name)                             # and a new name: nobody else can have set it
        self.send(back or "/login", self.cookie(login.begin(user)))

    def do_POST(self):
        login = self.server.login
        length = self.headers.get("Content-Length", "")
        if self.path != "/login" or not length.isdecimal() or int(length) > 65536:
            self.close_connection = True
            return self.reply(400)
        form = dict(urllib.parse.parse_qsl(self.rfile.read(int(length)).decode("utf-8", "replace")))
        name = self.session_name()
        session = login.session(name)
        back = request_in(form.get("back", ""))
        if not name or not hmac.compare_digest(form.get("token", "").encode(), login.token(name).encode()):
            # Another site's form, or one from before a restart: nothing is done.
            return self.page("Again, please", '<p>This page was too old. <a href="' + html.escape(
                "/login?back=" + back if back else "/login") + '">Go on</a></p>', 403)
        do = form.get("do", "")
        if do == "enter" or do == "change" and session:
            return self.enter(form, name, session, back)
        if session is None:
            return self.show(None, name, back)
        if do == "leave":
            login.end(name)
            return self.send("/login", self.cookie(""))
        if do == "withdraw":
            client = form.get("client", "")
            if client in login.kept.get(session.user, {}):
                login.allow(session.user, client, [])
            return self.send("/login")
        asked = login.asked(back) if back else None
        if do == "allow" and asked:
            client, scopes, _ = asked
            with login.kept_lock:
                kept = login.kept.get(session.user, {}).get(client, [])
                if not login.allow(session.user, client, kept + [s for s in scopes if s not in kept]):
                    return self.page("Not now", "<p>The server could not keep this. Try again later.</p>", 503)
        elif do == "deny" and back:
            login.deny(session, back)               # oauthd tells the client
        self.send(back or "/login")


class Server(http.server.ThreadingHTTPServer):
    daemon_threads = True
    request_queue_size = 128


def main(words):
    if words == ["password"]:
        print(kept_form(getpass.getpass() if sys.stdin.isatty() else sys.stdin.readline().rstrip("\n")))
    elif len(words) == 2 and words[0] == "passwords":
        renew(words[1])
    elif len(words) == 3 and words[0] == "serve":
        login = Login(words[1], words[2])
        host, _, port = login.listen.rpartition(":")
        server = Server((host, int(port)), Handler)
        server.login = login
        print(f"listening {login.listen}", flush=True)
        server.serve_forever()
    else:
        sys.exit(__doc__)


if __name__ == "__main__":
    main(sys.argv[1:])
