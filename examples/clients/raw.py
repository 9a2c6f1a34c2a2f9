"""Sends a server requests that libraries send now and then, byte by byte, and compares what comes back.

Words: the server's address, a client's identifier and its secret (base64url characters), and, if wanted, the port of
nginx with TLS in front, which then gets a part of them too; the variable CA names the file of its certificate. Prints a
line for each, with DIFFERS where another answer came, and ends with 0 where none differs.
"""
import base64
import hashlib
import json
import os
import socket
import ssl
import sys
import threading
import urllib.parse

host, port = sys.argv[1].rsplit(":", 1)
identifier, secret = sys.argv[2:4]
tls_port = int(sys.argv[4]) if len(sys.argv) > 4 else None
BACK = "https://app.example/cb"
VERIFIER = "dBjftJeZ4CVP-mB92K27uhbUJU1p1r_wW1gFWFOEjXk"
CHALLENGE = base64.urlsafe_b64encode(hashlib.sha256(VERIFIER.encode()).digest()).rstrip(b"=").decode()
BASIC = b"Authorization: Basic " + base64.b64encode(f"{identifier}:{secret}".encode()) + b"\r\n"
FORM = b"Content-Type: application/x-www-form-urlencoded\r\n"
OWNER = b"X-Owner-Key: ann-key\r\n"
ALONE = b"grant_type=client_credentials"
NEXT = b"GET /nothing HTTP/1.1\r\nHost: x\r\n\r\n"
count = 0
differing = 0


class Wire:
    """A connection, and what came over it that was not looked at yet."""

    def __init__(self, through_nginx=False):
        self.socket = socket.create_connection((host, tls_port if through_nginx else int(port)), timeout=10)
        if through_nginx:
            self.socket = ssl.create_default_context(cafile=os.environ["CA"]).wrap_socket(self.socket, server_hostname="localhost")
        self.rest = b""

    def more(self):
        """Reads once. False at the end."""
        try:
            piece = self.socket.recv(65536)
        except ConnectionError:
            piece = b""
        self.rest += piece
        return piece != b""

    def reply(self, is_head=False):
        """A reply: its status, its header lines and its body. None at the end."""
        while b"\r\n\r\n" not in self.rest:
            if not self.more():
                return None
        head, self.rest = self.rest.split(b"\r\n\r\n", 1)
        first, *lines = head.decode().split("\r\n")
        fields = {name.lower(): value for name, value in (line.split(": ", 1) for line in lines)}
        length = 0 if is_head else int(fields.get("content-length", 0))
        while len(self.rest) < length:
            if not self.more():
                return None
        body, self.rest = self.rest[:length], self.rest[length:]
        return int(first.split()[1]), fields, body.decode()


def said(reply):
    """What a reply says, in short."""
    if reply is None:
        return "no reply"
    status, fields, body = reply
    if body[:1] == "<":
        return f"{status} of nginx"
    if not body:
        return f"{status} no body"
    told = json.loads(body)
    if "error" in told:
        return f"{status} {told['error']}"
    return f"{status} " + ("tokens" if "access_token" in told else body)


def outcome(request, through_nginx=False, is_head=False):
    """What a request is answered, and whether its connection is kept: then another request is answered on it."""
    wire = Wire(through_nginx)
    wire.socket.sendall(request)
    reply = wire.reply(is_head)
    try:
        wire.socket.sendall(NEXT)
        kept = wire.reply()
    except OSError:
        kept = None
    wire.socket.close()
    return reply, "kept" if kept and kept[0] == 404 else "closed"


def told(name, got, wanted):
    """Prints a line, and counts it."""
    global count, differing
    count += 1
    print(f"raw, {name}: {got}")
    if got != wanted:
        differing += 1
        print(f"DIFFERS: wanted {wanted}")


def tries(name, request, wanted, through_nginx=False, is_head=False):
    """Makes a request, and compares what it is answered."""
    reply, end = outcome(request, through_nginx, is_head)
    told(name + (" (through nginx)" if through_nginx else ""), f"{said(reply)}, {end}", wanted)
    return reply


def post(path, body, fields=BASIC + FORM, version=b"1.1"):
    """A POST with a body of known length."""
    return b"POST %s HTTP/%s\r\nHost: localhost\r\n%sContent-Length: %d\r\n\r\n%s" % (path, version, fields, len(body), body)


def authorize(more, challenge=CHALLENGE):
    """A request for a code, with more of a query."""
    asked = {"response_type": "code", "client_id": identifier, "redirect_uri": BACK, "scope": "read",
             "code_challenge": challenge, "code_challenge_method": "S256"}
    query = urllib.parse.urlencode(asked).encode() + more
    return b"GET /authorize?%s HTTP/1.1\r\nHost: localhost\r\n%s\r\n" % (query, OWNER)


def ask(request):
    """A reply, where it does not matter whether its connection is kept."""
    wire = Wire()
    wire.socket.sendall(request)
    reply = wire.reply()
    wire.socket.close()
    return reply


def tokens():
    """Tokens for a new code."""
    location = ask(authorize(b""))[1]["location"]
    code = urllib.parse.parse_qs(urllib.parse.urlsplit(location).query)["code"][0]
    form = {"grant_type": "authorization_code", "code": code, "redirect_uri": BACK, "code_verifier": VERIFIER}
    return json.loads(ask(post(b"/token", urllib.parse.urlencode(form).encode()))[2])


def is_active(token):
    return json.loads(ask(post(b"/introspect", b"token=" + token.encode()))[2])["active"]


def heads():
    """What libraries put into heads."""
    tries("a request as wanted", post(b"/token", ALONE), "200 tokens, kept")
    tries("Connection: close", post(b"/token", ALONE, BASIC + FORM + b"Connection: close\r\n"), "200 tokens, kept")
    tries("Expect: 100-continue, with the body at once", post(b"/token", ALONE, BASIC + FORM + b"Expect: 100-continue\r\n"), "200 tokens, kept")
    head, body = post(b"/token", ALONE, BASIC + FORM + b"Expect: 100-continue\r\n").split(b"\r\n\r\n")
    wire = Wire()
    wire.socket.sendall(head + b"\r\n\r\n")
    wire.socket.settimeout(2)
    try:
        first = said(wire.reply())
    except TimeoutError:
        first = "nothing for two seconds"
    wire.socket.settimeout(10)
    wire.socket.sendall(body)
    told("Expect: 100-continue, with the body held back", f"{first}, then {said(wire.reply())}", "nothing for two seconds, then 200 tokens")
    wire.socket.close()
    chunked = b"POST /token HTTP/1.1\r\nHost: localhost\r\n" + BASIC + FORM + b"Transfer-Encoding: chunked\r\n\r\n%x\r\n%s\r\n0\r\n\r\n" % (len(ALONE), ALONE)
    tries("a chunked body", chunked, "400 no body, closed")
    tries("HTTP/1.0", post(b"/token", ALONE, version=b"1.0"), "400 no body, closed")
    tries("no Host", post(b"/token", ALONE).replace(b"Host: localhost\r\n", b""), "200 tokens, kept")
    tries("a whole URL as target", post(b"http://localhost/token", ALONE), "404 no body, kept")
    tries("another Host", post(b"/token", ALONE).replace(b"Host: localhost", b"Host: other.example"), "200 tokens, kept")
    tries("HEAD of /nothing", b"HEAD /nothing HTTP/1.1\r\nHost: localhost\r\n\r\n", "404 no body, kept", is_head=True)
    tries("HEAD of /token", b"HEAD /token HTTP/1.1\r\nHost: localhost\r\n\r\n", "405 no body, kept", is_head=True)
    tries("HEAD of /authorize", authorize(b"").replace(b"GET", b"HEAD", 1), "405 no body, kept", is_head=True)
    tries("OPTIONS of /token", b"OPTIONS /token HTTP/1.1\r\nHost: localhost\r\n\r\n", "405 no body, kept")
    tries("POST to /authorize", authorize(b"").replace(b"GET", b"POST", 1), "405 no body, kept")
    tries("the path with a slash behind it", post(b"/token/", ALONE), "404 no body, kept")
    tries("a query behind /token", post(b"/token?x=1", ALONE), "200 tokens, kept")
    if tls_port:
        tries("Connection: close", post(b"/token", ALONE, BASIC + FORM + b"Connection: close\r\n"), "200 tokens, closed", through_nginx=True)
        tries("a chunked body", chunked, "200 tokens, kept", through_nginx=True)
        tries("HTTP/1.0", post(b"/token", ALONE, version=b"1.0"), "200 tokens, closed", through_nginx=True)
        tries("a whole URL as target", post(b"https://localhost/token", ALONE), "200 tokens, kept", through_nginx=True)
        tries("no Host", post(b"/token", ALONE).replace(b"Host: localhost\r\n", b""), "400 of nginx, closed", through_nginx=True)
        tries("HEAD of /token", b"HEAD /token HTTP/1.1\r\nHost: localhost\r\n\r\n", "405 no body, kept", through_nginx=True, is_head=True)
        tries("OPTIONS of /token", b"OPTIONS /token HTTP/1.1\r\nHost: localhost\r\n\r\n", "405 no body, kept", through_nginx=True)
        tries("the path with a slash behind it", post(b"/token/", ALONE), "404 of nginx, kept", through_nginx=True)
        tries("a query behind /token", post(b"/token?x=1", ALONE), "200 tokens, kept", through_nginx=True)
        tries("a form without Content-Type", post(b"/token", ALONE, BASIC), "200 tokens, kept", through_nginx=True)
        tries("a body in JSON", post(b"/token", b"{}", BASIC + b"Content-Type: application/json\r\n"), "400 invalid_request, kept", through_nginx=True)
        tries("grant_type twice", post(b"/token", ALONE + b"&" + ALONE), "400 invalid_request, kept", through_nginx=True)
        tries("Authorization twice", post(b"/token", ALONE, BASIC + BASIC + FORM), "400 of nginx, closed", through_nginx=True)
        tries("a body of 65,537 bytes", post(b"/token", b"a=" + b"b" * 65535), "413 of nginx, closed", through_nginx=True)
        wire = Wire(through_nginx=True)
        wire.socket.sendall(head + b"\r\n\r\n")
        first = said(wire.reply())
        wire.socket.sendall(body)
        told("Expect: 100-continue, with the body held back (through nginx)", f"{first}, then {said(wire.reply())}", "100 no body, then 200 tokens")
        wire.socket.close()


def faulty_heads():
    """Each kind of head that gets the 400 without a body."""
    wanted = "400 no body, closed"
    for name in (b"Authorization", b"Content-Type", b"X-Owner-Key", b"X-Operator-Key"):
        twice = b"%s: a\r\n%s: a\r\n" % (name, name)
        tries(f"{name.decode()} twice", post(b"/token", ALONE, twice), wanted)
    tries("Content-Length twice", post(b"/token", ALONE, BASIC + FORM + b"Content-Length: 29\r\n"), wanted)
    tries("Content-Length of six digits", post(b"/token", ALONE).replace(b"Length: 29", b"Length: 000029"), wanted)
    tries("Content-Length with a sign", post(b"/token", ALONE).replace(b"Length: 29", b"Length: +29"), wanted)
    tries("a body of 65,537 bytes", post(b"/token", b"a=" + b"b" * 65535), wanted)
    tries("a body of 65,536 bytes", post(b"/token", ALONE + b"&a=" + b"b" * (65536 - len(ALONE) - 3)), "200 tokens, kept")
    few = b"GET /nothing HTTP/1.1\r\nHost: x\r\n"
    tries("64 header lines", few + b"X: y\r\n" * 63 + b"\r\n", "404 no body, kept")
    tries("65 header lines", few + b"X: y\r\n" * 64 + b"\r\n", wanted)
    padding = 8192 - len(few + b"X: \r\n\r\n")
    tries("a head of 8,192 bytes", few + b"X: " + b"y" * padding + b"\r\n\r\n", "404 no body, kept")
    tries("a head of 8,193 bytes", few + b"X: " + b"y" * (padding + 1) + b"\r\n\r\n", wanted)
    tries("a space before a colon", few + b"X : y\r\n\r\n", wanted)
    tries("a header line that goes on in the next one", few + b"X: y\r\n z\r\n\r\n", wanted)
    tries("a zero byte in a header line", few + b"X: a\0b\r\n\r\n", wanted)
    tries("the start of TLS", b"\x16\x03\x01\x02\x00\x01\x00\x01\xfc\x03\x03", wanted)
    tries("HTTP/2 without TLS", b"PRI * HTTP/2.0\r\n\r\nSM\r\n\r\n", wanted)
    wire = Wire()
    wire.socket.sendall(NEXT + few + b"Transfer-Encoding: chunked\r\n\r\n" + NEXT)
    told("a faulty head between two requests", ", ".join(said(wire.reply()) for _ in range(3)), "404 no body, 400 no body, no reply")
    wire.socket.close()


def forms():
    """What libraries put into forms."""
    refused = "400 invalid_request, kept"
    asked = json.dumps({"grant_type": "client_credentials"}).encode()
    tries("a body in JSON", post(b"/token", asked, BASIC + b"Content-Type: application/json\r\n"), refused)
    tries("a form that is called text/plain", post(b"/token", ALONE, BASIC + b"Content-Type: text/plain\r\n"), refused)
    tries("a form that is called multipart/form-data", post(b"/token", ALONE, BASIC + b"Content-Type: multipart/form-data; boundary=x\r\n"), refused)
    tries("a form without Content-Type", post(b"/token", ALONE, BASIC), "200 tokens, kept")
    tries("a form with a charset", post(b"/token", ALONE, BASIC + FORM.replace(b"\r\n", b";charset=UTF-8\r\n")), "200 tokens, kept")
    tries("a form with a tab before its Content-Type", post(b"/token", ALONE, BASIC + FORM.replace(b": ", b":\t")), "200 tokens, kept")
    tries("JSON without Content-Type", post(b"/token", asked, BASIC), refused)
    tries("no body at all", post(b"/token", b""), refused)
    tries("grant_type in the query alone", post(b"/token?" + ALONE, b""), refused)
    tries("grant_type twice", post(b"/token", ALONE + b"&" + ALONE), refused)
    tries("an unknown parameter twice", post(b"/token", ALONE + b"&x=1&x=2"), refused)
    tries("a parameter twice, the first time without a value", post(b"/token", b"scope=&scope=read&" + ALONE), "200 tokens, kept")
    tries("scope as two parameters", post(b"/token", ALONE + b"&scope=read&scope=write"), refused)
    tries("two names of a scope with a comma", post(b"/token", ALONE + b"&scope=read,write"), "400 invalid_scope, kept")
    tries("two names of a scope with two spaces", post(b"/token", ALONE + b"&scope=read++write"), "400 invalid_scope, kept")
    tries("resource and audience, which are not known", post(b"/token", ALONE + b"&resource=https%3A%2F%2Fx&audience=x"), "200 tokens, kept")
    for name, bytes_sent in (("bytes that are no UTF-8", b"%FF"), ("U+FFFD", b"%EF%BF%BD"), ("U+FFFD, not encoded", b"\xef\xbf\xbd")):
        tries(f"{name} in an unknown parameter's value", post(b"/token", ALONE + b"&x=" + bytes_sent), refused)
        tries(f"{name} in an unknown parameter's name", post(b"/token", ALONE + b"&" + bytes_sent + b"=x"), refused)
        tries(f"{name} in a name without a value", post(b"/token", ALONE + b"&" + bytes_sent + b"="), "200 tokens, kept")
    tries("other signs beyond ASCII", post(b"/token", ALONE + b"&%C3%A4=%E2%82%AC"), "200 tokens, kept")
    tries("a % without two digits behind it", post(b"/token", ALONE + b"&x=5%"), "200 tokens, kept")


def credentials():
    """What libraries put into the Authorization header."""
    refused = "401 invalid_client, kept"
    text = BASIC[21:-2]
    tries("basic in small letters", post(b"/token", ALONE, b"Authorization: basic " + text + b"\r\n"), "200 tokens, kept")
    tries("Basic and two spaces", post(b"/token", ALONE, b"Authorization: Basic  " + text + b"\r\n"), refused)
    bare = base64.b64encode(f"{identifier}:{secret}".encode())
    padded = bare if bare.endswith(b"=") else base64.b64encode(f"{identifier}:{secret}=".encode())
    tries("base64 without its padding", post(b"/token", ALONE, b"Authorization: Basic " + padded.rstrip(b"=") + b"\r\n"), refused)
    for name, text in (("with / = : & ? and a %, as it is", "other:5%-a/b=c:d&e?f~g"), ("with + and %2B, as it is", "signs:50%+tax%2Bmore/and=so:on&x"),
                       ("with + and %2B, encoded", "signs:" + urllib.parse.quote_plus("50%+tax%2Bmore/and=so:on&x"))):
        header = b"Authorization: Basic " + base64.b64encode(text.encode()) + b"\r\n"
        tries(f"a secret {name}", post(b"/token", ALONE, header), refused if "+" in text else "200 tokens, kept")
    tries("Bearer", post(b"/introspect", b"token=x", b"Authorization: Bearer x\r\n" + FORM), refused)
    tries("no credentials", post(b"/token", ALONE, FORM), refused)
    tries("client_id alone", post(b"/token", ALONE + b"&client_id=" + identifier.encode(), FORM), refused)
    tries("the header, and client_id beside it", post(b"/token", ALONE + b"&client_id=" + identifier.encode()), "200 tokens, kept")
    tries("the header, and another client_id", post(b"/token", ALONE + b"&client_id=signs"), "400 invalid_request, kept")
    tries("the header, and client_secret beside it", post(b"/token", ALONE + b"&client_secret=" + secret.encode()), "400 invalid_request, kept")
    tries("the header, and an empty client_secret", post(b"/token", ALONE + b"&client_secret="), "200 tokens, kept")
    tries("credentials in the query", post(b"/token?client_id=%s&client_secret=%s" % (identifier.encode(), secret.encode()), ALONE, FORM), refused)


def codes():
    """Requests for a code."""
    for name, state, back in (("spaces as +", b"a+b", "a+b"), ("spaces as %20", b"a%20b", "a+b"), ("a + as %2B", b"a%2Bb", "a%2Bb"),
                              ("signs of URLs", b"%2F%3F%26%3D%23%25", "%2F%3F%26%3D%23%25"), ("base64", b"YQ%3D%3D", "YQ%3D%3D"),
                              ("signs that need no code", b"a.b-c_d*e~f", "a.b-c_d*e%7Ef"), ("an a with dots", b"%C3%A4", "%C3%A4")):
        status, fields, _ = ask(authorize(b"&state=" + state))
        sent_back = fields.get("location", "").rpartition("&state=")[2]
        told(f"a state with {name}", f"{status} state={sent_back}", f"302 state={back}")
    status, fields, _ = ask(authorize(b"&state="))
    told("an empty state", f"{status} " + ("state" if "state" in fields["location"] else "no state"), "302 no state")
    tries("a state that is no UTF-8", authorize(b"&state=%FF"), "400 invalid_request, kept")
    tries("a state twice", authorize(b"&state=a&state=b"), "400 invalid_request, kept")
    tries("an unknown parameter twice in the query", authorize(b"&x=a&x=b"), "400 invalid_request, kept")
    tries("a redirect_uri with a query", authorize(b"").replace(b"cb&", b"cb%3Fx%3D1&"), "400 invalid_request, kept")
    without = authorize(b"").replace(b"redirect_uri=" + urllib.parse.quote_plus(BACK).encode() + b"&", b"")
    tries("no redirect_uri", without, "400 invalid_request, kept")
    for name, request, error in (
            ("code_challenge_method=plain", authorize(b"").replace(b"S256", b"plain"), "invalid_request"),
            ("no code_challenge", authorize(b"").replace(b"code_challenge=", b"x="), "invalid_request"),
            ("response_type=token", authorize(b"").replace(b"type=code", b"type=token"), "unsupported_response_type"),
            ("scope=openid", authorize(b"").replace(b"scope=read", b"scope=openid"), "invalid_scope")):
        status, fields, _ = ask(request)
        told(name, f"{status} {fields.get('location', '').rpartition('?')[2]}", f"302 error={error}")


def refreshes():
    """Refreshes at the same time with one token."""
    held = tokens()
    request = post(b"/token", b"grant_type=refresh_token&refresh_token=" + held["refresh_token"].encode())
    replies = []
    wires = [Wire(), Wire()]
    threads = [threading.Thread(target=lambda wire: (wire.socket.sendall(request), replies.append(wire.reply())), args=(wire,)) for wire in wires]
    for thread in threads:
        thread.start()
    for thread in threads:
        thread.join()
    told("two refreshes at once with one token", ", ".join(sorted(said(reply) for reply in replies)), "200 tokens, 400 invalid_grant")
    newer = next(json.loads(reply[2]) for reply in replies if reply[0] == 200)
    active = [is_active(each) for each in (held["access_token"], newer["access_token"], newer["refresh_token"])]
    told("the tokens of that grant afterwards", "active" if any(active) else "all ended", "all ended")
    # a client that got no reply, and repeats its request
    held = tokens()
    wire = Wire()
    wire.socket.sendall(post(b"/token", b"grant_type=refresh_token&refresh_token=" + held["refresh_token"].encode()))
    wire.more()
    wire.socket.close()
    again = ask(post(b"/token", b"grant_type=refresh_token&refresh_token=" + held["refresh_token"].encode()))
    told("a refresh that is repeated, as after a lost reply", said(again) + (", active" if is_active(held["access_token"]) else ", all ended"), "400 invalid_grant, all ended")


for part in (heads, faulty_heads, forms, credentials, codes, refreshes):
    part()
print(f"raw, {count} tried, {differing} differ")
sys.exit(1 if differing else 0)
