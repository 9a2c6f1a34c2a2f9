#!/usr/bin/env python3
"""A client of the library requests-oauthlib, for tests/try-login.sh: client.py PORT SERVER SECRET

Its page / sends the browser to the server; /cb takes what comes back, and says what the client has got."""
import base64
import hashlib
import html
import http.server
import secrets
import sys

from requests_oauthlib import OAuth2Session

port, server, secret = int(sys.argv[1]), sys.argv[2], sys.argv[3]
trusted = "/etc/ssl/certs/auth.example.pem"
begun = {}      # by state: the session and its proof key


class Handler(http.server.BaseHTTPRequestHandler):
    def log_message(self, form, *words):
        pass

    def show(self, text):
        data = f"<!DOCTYPE html><title>app</title><p id=told>{html.escape(text)}</p>".encode()
        self.send_response(200)
        self.send_header("Content-Type", "text/html; charset=utf-8")
        self.send_header("Content-Length", str(len(data)))
        self.end_headers()
        self.wfile.write(data)

    def do_GET(self):
        path, _, query = self.path.partition("?")
        if path == "/begin":
            proof = secrets.token_urlsafe(32)
            challenge = base64.urlsafe_b64encode(hashlib.sha256(proof.encode()).digest()).rstrip(b"=").decode()
            session = OAuth2Session("app", redirect_uri="https://app.example/cb", scope=query.split("+"))
            address, state = session.authorization_url(
                server + "/authorize", code_challenge=challenge, code_challenge_method="S256")
            begun[state] = session, proof
            self.send_response(302)
            self.send_header("Location", address)
            self.send_header("Content-Length", "0")
            self.end_headers()
        elif path == "/cb":
            state = dict(pair.split("=", 1) for pair in query.split("&")).get("state")
            session, proof = begun.pop(state, (None, None))
            if session is None:
                return self.show("not begun here")
            try:
                first = session.fetch_token(
                    server + "/token", authorization_response="https://app.example" + self.path, client_secret=secret,
                    code_verifier=proof, verify=trusted)
                second = session.refresh_token(server + "/token", verify=trusted, auth=("app", secret))
                told = session.post(
                    server + "/introspect", data={"token": second["access_token"]}, withhold_token=True,
                    auth=("app", secret), verify=trusted).json()
                renewed = first["access_token"] != second["access_token"]
                sub = f", sub {told['sub']}" if "sub" in told else ""
                self.show(f"scope {told['scope']}, active {told['active']}, refreshed {renewed}{sub}")
            except Exception as fault:      # the page says which
                self.show(f"{type(fault).__name__} {fault}")
        else:
            self.show("nothing here")


http.server.ThreadingHTTPServer(("127.0.0.1", port), Handler).serve_forever()
