"""The five requests of a client by Authlib, with its session on requests.

Words: one of WAYS, a client's identifier and its secret. The variable AUTH has the server's address. Prints a line for
each request: `ok`, or the status and the error that came instead.
"""
import os
import secrets
import sys
from urllib.parse import quote_plus

import requests
from authlib.common.errors import AuthlibBaseError
from authlib.integrations.requests_client import OAuth2Session

WAYS = ("client_secret_basic", "client_secret_basic-encoded", "client_secret_post")
AUTH = os.environ["AUTH"]
BACK = "https://app.example/cb"

way, identifier, secret = sys.argv[1:]
method = way.replace("-encoded", "")
# the header is made without form-encoding, so the session gets the secret encoded
sent = quote_plus(secret) if way.endswith("-encoded") else secret


def new_session(**more):
    return OAuth2Session(identifier, sent, token_endpoint_auth_method=method, revocation_endpoint_auth_method=method, **more)


def outcome(name, do):
    """Does a request, and prints what came of it."""
    try:
        do()
        print(name, "ok", flush=True)
    except AuthlibBaseError as error:
        print(name, 401 if error.error == "invalid_client" else 400, error.error, flush=True)
    except requests.HTTPError as error:
        print(name, error.response.status_code, error.response.json().get("error"), flush=True)


def is_active(token):
    reply = user.introspect_token(AUTH + "/introspect", token=token, token_type_hint="access_token")
    reply.raise_for_status()
    return reply.json()["active"]


def code():
    verifier = secrets.token_urlsafe(32)
    url, state = user.create_authorization_url(AUTH + "/authorize", code_verifier=verifier)
    reply = requests.get(url, allow_redirects=False, cookies={"session": "of-ann"})
    user.fetch_token(AUTH + "/token", authorization_response=reply.headers["Location"], code_verifier=verifier)
    # a refresh sends the scope of the session, and a hook may have left less of it
    user.scope = user.token["scope"]


def refresh():
    before = (user.token or {}).get("refresh_token", "none")
    user.refresh_token(AUTH + "/token", refresh_token=before)
    assert user.token["refresh_token"] != before


def credentials():
    new_session(scope="read").fetch_token(AUTH + "/token", grant_type="client_credentials")


def introspect():
    assert is_active((user.token or {}).get("access_token", "none"))


def revoke():
    held = user.token or {}
    reply = user.revoke_token(AUTH + "/revoke", token=held.get("refresh_token", "none"), token_type_hint="refresh_token")
    reply.raise_for_status()
    assert not is_active(held.get("access_token", "none"))


user = new_session(redirect_uri=BACK, scope="read write", code_challenge_method="S256")
for step in (code, refresh, credentials, introspect, revoke):
    outcome(step.__name__, step)
