"""The five requests of a client by requests-oauthlib, which sits on requests and oauthlib.

Words: one of WAYS, a client's identifier and its secret. The variable AUTH has the server's address, CA X. Prints a line for each request: `ok`, or the status and the error that came instead.
"""
import base64
import hashlib
import os
import secrets
import sys
from urllib.parse import quote_plus

import requests
from oauthlib.oauth2 import BackendApplicationClient, OAuth2Error
from requests.auth import HTTPBasicAuth
from requests_oauthlib import OAuth2Session

WAYS = ("basic", "basic-encoded", "parameters")
AUTH = os.environ["AUTH"]
BACK = "https://app.example/cb"

way, identifier, secret = sys.argv[1:]
# `fetch_token` makes the header without form-encoding, so the secret is encoded before
if way == "basic":
    auth, parameters = HTTPBasicAuth(identifier, secret), {}
elif way == "basic-encoded":
    auth, parameters = HTTPBasicAuth(identifier, quote_plus(secret)), {}
else:
    auth, parameters = None, {"client_id": identifier, "client_secret": secret}

# what `fetch_token` takes: by parameters it puts the identifier in by itself
fetching = {"auth": auth} if auth else {"include_client_id": True, "client_secret": secret}


def outcome(name, do):
    """Does a request, and prints what came of it."""
    try:
        do()
        print(name, "ok", flush=True)
    except OAuth2Error as error:
        print(name, error.status_code, error.error, flush=True)
    except requests.HTTPError as error:
        print(name, error.response.status_code, error.response.json().get("error"), flush=True)
    except Warning:
        print(name, "Warning: the scope has changed", flush=True)
    except AssertionError:
        print(name, "not active", flush=True)


def asked(session, path, token):
    """A request that requests-oauthlib has no call for; `withhold_token` keeps it from sending a Bearer header."""
    reply = session.post(AUTH + path, data={"token": token, **parameters}, auth=auth, withhold_token=True)
    reply.raise_for_status()
    return reply


def is_active(session, token):
    return asked(session, "/introspect", token).json()["active"]


def code():
    verifier = secrets.token_urlsafe(32)
    challenge = base64.urlsafe_b64encode(hashlib.sha256(verifier.encode()).digest()).rstrip(b"=").decode()
    url, state = user.authorization_url(AUTH + "/authorize", code_challenge=challenge, code_challenge_method="S256")
    reply = requests.get(url, allow_redirects=False, cookies={"session": "of-ann"})
    user.fetch_token(AUTH + "/token", authorization_response=reply.headers["Location"], code_verifier=verifier, **fetching)
    # a refresh sends the scope of the session, and a hook may have left less of it
    user.scope = user.token["scope"]


def refresh():
    before = user.token.get("refresh_token", "none")
    user.refresh_token(AUTH + "/token", refresh_token=before, auth=auth, **parameters)
    assert user.token["refresh_token"] != before


def credentials():
    alone = OAuth2Session(client=BackendApplicationClient(identifier, scope=["read"]))
    alone.fetch_token(AUTH + "/token", **fetching)


def introspect():
    assert is_active(user, user.token.get("access_token", "none"))


def revoke():
    asked(user, "/revoke", user.token.get("refresh_token", "none"))
    assert not is_active(user, user.token.get("access_token", "none"))


user = OAuth2Session(identifier, redirect_uri=BACK, scope=["write", "read"])
for step in (code, refresh, credentials, introspect, revoke):
    outcome(step.__name__, step)
