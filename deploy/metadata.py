#!/usr/bin/env python3
"""Prints the metadata of a server (RFC 8414) for a proxy to serve: metadata.py REGISTRY ISSUER

ISSUER is the server's address as clients know it, https://auth.example, without a slash at its end. Print it again when
the registry's scopes or grants change."""
import json
import sys

if len(sys.argv) != 3 or not sys.argv[2].startswith("https://") or sys.argv[2].endswith("/"):
    sys.exit(__doc__)
with open(sys.argv[1], encoding="utf-8") as file:
    registry = json.load(file)
issuer = sys.argv[2]
grants = {grant for client in registry["clients"] for grant in client["grants"]}
ways = ["client_secret_basic", "client_secret_post"]
print(json.dumps({
    "issuer": issuer,
    "authorization_endpoint": issuer + "/authorize",
    "token_endpoint": issuer + "/token",
    "token_endpoint_auth_methods_supported": ways,
    "revocation_endpoint": issuer + "/revoke",
    "revocation_endpoint_auth_methods_supported": ways,
    "introspection_endpoint": issuer + "/introspect",
    "introspection_endpoint_auth_methods_supported": ways,
    "scopes_supported": registry["scopes"],
    "response_types_supported": ["code"],
    "response_modes_supported": ["query"],
    "grant_types_supported": sorted(grants),
    "code_challenge_methods_supported": ["S256"],
}, indent=2))
