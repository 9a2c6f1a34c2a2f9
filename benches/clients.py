"""Clients for the scripts of this folder.

tokens HOST:PORT CREDENTIALS COUNT: asks for so many tokens of a client on its own, eight at once over one connection.
idle COUNT HOST:PORT..: opens so many connections to each, says so, and keeps them until a signal ends it.
"""

import signal
import socket
import sys

AT_ONCE = 8


def connect(at):
    host, port = at.rsplit(":", 1)
    return socket.create_connection((host, int(port)))


def status_of_reply(stream):
    """The status of a reply, which is read whole."""
    status = int(stream.readline().split()[1])
    length = 0
    while line := stream.readline().strip():
        name, value = line.split(b":", 1)
        if name.lower() == b"content-length":
            length = int(value)
    stream.read(length)
    return status


def tokens(at, credentials, count):
    body = b"grant_type=client_credentials"
    request = (
        f"POST /token HTTP/1.1\r\nHost: oauthd\r\nAuthorization: Basic {credentials}\r\n"
        f"Content-Type: application/x-www-form-urlencoded\r\nContent-Length: {len(body)}\r\n\r\n"
    ).encode() + body
    connection = connect(at)
    stream = connection.makefile("rb")
    left, refused = int(count), 0
    while left:
        now = min(AT_ONCE, left)
        connection.sendall(request * now)
        refused += sum(status_of_reply(stream) != 200 for _ in range(now))
        left -= now
    return 1 if refused else 0


def idle(count, *ats):
    connections = [connect(at) for at in ats for _ in range(int(count))]
    print(f"{len(connections)} idle", flush=True)
    signal.pause()
    return 0


if __name__ == "__main__":
    sys.exit({"tokens": tokens, "idle": idle}[sys.argv[1]](*sys.argv[2:]))
