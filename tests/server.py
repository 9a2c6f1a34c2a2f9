"""Where a server of the program says that it listens."""


def address_of(line):
    """The host and the port of the line `listening HOST:PORT`."""
    host, port = line.split()[1].rsplit(":", 1)
    return host, int(port)
