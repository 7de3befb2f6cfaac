"""Finds TCP ports for tests and benchmarks.

Ports are from 20000 to 31999, below those that the system assigns to connections. A port stays
locked by this process until the process ends, so that no other run on this machine uses it.
"""
import fcntl
import os
import pathlib
import random
import re

LOCKS = pathlib.Path(f"/tmp/dcmbox-ports-{os.getuid()}")
HELD = []


def sockets():
    """Returns the local address, the local port and the state of every TCP socket of this machine.

    The address and the state are in hexadecimal, as in /proc.
    """
    tables = (pathlib.Path(f"/proc/net/{name}") for name in ("tcp", "tcp6"))
    text = "\n".join(table.read_text() for table in tables if table.exists())
    found = re.findall(r"^ *\d+: ([0-9A-F]+):([0-9A-F]{4}) \S+ ([0-9A-F]{2}) ", text, re.M)
    return [(address, int(port, 16), state) for address, port, state in found]


def free_port():
    """Returns a port on which nobody listens."""
    LOCKS.mkdir(exist_ok=True)
    for port in random.Random().sample(range(20000, 32000), 200):
        lock = open(LOCKS / str(port), "a")
        try:
            fcntl.flock(lock, fcntl.LOCK_EX | fcntl.LOCK_NB)
        except BlockingIOError:
            lock.close()
            continue
        if port not in (used for _, used, _ in sockets()):
            HELD.append(lock)
            return port
        lock.close()
    raise RuntimeError("no port is free")
