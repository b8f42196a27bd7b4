#!/usr/bin/env python3
"""Shows a running cluster as a table that renews itself each second.

    watch.py SETTINGS [TIMES]

SETTINGS is a file such as examples/cluster.toml, whose peers are asked for their status. On a terminal each table takes the
place of the one before; after TIMES tables it ends. `leads` stands at a node that answers a read, which the leader alone does. Written
from docs/FORMATS.md alone. Needs Python 3.11.
"""
import concurrent.futures
import socket
import struct
import sys
import time
import tomllib

STATUS_REQUEST, STATUS_REPLY = 4, 12  # tags
READ_REQUEST, READ_REPLIES = 6, (2, 3)  # of a read, and of one that is answered: the value, or that there is none
READ = struct.pack(">BQQB", READ_REQUEST, 1, 1, 1) + b"-"  # client 1's read 1 of the key `-`
WAIT, PERIOD = 0.5, 1.0  # seconds: that a node has to answer, and between two tables
CLEAR = "\x1b[H\x1b[J" if sys.stdout.isatty() else ""


def exactly(connection, count):
    parts = b""
    while len(parts) < count:
        part = connection.recv(count - len(parts))
        if not part:
            raise ConnectionError("the node has closed the connection")
        parts += part
    return parts


def peers_in(settings):
    """Each node's address by its id, both as text."""
    with open(settings, "rb") as file:
        return {node: address.split(":") for node, address in tomllib.load(file)["peers"].items()}


def asked(address, body):
    """A reply's tag and what follows it, or 0 and nothing where the node doesn't answer in time."""
    try:
        with socket.create_connection(address, WAIT) as connection:
            connection.settimeout(WAIT)
            connection.sendall(b"C" + struct.pack(">I", len(body)) + body)
            length, _client, _number, tag = struct.unpack(">IQQB", exactly(connection, 21))
            return tag, exactly(connection, length - 17)
    except (OSError, struct.error):
        return 0, b""


def status(address):
    """The words of a node's status line behind its id, or none where it doesn't answer."""
    tag, rest = asked(address, bytes([STATUS_REQUEST]))
    return rest[2:].decode().split()[2:] if tag == STATUS_REPLY else []


def leads(address):
    """Whether the node answers a read."""
    return asked(address, READ)[0] in READ_REPLIES


def told(words):
    """What follows each name in a status line: `config 1 decided 2 trimmed 0`, and at its end perhaps `failed`."""
    pairs = {name: int(number) for name, number in zip(words, words[1:]) if number.isdigit()}
    state = next((it for it in ("failed", "joining", "spare") if it in words), "up") if words else "no answer"
    return pairs, state


def row(node, pairs, state, first, before):
    """A line of the table: how far a node is behind the first one, and how much it decided since the table before. Positions of two
    configurations are not compared: `-` stands at a node that is not in the latest one, or wasn't at the table before."""
    config, decided = pairs.get("config"), pairs.get("decided")
    behind = rate = "" if decided is None else "-"
    if config == first[0]:
        behind = first[1] - decided
        if before is None or before[0] == config:
            rate = "" if before is None else f"{(decided - before[1]) / PERIOD:.0f}"
    texts = [node, config, decided, behind, pairs.get("trimmed"), rate, state]
    return "{:>5} {:>7} {:>10} {:>8} {:>10} {:>10}   {}".format(*("" if it is None else it for it in texts))


def main(settings, times):
    peers, before = peers_in(settings), {}
    with concurrent.futures.ThreadPoolExecutor(len(peers)) as pool:
        for _ in range(times):
            started = time.monotonic()
            found = dict(zip(peers, map(told, pool.map(status, peers.values()))))
            leading = dict(zip(peers, pool.map(leads, peers.values())))
            places = {node: (pairs["config"], pairs["decided"]) for node, (pairs, _) in found.items() if "decided" in pairs}
            first = max(places.values(), default=(0, 0))
            print(f"{CLEAR} node  config    decided   behind    trimmed   decided/s   state")
            for node, (pairs, state) in found.items():
                print(row(node, pairs, "leads" if leading[node] else state, first, before.get(node)))
            before = places
            sys.stdout.flush()
            time.sleep(max(0, PERIOD - (time.monotonic() - started)))


if __name__ == "__main__":
    try:
        main(sys.argv[1], int(sys.argv[2]) if len(sys.argv) > 2 else 1_000_000)
    except KeyboardInterrupt:
        pass
