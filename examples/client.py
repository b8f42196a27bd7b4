#!/usr/bin/env python3
"""A client of a cluster's key-value service.

    client.py HOST:PORT[,HOST:PORT..] [CLIENT] put KEY VALUE | del KEY | get KEY | cas KEY OLD NEW | read KEY
                                               | many put KEY VALUE del KEY ..  (1 to 16 of these) | forget ID

It asks one node after the other until a node answers, each time under the same number, so that a command takes effect
once at most, however often it is sent. A `get` stands in the log, and any node takes it; a `read` doesn't, and only the node
that leads answers it: the others say that they don't lead. The writes of a `many` happen at one place of the log: nobody sees some
of them alone.

Of each client every node keeps its last number and answer until another client forgets it. Without CLIENT each run is a client of
a new random id, and has it forgotten at its end; who runs it often may give one, 1 to 2^62 - 1, to one run at a time. No number is
used twice. **Once forgotten, an id is as one never seen: a copy of a command of it that is still under way would take effect again.**
So forget an id only where each of its commands was answered at its first try, as this file does, or where it was last used before a
stop of members: what was proposed in a configuration that has ended is never decided in a later one.

It ends with status 0 where it was done, or a value was found; 1 where it was answered and not so: `absent`, `stale`, or a `cas` that
found another value, which it prints; 2 where the words are wrong; 3 where no node has answered for some seconds: what was asked may yet
take effect. Written from docs/FORMATS.md alone.
"""
import random
import socket
import struct
import sys
import time
import uuid

COMMAND, READ = 1, 6  # a request's tag
TAGS = {"put": 1, "del": 2, "get": 3, "cas": 4, "many": 5, "forget": 6}  # an operation's; a write of a `many` has that of its name
DONE, VALUE, ABSENT, STALE, BAD = 1, 2, 3, 4, 14  # a reply's tag
OPERANDS = {"put": 2, "del": 1, "get": 1, "cas": 3, "read": 1, "forget": 1}
SILENCE, PAUSE = 0.4, 0.1  # seconds: that a node's answer is waited for, and between two tries
PATIENCE = 10.0  # seconds: that a run of this file goes on asking
JANITOR = uuid.getnode() + 1  # the client of this host that forgets others, and stays itself


class NoAnswer(Exception):
    """No node has answered in time. What was asked may yet take effect, once."""


def counted(key, *values):
    """A key and its values, each behind its length."""
    if not 1 <= len(key) <= 64 or any(len(value) > 4096 for value in values):
        raise ValueError("a key has 1 to 64 bytes, and a value 4,096 at most")
    return bytes([len(key)]) + key + b"".join(struct.pack(">H", len(value)) + value for value in values)


def request(client, number, operation, *operands):
    """The body of a read, or of a command."""
    tag, kind = (READ, b"") if operation == "read" else (COMMAND, bytes([TAGS[operation]]))
    if operation == "many":
        rest = bytes([len(operands)]) + b"".join(bytes([TAGS[name]]) + counted(*texts) for name, *texts in operands)
    elif operation == "forget":
        rest = struct.pack(">Q", *operands)
    else:
        rest = counted(*operands)
    return struct.pack(">BQQ", tag, client, number) + kind + rest


def exactly(connection, count):
    parts = b""
    while len(parts) < count:
        part = connection.recv(count - len(parts))
        if not part:
            raise ConnectionError("the node has closed the connection")
        parts += part
    return parts


class Client:
    """With `patience` it gives up after so many seconds without an answer; without, it asks for ever. As in `with Client(nodes) as
    client:` its random id is forgotten at the end, if that is safe."""

    def __init__(self, addresses, client=None, patience=None):
        self.addresses = addresses
        self.client = client or random.randrange(1, 2**62)
        self.number = time.time_ns()  # above those of the client's earlier runs
        self.patience = patience
        self.connection = None
        self.is_drawn = client is None
        self.is_known = False  # a command of it was asked
        self.is_safe = True  # each was answered at its first try, so that no copy of one is under way

    def __enter__(self):
        return self

    def __exit__(self, *_error):
        self.close()
        if self.is_drawn and self.is_known and self.is_safe:
            try:
                # Stale where another program of this host has forgotten its own meanwhile: then under a later number.
                while Client(self.addresses, JANITOR, PATIENCE).ask("forget", self.client) is False:
                    pass
            except NoAnswer:
                pass  # the nodes go on keeping it

    def close(self):
        if self.connection:
            self.connection.close()
        self.connection = None

    def connect(self):
        self.connection = socket.create_connection(self.addresses[0], SILENCE)
        self.connection.setsockopt(socket.IPPROTO_TCP, socket.TCP_NODELAY, 1)
        self.connection.sendall(b"C")

    def once(self, body):
        """One try: the reply's tag and what follows it, if it answers this request."""
        if self.connection is None:
            self.connect()
        self.connection.sendall(struct.pack(">I", len(body)) + body)
        while True:
            length, client, number, tag = struct.unpack(">IQQB", exactly(self.connection, 21))
            rest = exactly(self.connection, length - 17)
            if (client, number) == (self.client, self.number):
                return tag, rest
            if tag == BAD:
                raise ValueError(f"the node calls the request bad at byte {int.from_bytes(rest, 'big')}")

    def ask(self, operation, *operands):
        """The value, True for done, None for absent, or False for stale; it tries until a node answers. The operands are bytes: a key,
        and its values; or the number of a client that is forgotten."""
        self.number += 1
        body = request(self.client, self.number, operation, *operands)
        was_safe = self.is_safe
        if operation != "read":  # which leaves nothing in a log
            self.is_safe, self.is_known = False, True
        end, tries = None if self.patience is None else time.monotonic() + self.patience, 0
        while end is None or time.monotonic() < end:
            tries += 1
            try:
                tag, rest = self.once(body)
                if tag <= STALE:
                    if tries == 1:
                        self.is_safe = was_safe
                    return {DONE: True, VALUE: rest[2:], ABSENT: None, STALE: False}[tag]
            except OSError:
                pass
            # Refused, given up, not led or not reached: the next node.
            self.addresses = self.addresses[1:] + self.addresses[:1]
            self.close()
            time.sleep(PAUSE)
        raise NoAnswer(f"no node has answered for {self.patience:.0f} s; what was asked may yet take effect")

    def ask_many(self, writes):
        """As `ask`, of several writes at one place of the log: each is `("put", key, value)` or `("del", key)`."""
        if not 1 <= len(writes) <= 16 or any(len(texts) != {"put": 2, "del": 1}.get(name) for name, *texts in writes):
            raise ValueError("many takes 1 to 16 writes, each a put of a key and a value, or a del of a key")
        return self.ask("many", *writes)


def writes_of(words):
    """The writes that words say, from the left."""
    writes = []
    while words:
        count = 1 + (2 if words[0] == b"put" else 1)
        writes.append((words[0].decode(), *words[1:count]))
        words = words[count:]
    return writes


def main(addresses, *words):
    """Asks what the words say, and gives the line to print and the status."""
    client = int(words[0]) if words and words[0].isdigit() else None
    operation, *operands = words if client is None else words[1:]
    if operation != "many" and len(operands) != OPERANDS[operation]:
        raise ValueError(f"{operation} takes {OPERANDS[operation]} words")
    nodes = [tuple(address.rsplit(":", 1)) for address in addresses.split(",")]
    texts = [word.encode() for word in operands]
    with Client(nodes, client, PATIENCE) as asking:
        if operation == "many":
            answer = asking.ask_many(writes_of(texts))
        else:
            answer = asking.ask(operation, *([int(operands[0])] if operation == "forget" else texts))
    if isinstance(answer, bytes):
        return answer.decode(errors="replace"), 1 if operation == "cas" else 0
    return {True: ("done", 0), None: ("absent", 1), False: ("stale", 1)}[answer]


if __name__ == "__main__":
    try:
        line, status = main(*sys.argv[1:])
    except (KeyError, TypeError, ValueError, struct.error) as error:
        print(f"client.py: {error}" if isinstance(error, ValueError) and len(sys.argv) > 3 else __doc__, file=sys.stderr)
        sys.exit(2)
    except NoAnswer as error:
        print(f"client.py: {error}", file=sys.stderr)
        sys.exit(3)
    print(line)
    sys.exit(status)
