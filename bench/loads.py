"""Closed loops of puts, of reads, or of both by turns: each connection sends one, waits for its answer, and sends the next. The connections are spread over several
processes, so that no client is the limit, and over all nodes. One that is refused, cut or hears nothing for a while asks again under the
same number at the next node; its time runs on from when it first asked."""
import base64
import collections
import json
import multiprocessing
import os
import random
import selectors
import socket
import struct
import sys
import time

sys.path.insert(0, os.path.join(os.path.dirname(os.path.abspath(__file__)), "..", "examples"))
from client import ABSENT, DONE, VALUE as FOUND, request  # noqa: E402

VALUE = b"v" * 100
KEYS = 1000
PROCESSES = 4
SILENCE, PAUSE = 2.0, 0.05  # seconds: that an answer is waited for, and before what was refused is asked again


def next_key(number):
    return f"k{number % KEYS}".encode()


class OmniWire:
    """A client of omni that puts: a command has its client's number, which stays when it is asked again."""
    asks, greeting, answers = "puts", b"C", (DONE,)

    def __init__(self):
        self.client, self.number = random.randrange(1, 2**62), 0

    def words(self):
        return "put", next_key(self.number), VALUE

    def next(self, is_new):
        self.number += is_new
        body = request(self.client, self.number, *self.words())
        return struct.pack(">I", len(body)) + body

    def answer(self, heard):
        """None while no answer is whole; else what is left, and whether it is what was asked for."""
        if len(heard) < 21 or len(heard) < 4 + struct.unpack(">I", heard[:4])[0]:
            return None
        length, _, number, tag = struct.unpack(">IQQB", heard[:21])
        return heard[4 + length:], tag in self.answers and number == self.number


class OmniMany(OmniWire):
    """One that puts so many values at a time, at one place of the log."""
    writes = 16
    asks = f"lists of {writes} puts"

    def words(self):
        return "many", *(("put", next_key(self.writes * self.number + it), VALUE) for it in range(self.writes))


class OmniReads(OmniWire):
    """One that reads. Where a node doesn't lead the next one is asked, so that all come to the leader."""
    asks, answers = "reads", (FOUND, ABSENT)

    def words(self):
        return "read", next_key(self.number)


class OmniMixed(OmniWire):
    """One that puts and reads by turns, at the leader."""
    asks, answers = "puts and reads", (DONE, FOUND, ABSENT)

    def words(self):
        return ("read", next_key(self.number)) if self.number % 2 else super().words()


class EtcdWire:
    """A client of etcd's JSON gateway that puts, on one connection that stays open."""
    asks, greeting, path = "puts", b"", b"put"

    def __init__(self):
        self.number = random.randrange(KEYS)

    def fields(self):
        return {"key": next_key(self.number), "value": VALUE}

    def next(self, is_new):
        self.number += is_new
        body = json.dumps({name: base64.b64encode(it).decode() for name, it in self.fields().items()}).encode()
        return b"POST /v3/kv/%s HTTP/1.1\r\nHost: etcd\r\nContent-Length: %d\r\n\r\n" % (self.path, len(body)) + body

    def answer(self, heard):
        head, end, rest = heard.partition(b"\r\n\r\n")
        if not end:
            return None
        fields = dict(line.lower().split(b": ", 1) for line in head.split(b"\r\n")[1:])
        length = int(fields[b"content-length"])
        return (rest[length:], head.startswith(b"HTTP/1.1 200")) if len(rest) >= length else None


class EtcdReads(EtcdWire):
    """One that reads. A range is linearizable unless it asks not to be, and any node takes it."""
    asks, path = "reads", b"range"

    def fields(self):
        return {"key": next_key(self.number)}


class EtcdMixed(EtcdWire):
    """One that puts and reads by turns."""
    asks = "puts and reads"

    @property
    def path(self):
        return b"range" if self.number % 2 else b"put"

    def fields(self):
        return {"key": next_key(self.number)} if self.number % 2 else super().fields()


class EtcdGrpc:
    """A client of etcd's gRPC that puts: a unary call after the other, each on a stream of its own of one HTTP/2 connection."""
    asks, method = "puts", "Put"
    DATA, HEADERS, SETTINGS, PING, WINDOW_UPDATE = 0, 1, 4, 6, 8
    END_STREAM, ACK, END_HEADERS = 1, 1, 4

    def __init__(self):
        self.number, self.stream, self.owed = random.randrange(KEYS), -1, b""

    def frame(self, kind, flags, stream, body):
        return struct.pack(">I", len(body))[1:] + bytes([kind, flags]) + struct.pack(">I", stream) + body

    @property
    def greeting(self):
        """What a connection begins with: no settings, and a window that the answers of a run don't fill."""
        self.stream, self.owed = -1, b""
        window = self.frame(self.WINDOW_UPDATE, 0, 0, struct.pack(">I", 2**30))
        return b"PRI * HTTP/2.0\r\n\r\nSM\r\n\r\n" + self.frame(self.SETTINGS, 0, 0, b"") + window

    def fields(self):
        return (next_key(self.number), VALUE)

    def next(self, is_new):
        self.number += is_new
        self.stream += 2
        path = b"/etcdserverpb.KV/" + self.method.encode()
        # POST, http, the path, the authority, the content's type and `te`, none of them kept by the other side
        head = (b"\x83\x86\x04" + bytes([len(path)]) + path + b"\x01\x04etcd\x0f\x10\x10application/grpc"
                b"\x00\x02te\x08trailers")
        message = b"".join(bytes([at * 8 + 2, len(it)]) + it for at, it in enumerate(self.fields(), 1))
        body = b"\0" + struct.pack(">I", len(message)) + message
        owed, self.owed = self.owed, b""
        return (owed + self.frame(self.HEADERS, self.END_HEADERS, self.stream, head)
                + self.frame(self.DATA, self.END_STREAM, self.stream, body))

    def answer(self, heard):
        """A call is done where a message came before the frame that ends its stream. Settings and pings are answered with the next one."""
        owed, is_done, at = b"", False, 0
        while len(heard) >= at + 9:
            length, kind, flags = int.from_bytes(heard[at:at + 3], "big"), heard[at + 3], heard[at + 4]
            body, at = heard[at + 9:at + 9 + length], at + 9 + length
            if len(heard) < at:
                return None
            if kind in (self.SETTINGS, self.PING) and not flags & self.ACK:
                owed += self.frame(kind, self.ACK, 0, body if kind == self.PING else b"")
            is_done |= kind == self.DATA and length > 0
            if kind in (self.DATA, self.HEADERS) and flags & self.END_STREAM:
                self.owed += owed
                return heard[at:], is_done
        return None


class EtcdGrpcReads(EtcdGrpc):
    """One that reads: a linearizable range."""
    asks, method = "reads", "Range"

    def fields(self):
        return (next_key(self.number),)


class EtcdGrpcMixed(EtcdGrpc):
    """One that puts and reads by turns."""
    asks = "puts and reads"

    @property
    def method(self):
        return "Range" if self.number % 2 else "Put"

    def fields(self):
        return (next_key(self.number),) if self.number % 2 else super().fields()


class Connection:
    def __init__(self, wire, addresses):
        self.wire, self.addresses = wire(), collections.deque(addresses)
        self.socket, self.times, self.refused = None, [], 0
        self.asked_at = self.began = 0.0

    def ask(self, selector, is_new):
        """Asks for the next one, or for the same one again, at the next node where there is no connection."""
        self.asked_at = time.monotonic()
        self.began = self.asked_at if is_new else self.began
        try:
            if self.socket is None:
                self.socket = socket.create_connection(self.addresses[0], SILENCE)
                self.socket.setsockopt(socket.IPPROTO_TCP, socket.TCP_NODELAY, 1)
                self.heard = b""
                selector.register(self.socket, selectors.EVENT_READ, self)
                self.socket.sendall(self.wire.greeting)
            self.socket.sendall(self.wire.next(is_new))
        except OSError:
            self.leave(selector)

    def leave(self, selector):
        """Lets the connection go; the next node is asked after a pause."""
        if self.socket is not None:
            selector.unregister(self.socket)
            self.socket.close()
            self.socket = None
        self.refused += 1
        self.addresses.rotate(-1)

    def hear(self, selector):
        try:
            part = self.socket.recv(65536)
        except OSError:
            part = b""
        if not part:
            return self.leave(selector)
        self.heard += part
        while (answer := self.wire.answer(self.heard)) is not None:
            self.heard, is_done = answer
            if not is_done:
                return self.leave(selector)
            self.times.append((self.began, time.monotonic() - self.began))
            self.ask(selector, True)

    def look(self, selector, now):
        """Asks again where it was refused, or nothing was heard for too long."""
        if self.socket is None and now - self.asked_at > PAUSE:
            self.ask(selector, False)
        elif self.socket is not None and now - self.asked_at > SILENCE:
            self.leave(selector)
            self.ask(selector, False)


def run(wire, starts, end, results):
    connections = [Connection(wire, addresses) for addresses in starts]
    selector = selectors.DefaultSelector()
    for it in connections:
        it.ask(selector, True)
    while (now := time.monotonic()) < end:
        for key, _ in selector.select(PAUSE):
            key.data.hear(selector)
        for it in connections:
            it.look(selector, now)
    results.send(([one for it in connections for one in it.times], sum(it.refused for it in connections)))


class Load:
    """What so many connections to these nodes got in so many seconds."""

    def __init__(self, wire, addresses, connections, seconds):
        starts = [addresses[it % len(addresses):] + addresses[:it % len(addresses)] for it in range(connections)]
        end, pipes, children = time.monotonic() + seconds, [], []
        for first in range(min(PROCESSES, connections)):
            here, there = multiprocessing.Pipe(False)
            children.append(multiprocessing.Process(target=run, args=(wire, starts[first::PROCESSES], end, there)))
            children[-1].start()
            pipes.append(here)
        got = [it.recv() for it in pipes]
        for it in children:
            it.join()
        answers = sorted((began + took, took) for times, _ in got for began, took in times)
        self.asks = wire.asks
        self.times = sorted(took for _, took in answers)
        self.refused = sum(refused for _, refused in got)
        self.rate = len(answers) / seconds
        moments = [at for at, _ in answers]
        self.silence = max((b - a for a, b in zip(moments, moments[1:])), default=seconds)

    def part(self, share):
        """The time within which this share was answered, in milliseconds."""
        return self.times[min(int(len(self.times) * share), len(self.times) - 1)] * 1e3 if self.times else float("nan")

    def __str__(self):
        return (f"{self.rate:8.0f} {self.asks} a second, p50 {self.part(0.5):7.2f} ms, p99 {self.part(0.99):7.2f} ms, longest silence "
                f"{self.silence * 1e3:6.0f} ms, {self.refused} asked again")
