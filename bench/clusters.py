"""Clusters of three nodes on loopback, for benches and checks: each node is a process of its own, in a folder of its own."""
import os
import shutil
import socket
import subprocess
import sys
import tempfile
import time

TOP = os.path.dirname(os.path.dirname(os.path.abspath(__file__)))
sys.path[:0] = [os.path.join(TOP, "examples"), os.path.join(TOP, "bench")]
from ballots import promised  # noqa: E402
from client import Client  # noqa: E402

PROGRAM = os.path.abspath(os.environ.get("OMNI", os.path.join(TOP, "crates/omni/out/omni")))
IDS = (1, 2, 3)
TICK_MS = 100
STARTING = 30.0  # seconds that a node may take to answer after its start


def free_port():
    with socket.socket() as it:
        it.bind(("127.0.0.1", 0))
        return it.getsockname()[1]


class Cluster:
    """Nodes 1 to 3, which are all members, or others, of which some observe; `more` are further lines of the settings. With
    `like_command` they are children of `omni cluster`."""

    def __init__(self, like_command=False, ids=IDS, members=IDS, observers=(), more=""):
        self.folder = tempfile.mkdtemp(prefix="omni-")
        self.ids = ids
        self.ports = {it: free_port() for it in ids}
        rows = "".join(f"{it} = '127.0.0.1:{port}'\n" for it, port in self.ports.items())
        observing = f"observers = {list(observers)}\n" if observers else ""
        self.settings = (f"tick_ms = {TICK_MS}\nturns = 1000000000000\nmembers = {list(members)}\n{observing}{more}\n"
                         f"[peers]\n{rows}")
        self.path = os.path.join(self.folder, "cluster.toml")
        with open(self.path, "w") as it:
            it.write(self.settings)
        self.nodes = {}
        self.command = None
        if like_command:
            with open(self.path) as it:
                self.command = subprocess.Popen([PROGRAM, "cluster"], cwd=self.folder, stdin=it, stdout=subprocess.PIPE)
        else:
            for it in ids:
                self.start(it)

    def addresses(self, first=1):
        ids = self.ids[first - 1:] + self.ids[:first - 1]
        return [("127.0.0.1", self.ports[it]) for it in ids]

    def start(self, node):
        folder = os.path.join(self.folder, f"n{node}")
        os.makedirs(folder, exist_ok=True)
        with open(self.path) as it:
            self.nodes[node] = subprocess.Popen([PROGRAM, "node", str(node)], cwd=folder, stdin=it, stdout=subprocess.DEVNULL)

    def kill(self, node):
        self.nodes[node].kill()
        self.nodes[node].wait()

    def begin_anew(self, node):
        """Starts a node whose files are gone."""
        shutil.rmtree(os.path.join(self.folder, f"n{node}"))
        self.start(node)

    def pids(self):
        if self.command is None:
            return [it.pid for it in self.nodes.values()]
        with open(f"/proc/{self.command.pid}/task/{self.command.pid}/children") as it:
            return [int(pid) for pid in it.read().split()]

    def call(self, node, *words):
        """What `omni call` prints, and its status."""
        done = subprocess.run([PROGRAM, "call", f"127.0.0.1:{self.ports[node]}", *words], capture_output=True, text=True)
        return done.stdout.rstrip("\n"), done.returncode

    def place(self, node):
        """The configuration that a node is in, and how much of it the node knows as decided; nothing where it doesn't answer."""
        words = self.call(node, "status")[0].split()
        return (int(words[3]), int(words[5])) if words[2:3] == ["config"] else None

    def wait_for_leader(self):
        """Puts by a client of its own until one is done, and says how long that took."""
        started = time.monotonic()
        Client(self.addresses()).ask("put", b"first", b"")
        return time.monotonic() - started

    def leader(self):
        """The node that answers a read: no other does."""
        for it in self.ids:
            if self.call(it, "read", "1", "1", "leader")[0] != "notleading":
                return it
        return self.ids[0]

    def ballot(self):
        """The highest ballot that a node has promised, as its number and its owner, told by the disks."""
        areas = [promised(os.path.join(self.folder, f"n{it}", f"omni.{area}")) for it in self.ids for area in "ab"]
        return max(ballots[-1] for ballots in areas if ballots)

    def end(self):
        """Ends the nodes, and gives what `omni cluster` printed."""
        for it in self.ids:
            self.call(it, "end")
        printed = ""
        if self.command is not None:
            printed = self.command.communicate(timeout=STARTING)[0].decode()
        for it in self.nodes.values():
            it.wait(timeout=STARTING)
        shutil.rmtree(self.folder)
        return printed
