#!/usr/bin/env python3
"""Moves a running cluster to other members, and waits until these answer.

    members.py SETTINGS ID..

SETTINGS is a file such as examples/cluster.toml, with which all nodes run; the ids are the members that the next configuration is to
have. It waits until a majority of them tells where it stands, ends the configuration by a stop-sign at the first node that takes it,
and waits until that majority is in a later configuration and one of them answers a read. Written from docs/FORMATS.md alone. Needs
Python 3.11.
"""
import struct
import sys
import time

from client import Client
from watch import asked, peers_in, status, told

MOST_MEMBERS = 9
STOP = 2  # a request's tag
REFUSED, APPENDED, BUFFERED, FORWARDED, STRANGER = 6, 7, 8, 9, 15  # a reply's tag
PENDING, END = 2, 4  # causes of a refusal: a stop-sign stands in the log, or no number is left
PAUSE, AGAIN = 0.2, 3.0  # seconds: between two looks, and until the stop-sign is asked for again


def configurations(peers, ids):
    """The configuration of each of these nodes that answers, 0 where it has none."""
    answers = {it: status(peers[it]) for it in ids}
    return {it: told(words)[0].get("config", 0) for it, words in answers.items() if words}


def stop(peers, nodes, members):
    """Asks one of these nodes after the other to end the configuration, until one takes the stop-sign, or has one already."""
    body = struct.pack(">BB", STOP, len(members)) + b"".join(struct.pack(">I", int(it)) for it in members)
    for node in nodes:
        tag, rest = asked(peers[node], body)
        if tag == STRANGER:
            sys.exit(f"members.py: node {node} doesn't know server {int.from_bytes(rest, 'big')}: start it with these settings first")
        if tag == REFUSED and rest[0] == END:
            sys.exit(f"members.py: node {node} has no number left for the next configuration")
        if tag in (APPENDED, BUFFERED, FORWARDED) or tag == REFUSED and rest[0] == PENDING:
            return


def main(settings, ids):
    peers = peers_in(settings)
    if not 1 <= len(ids) <= MOST_MEMBERS or not ids <= set(peers):
        sys.exit(f"members.py: 1 to {MOST_MEMBERS} ids, each among the peers of {settings}")
    members = sorted(ids, key=int)
    majority = len(members) // 2 + 1
    while len(there := configurations(peers, members)) < majority:
        print(f"{majority} of {' '.join(members)} have to run: {' '.join(there) or 'none'} answers", flush=True)
        time.sleep(AGAIN)
    before, next_try = max(configurations(peers, peers).values(), default=0), time.monotonic()
    while sum((found := configurations(peers, peers)).get(it, 0) > before for it in members) < majority:
        # Others know the configuration no more, or not yet.
        inside = [it for it, conf in found.items() if conf == before]
        if time.monotonic() >= next_try and max(found.values(), default=0) <= before:
            stop(peers, inside, members)
            next_try = time.monotonic() + AGAIN
        time.sleep(PAUSE)
    Client([peers[it] for it in members]).ask("read", b"members")
    print(f"configuration {max(found.values())} of {' '.join(members)} answers")


if __name__ == "__main__":
    if len(sys.argv) < 3:
        sys.exit("members.py SETTINGS ID..")
    try:
        main(sys.argv[1], set(sys.argv[2:]))
    except KeyboardInterrupt:
        pass
