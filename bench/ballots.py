"""The ballots that a node has promised, as its disks tell them: so that a bench can say whether a leader kept its place. A new leader has a
ballot of its own, above those that it knows, so where nobody has promised another one, the leader hasn't changed.
Written from docs/FORMATS.md alone."""
import struct

OPEN = 0xA5  # a gate over what is on the disk
HEADER = 17  # bytes: an area's gate, its magic, version and generation
VALUES = {1: 1, 2: 0, 3: 0, 4: 2}  # how many values an operation has, by its tag


class Reader:
    def __init__(self, data, at=0):
        self.data, self.at = data, at

    def skip(self, count):
        self.at += count

    def number(self, width):
        self.at += width
        return int.from_bytes(self.data[self.at - width:self.at], "big")

    def ballot(self):
        return self.number(8), self.number(4)

    def skip_members(self):
        self.skip(4 * self.number(1))

    def skip_entries(self):
        for _ in range(self.number(8)):
            self.skip_entry()

    def skip_entry(self):
        if self.number(1) == 2:
            self.skip(4)
            return self.skip_members()
        self.skip(16)
        operation = self.number(1)
        self.skip(self.number(1))
        for _ in range(VALUES[operation]):
            self.skip(self.number(2))

    def skip_base(self):
        self.skip(self.number(8))

    def skip_change(self, tag):
        """What a change has that promises nothing."""
        if tag == 8:
            self.skip(4)
            self.skip_members()
            self.skip_members()
        self.skip({2: 12, 3: 8, 5: 8, 6: 8, 7: 1, 8: 8, 9: 12, 10: 8, 11: 8}.get(tag, 0))
        if tag in (4, 11):
            self.skip_entries()
        elif tag in (6, 7, 10, 12):
            self.skip_base()

    def promises(self):
        """The ballots that a record's body promises."""
        if self.number(1) == 1:
            if self.number(1) == 1:
                self.skip(4)
                self.skip_members()
                yield self.ballot()
            return
        for _ in range(self.number(1)):
            tag = self.number(1)
            if tag == 1:
                yield self.ballot()
            else:
                self.skip_change(tag)


def promised(path):
    """Each ballot that an area promises, in the order of its records."""
    with open(path, "rb") as it:
        area = it.read()
    ballots, at = [], HEADER
    while at < len(area) and area[0] == area[at] == OPEN:
        length, = struct.unpack(">Q", area[at + 1:at + 9])
        ballots += Reader(area, at + 9).promises()
        at += 9 + length
    return ballots
