"""The player strip and the cuts of batches in plain Python, from the words of change request K6 and of document 01: what the program `strip_edges`
must print is worked out on these."""
from collections import deque
import struct

MATCH = (8, 5, 5, 18)


class Strip:
    """'For each side it keeps the out players, up to seven, in the order they went out', and the last accepted row's number."""

    def __init__(self):
        self.last, self.out = None, {1: deque(), 2: deque()}

    def take(self, row):
        """A row (number, side, event, name), None for null: its number, 'lowest number first, the row changing nothing', or 0."""
        number, side, event, name = row
        if None in row or side not in (1, 2) or event not in (1, 2) or not 1 <= len(name) <= 64:
            return 31
        if self.last is not None and number <= self.last:
            return 32
        out = self.out[side]
        if event == 1 and len(out) == 7:
            return 33
        if event == 2 and not out:
            return 34
        if event == 1 and name in out:
            return 35
        if event == 1:
            out.append(name)
        else:
            out.popleft()
        self.last = number
        return 0

    def code(self):
        """Its 972 bytes (docs/LAYOUT.md)."""
        data = struct.pack('<IQ', self.last is not None, self.last or 0)
        for side in (1, 2):
            names = b''.join((struct.pack('<I', len(name)) + name).ljust(68, b'\0') for name in self.out[side])
            data += (struct.pack('<I', len(self.out[side])) + names).ljust(480, b'\0')
        return data


class Cuts:
    """Batches as 01 cuts them: a target, a limit, rows buffered, batches queued."""

    def __init__(self, target, kinds):
        self.target, self.kinds, self.limit = target, kinds, None
        self.buffered, self.queued = [], deque()

    def push(self, rows):
        if self.limit is not None and len(rows) > self.limit and (not self.buffered or len(self.buffered) > self.limit):
            self.finish()
            self.queued.append(rows)
            return
        self.buffered += rows
        while len(self.buffered) >= self.target:
            self.queued.append(self.buffered[:self.target])
            self.buffered = self.buffered[self.target:]

    def finish(self):
        if self.buffered:
            self.queued.append(self.buffered)
            self.buffered = []

    def front(self):
        return self.queued[0] if self.queued else []


def strip_of(data):
    """The strip that 972 bytes code; None where they code none."""
    flag, last = struct.unpack_from('<IQ', data)
    strip = Strip()
    strip.last = last if flag else None
    for side, at in ((1, 12), (2, 492)):
        count, = struct.unpack_from('<I', data, at)
        if count > 7:
            return None
        for i in range(count):
            length, = struct.unpack_from('<I', data, at + 4 + 68 * i)
            if not 1 <= length <= 64:
                return None
            strip.out[side].append(bytes(data[at + 8 + 68 * i:][:length]))
    return strip if strip.code() == bytes(data) else None
