#!/usr/bin/env python3
"""Writes the capture of the program `strip_edges`: both sides of each edge of the player strip, and what the program must print for it, worked out
on a plain queue (strip_model.py). usage: strip_edges.py CAPTURE LINES

Calls besides those of docs/HOST.md: 15 a new strip; 16 the strip reads the front batch; 17 the strip takes it; 18 lends it other lengths, a bytes of
strip and b bytes for numbers; 19 shows bytes of the strip, a place and b how many; 20 overwrites a word of it, a place and b value."""
import struct
import sys

from capture import BINARY, Capture, column, inline, long, U64, U8, UTF8
from strip_model import Cuts, MATCH, strip_of

OUT, REVIVE = 1, 2
MOST = 18446744073709551615


class Told:
    """A capture, and the lines that must be printed for it."""

    def __init__(self):
        self.x, self.lines = Capture(), []
        self.strip, self.lent, self.numbers = bytearray(972), 972, 64

    def say(self, line):
        self.lines.append(line)

    def note(self, text):
        self.x.note(text)
        self.say(text)

    def counts(self):
        return ', buffered %d, queued %d' % (len(self.cuts.buffered), len(self.cuts.queued))

    def set_up(self, t, r=16, q=16, kinds=MATCH):
        self.cuts = Cuts(t, kinds)
        self.x.set_up(t=t, r=r, q=q, kinds=kinds, b=8, n=16, p=65536)
        self.say('set-up T %d R %d Q %d B 8 N 16: done' % (t, r, q) + self.counts())

    def limit(self, rows):
        self.cuts.limit = rows
        self.x.limit(rows)
        self.say('limit %d: done, set 1 to %d' % (rows, rows))

    def push(self, *rows):
        """Rows of a match. Long names are registered, and let go behind the push; what listed them before has been taken by then, so it is 0."""
        text = b''.join(row[3] for row in rows if row[3] and len(row[3]) > 12)
        if text:
            self.x.register(text)
            self.say('register %d of %d: done, number 0' % (len(text), len(text)))
        self.x.push(len(rows), *columns(rows, text))
        self.cuts.push(list(rows))
        self.say('push %d: done' % len(rows) + self.counts())
        if text:
            self.x.let_go(0)
            self.say('let go 0: done')

    def push_cells(self, *columns):
        """A row of other columns."""
        self.x.push(1, *columns)
        self.cuts.push([None])
        self.say('push 1: done' + self.counts())

    def finish(self):
        self.x.finish()
        self.cuts.finish()
        self.say('finish: done' + self.counts())

    def new(self):
        self.x.call(15)
        if self.lent == 972:
            self.strip[:] = bytes(972)
        self.say('new strip: ' + ('done' if self.lent == 972 else 'refused 1'))

    def lend(self, strip=972, numbers=64):
        self.lent, self.numbers = strip, numbers
        self.x.call(18, strip, numbers)

    def refusal(self, damaged):
        """The order of the tests: the coalescer's 14, the strip's lengths, its bytes, the columns."""
        if damaged:
            return 14
        if self.lent != 972 or self.numbers < len(self.cuts.front()):
            return 1
        if strip_of(self.strip) is None:
            return 14
        return 0 if self.cuts.kinds == MATCH else 30

    def strip_call(self, takes, damaged=False):
        """The strip reads the front batch, or takes it."""
        self.x.call(17 if takes else 16)
        refusal, rows = self.refusal(damaged), self.cuts.front()
        if refusal:
            self.say('%s: refused %d, rows 0' % ('take' if takes else 'read', refusal) + self.counts())
            return
        strip = strip_of(self.strip)
        numbers = [strip.take(row) for row in rows]
        self.strip[:] = strip.code()
        if takes and rows:
            self.cuts.queued.popleft()
        self.say('%s: done, rows %d' % ('take' if takes else 'read', len(rows)) + self.counts())
        self.say('  numbers' + ''.join(' %d' % number for number in numbers))
        self.say('  last %s' % ('-' if strip.last is None else strip.last))
        for side in (1, 2):
            self.say('  side %d:' % side + ''.join(' ' + name.hex() for name in strip.out[side]))

    def take(self):
        self.strip_call(True)

    def read(self):
        self.strip_call(False)

    def take_all(self):
        while self.cuts.queued:
            self.take()

    def send(self, *rows):
        """Rows in a batch of their own, taken."""
        self.push(*rows)
        self.finish()
        self.take_all()

    def show(self, at=0, length=972):
        self.x.call(19, at, length)
        self.say('strip at %d: %s' % (at, self.strip[at:at + length].hex()))

    def poke(self, at, value):
        self.x.call(20, at, value)
        self.strip[at:at + 4] = struct.pack('<I', value)


def columns(rows, text):
    """The four columns of rows; None is null, and what lies under it would be accepted."""
    rows = [(under, [0 if value is None else 1 for value in row]) for row in rows
            for under in [[other if value is None else value for value, other in zip(row, (1000, 1, OUT, b'Null'))]]]
    views, at = [], 0
    for (_, _, _, name), _ in rows:
        views.append(inline(name) if len(name) <= 12 else long(len(name), name[:4], 0, at))
        at += len(name) if len(name) > 12 else 0
    cells = [[struct.pack('<Q', row[0]) for row, _ in rows], [bytes([row[1]]) for row, _ in rows], [bytes([row[2]]) for row, _ in rows], views]
    valid = [[bits[c] for _, bits in rows] for c in range(4)]
    return [column(cells[c], None if all(valid[c]) else valid[c], 0, [0] if c == 3 and text else ()) for c in range(4)]


def fresh(x, title, t=16):
    """An edge of its own: a court with nothing in it, nobody out."""
    x.note('-- ' + title)
    x.set_up(t)
    x.new()


def ranges(x):
    fresh(x, 'E1: a name of 1 byte, of 12, 13 and 64; of 0, of 65')
    x.send(*[(i + 1, 1, OUT, bytes([65 + i]) * n) for i, n in enumerate((1, 12, 13, 64, 0, 65))])
    fresh(x, 'E2: side 0, 1, 2, 3, 255, null')
    x.send(*[(i + 1, side, OUT, b'Asha') for i, side in enumerate((0, 1, 2, 3, 255, None))])
    fresh(x, 'E3: event 0, 1, 2 with somebody out, 3, 255, null')
    x.send(*[(i + 1, 1, event, b'Asha') for i, event in enumerate((0, OUT, REVIVE, 3, 255, None))])
    fresh(x, 'E4: number null; 0 as the first; 0 again; 1')
    x.send((None, 1, OUT, b'A'), (0, 1, OUT, b'A'), (0, 1, OUT, b'B'), (1, 1, OUT, b'B'))
    fresh(x, 'E5: one below the largest number, the largest, and then any')
    x.send((MOST - 1, 1, OUT, b'A'), (MOST, 1, OUT, b'B'), (MOST, 1, OUT, b'C'), (0, 1, OUT, b'D'), (5, 2, REVIVE, b'D'))
    fresh(x, 'E5: numbers around 4,294,967,296: both words count')
    numbers = (4294967295, 4294967296, 4294967295, 8589934591, 4294967297, 8589934592)
    x.send(*[(n, 1, OUT, bytes([65 + i])) for i, n in enumerate(numbers)])


def numbers(x):
    fresh(x, 'E6: a refused row keeps the last number: 5, 9 refused (34), 6')
    x.send((5, 1, OUT, b'A'), (9, 2, REVIVE, b'A'), (6, 1, OUT, b'B'))
    fresh(x, 'one last number for both sides')
    x.send((5, 1, OUT, b'A'), (5, 2, OUT, b'A'), (4, 2, OUT, b'A'), (6, 2, OUT, b'A'))
    fresh(x, 'E6: the lowest number names a row: null and old is 31, old and nobody out 32, eighth and already out 33 (E7)')
    x.send((5, 1, OUT, b'A'), (5, None, OUT, b'A'), (5, 2, REVIVE, b'A'), (5, 1, OUT, b'A'), (6, 1, OUT, b'A'))


SEVEN = [(i + 1, 1, OUT, name) for i, name in enumerate((b'Asha', b'Bhavani', b'Chitra', b'Devika', b'Esha', b'Farida', b'Gauri'))]
EIGHTH = [(8, 1, OUT, b'Harini'), (9, 1, OUT, b'Asha'), (9, 1, REVIVE, b'Harini'), (10, 1, OUT, b'Harini'), (11, 1, OUT, b'Asha')]


def queue(x):
    fresh(x, 'E7: seven out; an eighth; an eighth whose name is out; a revive; the eighth again; one more')
    x.send(*SEVEN)
    x.send(*EIGHTH)
    fresh(x, 'E8: one is out on side 1: a revive of side 2, of side 1, of side 1 again')
    x.send((1, 1, OUT, b'Asha'), (2, 2, REVIVE, b'Asha'), (3, 1, REVIVE, b'Asha'), (4, 1, REVIVE, b'Asha'))
    fresh(x, 'E9: a name already out on that side, on the other side, and after it came back')
    x.send((1, 1, OUT, b'Asha'), (2, 1, OUT, b'Asha'), (3, 2, OUT, b'Asha'), (4, 1, REVIVE, b'Asha'), (5, 1, OUT, b'Asha'))
    fresh(x, 'E10: names that begin alike, and that differ in the first or the last byte')
    x.send((1, 1, OUT, b'Ann'), (2, 1, OUT, b'Anna'), (3, 1, OUT, b'Ann'), (4, 1, OUT, b'ann'), (5, 1, OUT, b'Ann\0'))
    x.send((6, 2, OUT, b'n' * 63 + b'a'), (7, 2, OUT, b'n' * 63 + b'b'), (8, 2, OUT, b'n' * 63), (9, 2, OUT, b'm' + b'n' * 63))
    x.note('the same long name from another buffer')
    x.send((10, 2, OUT, b'n' * 63 + b'a'), (11, 1, OUT, b'n' * 63 + b'a'))
    fresh(x, 'E11: a revive with a null name, with 65 bytes, with none, with a name that nobody has')
    x.send((1, 1, OUT, b'Asha'), (2, 1, REVIVE, None), (3, 1, REVIVE, b'n' * 65), (4, 1, REVIVE, b''), (5, 1, REVIVE, b'Nobody'))
    fresh(x, 'E12: who has been out longest comes back first')
    x.send((1, 1, OUT, b'A'), (2, 1, OUT, b'B'), (3, 1, OUT, b'C'))
    x.send((4, 1, REVIVE, b'C'))
    x.send((5, 1, REVIVE, b'B'))
    fresh(x, 'E13: a refused row in the middle of a batch: the others are taken')
    x.send((1, 1, OUT, b'A'), (2, 3, OUT, b'B'), (3, 2, OUT, b'C'), (4, None, None, None), (5, 1, OUT, b'D'))


def cuts(x):
    rows = SEVEN + EIGHTH
    for title, t, limit, sizes in [
            ('one row at a time, T 16', 16, None, [1] * 12), ('four at a time, T 16', 16, None, [4] * 3), ('twelve whole, limit 2', 16, 2, [12]),
            ('four at a time, T 1', 1, None, [4] * 3), ('three at a time, T 5', 5, None, [3] * 4), ('2, 1, 3 and 6, T 5, limit 2', 5, 2, [2, 1, 3, 6])]:
        fresh(x, 'E14: the same rows cut otherwise, the same 972 bytes: ' + title, t)
        if limit is not None:
            x.limit(limit)
        at = 0
        for size in sizes:
            x.push(*rows[at:at + size])
            at += size
        x.finish()
        x.take_all()
        x.show()


def cell(kind, number):
    """A cell of a kind that other columns have."""
    width = {U64: 8, 4: 8, U8: 1}
    return inline(b'Asha') if kind in (UTF8, BINARY) else number.to_bytes(width[kind], 'little')


def other_columns(x):
    for kinds in [(U64, U8, U8, BINARY), (4, U8, U8, UTF8), (U64, U8, U8), (U64, U8, U8, UTF8, UTF8), (U8, U64, U8, UTF8), MATCH]:
        x.note('-- E15: columns of kinds ' + ', '.join(map(str, kinds)))
        x.set_up(1, kinds=kinds)
        x.new()
        if kinds == MATCH:
            x.push((1, 1, OUT, b'Asha'))
        else:
            x.push_cells(*[column([cell(kind, 1)]) for kind in kinds])
        x.read()
        x.take()
        x.show(0, 40)
        if kinds == (U64, U8, U8):
            x.note('-- the strip comes before the columns: 971 bytes (1), 8 out (14), then 30')
            x.lend(971)
            x.take()
            x.lend()
            x.poke(12, 8)
            x.take()
            x.poke(12, 0)
            x.take()
    x.note('-- nothing is queued: 0 rows')
    x.take()
    x.read()


def twice(x):
    fresh(x, 'E16: a batch whose numbers rise read twice and then taken: the strip stays')
    rows = [(1, 1, OUT, b'A'), (2, 1, REVIVE, b'A'), (3, 1, REVIVE, b'A'), (4, 1, OUT, b'B'), (5, 2, REVIVE, b'B')]
    x.push(*rows)
    x.finish()
    x.read()
    x.read()
    x.take()
    fresh(x, 'E16: with 9 before 6 it does not: so take, and do not read twice')
    x.push((9, 1, REVIVE, b'A'), (6, 1, OUT, b'A'))
    x.finish()
    x.read()
    x.take()


def damaged(x):
    fresh(x, 'the strip of another length, too few bytes for numbers (1); just enough')
    x.push((1, 1, OUT, b'Asha'), (2, 2, OUT, b'Lata'))
    x.finish()
    for strip, room in ((971, 64), (973, 64), (0, 64), (972, 1)):
        x.lend(strip, room)
        x.read()
        x.take()
    x.lend(971)
    x.new()
    x.lend(972, 2)
    x.take()
    x.lend()
    x.note('-- bytes that code no strip (14), and the strip as it was behind each')
    x.push((3, 1, REVIVE, b'Asha'))
    x.finish()
    for title, at, value in [
            ('8 out', 12, 8), ('2 out, and one name', 12, 2), ('none out, and one name', 12, 0), ('a name of 0 bytes', 16, 0), ('a name of 65 bytes', 16, 65),
            ('a byte behind a name', 80, 1 << 24), ('a byte behind the names', 968, 1 << 24), ('a flag of 2', 0, 2), ('a number and no flag', 0, 0)]:
        x.note(title)
        before, = struct.unpack_from('<I', x.strip, at)
        x.poke(at, value)
        x.take()
        x.show(at, 4)
        x.poke(at, before)
    x.take()
    x.note('-- the coalescer comes first: a state out of range (14) before a strip of 971 bytes (1)')
    x.push((4, 1, OUT, b'Asha'))
    x.finish()
    x.x.poke(0, 28, 2)
    x.lend(971)
    x.strip_call(True, damaged=True)
    x.x.poke(0, 28, 0)
    x.take()
    x.lend()
    x.take()


def main():
    if len(sys.argv) != 3:
        sys.exit('usage: strip_edges.py CAPTURE LINES')
    x = Told()
    for part in (ranges, numbers, queue, cuts, other_columns, twice, damaged):
        part(x)
    with open(sys.argv[1], 'wb') as capture, open(sys.argv[2], 'w') as lines:
        capture.write(x.x.data)
        lines.write('\n'.join(x.lines) + '\n')


if __name__ == '__main__':
    main()
