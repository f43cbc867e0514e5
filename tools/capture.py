"""Captures, written call by call: a list of calls for the player (docs/HOST.md), and the batches and views in them."""
import struct

UTF8, BINARY, U64, U8 = 18, 19, 8, 5
WIDTH = {1: 1, 2: 2, 3: 4, 4: 8, 5: 1, 6: 2, 7: 4, 8: 8, 9: 2, 10: 4, 11: 8, 12: 4, 13: 8, 14: 8, 15: 8, 16: 16, 17: 32, 18: 16, 19: 16}
NONE = 4294967295


def column_bytes(kind, r, b):
    """The bytes of a column in a slot (docs/LAYOUT.md), and of its list; of a kind outside the table, with a width of 1."""
    listed = 4 * b if kind in (UTF8, BINARY) else 0
    return r * WIDTH.get(kind, 1) + (r + 7) // 8 + listed, listed


class Capture:
    def __init__(self):
        self.data = bytearray()

    def call(self, what, *numbers, first=b'', second=b''):
        words = list(numbers) + [0] * (8 - len(numbers))
        self.data += struct.pack('<12I', what, *words, len(first), len(second), 0) + first + second

    def note(self, text):
        self.call(99, second=text.encode())

    def set_up(self, t=4, r=None, q=2, kinds=(UTF8,), b=4, n=8, p=32768, lent=(0, 0, 0)):
        r = t if r is None else r
        self.kinds, self.sizes = kinds, [column_bytes(k, r, b) for k in kinds]
        self.rows = r
        self.lengths = ((q + 1) * sum(size for size, _ in self.sizes), p, 4 + 20 * n + 4 * (1 + len(kinds)) * (q + 1))
        slots, pool, books = self.lengths
        self.call(1, t, r, q, b, n, slots + lent[0], books + lent[2], pool + lent[1], first=struct.pack('<%dI' % len(kinds), *kinds))

    def list_at(self, slot, c):
        """Where the list of a column of a slot stands."""
        return slot * sum(size for size, _ in self.sizes) + sum(size for size, _ in self.sizes[:c + 1]) - self.sizes[c][1]

    def bitmap_at(self, slot, c):
        """Where the bitmap of a column of a slot stands."""
        return self.list_at(slot, c) - (self.rows + 7) // 8

    def lend(self, slots=0, pool=0, books=0):
        s, p, b = self.lengths
        self.call(13, 0, 0, 0, 0, 0, s + slots, b + books, p + pool)

    def register(self, data, capacity=None):
        self.call(2, len(data) if capacity is None else capacity, second=data)

    def let_go(self, number):
        self.call(3, number)

    def push_raw(self, rows, records, body):
        self.call(4, rows, first=records, second=body)

    def push(self, rows, *columns, edit=None):
        records, body = batch(rows, self.kinds, columns)
        if edit:
            records, body = edit(bytearray(records), bytearray(body))
        self.push_raw(rows, bytes(records), bytes(body))

    def finish(self):
        self.call(5)

    def drop(self):
        self.call(6)

    def limit(self, rows=None):
        self.call(7, 0 if rows is None else 1, rows or 0)

    def row(self, column, row):
        self.call(8, column, row)

    def buffer(self, number):
        self.call(9, number)

    def counts(self):
        self.call(10)

    def books(self):
        self.call(11)

    def poke(self, memory, at, value):
        self.call(12, memory, at, value)

    def show(self, memory, at, length):
        self.call(14, memory, at, length)


def inline(text):
    return struct.pack('<I', len(text)) + text.ljust(12, b'\0')


def long(length, prefix, index, offset):
    return struct.pack('<I', length) + prefix + struct.pack('<II', index, offset)


def views(data, spans, index=0):
    """Views of spans (offset, length) of a buffer's bytes; short ones inline."""
    out = []
    for offset, length in spans:
        text = data[offset:offset + length]
        out.append(inline(text) if length <= 12 else long(length, text[:4], index, offset))
    return out


def column(cells, valid=None, first=0, listed=()):
    return {'cells': cells, 'valid': valid, 'first': first, 'list': list(listed)}


def batch(rows, kinds, columns):
    """The records and the body of a batch."""
    records, body = b'', b''
    for kind, c in zip(kinds, columns):
        values = len(body)
        body += b''.join(c['cells'])
        validity = NONE
        if c['valid'] is not None:
            validity = len(body)
            bits = sum(bit << (c['first'] + i) for i, bit in enumerate(c['valid']))
            body += bits.to_bytes((c['first'] + rows + 7) // 8, 'little')
        at = len(body) if c['list'] else 0
        body += struct.pack('<%dI' % len(c['list']), *c['list'])
        records += struct.pack('<8I', kind, values, validity, c['first'] if c['valid'] is not None else 0, at, len(c['list']), 0, 0)
    return records, body


def text(n, seed=0):
    """n bytes of letters."""
    return bytes(97 + (i * 7 + seed) % 26 for i in range(n))


def plain(rows, kind, at=0):
    """Cells of a kind: rows numbered on from `at`."""
    return [(at + i).to_bytes(WIDTH[kind], 'little') if WIDTH[kind] > 1 else bytes([(at + i) % 256]) for i in range(rows)]
