#!/usr/bin/env python3
"""Writes the capture of a short match: batches of the strip's four columns (row number, side, event, player's name), as the court box
sends them. usage: match.py CAPTURE [TABLE [FRAMES]]: also writes what the programs `court` and `strip` must print, worked out on a plain list of
the rows and on a plain queue (strip_model.py)"""
import struct
import sys

from capture import Capture, column, inline, long, U64, U8, UTF8
from strip_model import Cuts, Strip

OUT, REVIVE = 1, 2

# side, event, player. With a revive a name is sent too, and compared with nothing: who has been out longest comes back (at row 16 that is not
# the one named). With row 19 seven of side 2 are out.
EVENTS = [
    (1, OUT, 'Asha'), (1, OUT, 'Chitralekha Rao'), (2, OUT, 'Ishita'), (1, REVIVE, 'Asha'), (2, OUT, 'Harini Subramanian'),
    (2, OUT, 'Lata'), (1, OUT, 'Bhavani'), (2, REVIVE, 'Ishita'), (1, OUT, 'Gurpreet Kaur'), (1, OUT, 'Devika'), (2, OUT, 'Meenakshi Iyer'),
    (1, REVIVE, 'Chitralekha Rao'), (1, REVIVE, 'Bhavani'), (2, OUT, 'Nandini'), (2, OUT, 'Oorvi Deshpande'), (1, REVIVE, 'Kamala'),
    (2, OUT, 'Ishita'), (1, OUT, 'Asha'), (2, OUT, 'Pallavi'), (2, REVIVE, 'Harini Subramanian'), (2, REVIVE, 'Lata'),
    (1, OUT, 'Chitralekha Rao'), (2, OUT, 'Lata'), (1, REVIVE, 'Devika'), (2, REVIVE, 'Meenakshi Iyer'),
]

# how many rows the box sends at once; the six, over the limit of five, go whole
BATCHES = [1, 2, 1, 3, 1, 6, 1, 1, 2, 2, 1, 3, 1]


KINDS = (U64, U8, U8, UTF8)


def columns_of(rows, first, number):
    """The four columns of a batch, and the bytes of its long names, which lie in the buffer with this number."""
    names, cells = b'', []
    for _, _, player in rows:
        text = player.encode()
        if len(text) <= 12:
            cells.append(inline(text))
        else:
            cells.append(long(len(text), text[:4], 0, len(names)))
            names += text
    return [column([struct.pack('<Q', first + i) for i in range(len(rows))]), column([bytes([s]) for s, _, _ in rows]),
            column([bytes([e]) for _, e, _ in rows]), column(cells, [1] * len(rows), 0, [number] if names else [])]


def table():
    """The match as the strip gets it: four rows at once; a batch over five rows with nothing buffered goes whole."""
    out = ['rows the strip takes at once: 4', ' ' * 17 + 'row  side   event   player']
    beside = ' ' * 57
    at, buffered = 0, []

    def take(rows):
        for number, (side, event, player) in rows:
            out.append('%20d  %s  %s  %s' % (number, ('home ', 'away ')[side - 1], ('out   ', 'revive')[event - 1], player))
        out.append('---- rows to the strip: %d' % len(rows))

    for size in BATCHES:
        out.append(beside + 'the box sends %d' % size)
        rows = list(enumerate(EVENTS[at:at + size], at + 1))
        at += size
        if size > 5 and not buffered:
            take(rows)
            continue
        buffered += rows
        while len(buffered) >= 4:
            take(buffered[:4])
            buffered = buffered[4:]
    out.append(beside + 'the match ends')
    if buffered:
        take(buffered)
    return '\n'.join(out) + '\n'


def frame(strip, waiting, numbers):
    """A frame as the program `strip` writes it, and an empty line. No row of this match is refused."""
    assert not any(numbers)
    lines = ['last row %s, rows waiting %d' % ('none' if strip.last is None else strip.last, waiting)]
    for side, label in ((1, 'home'), (2, 'away')):
        names = [name.decode() for name in strip.out[side]]
        lines.append('%s %d/7 out' % (label, len(names)))
        lines += [(' ' * 13 if i else '  next back  ') + name for i, name in enumerate(names)] + [' ' * 13 + '-'] * (7 - len(names))
    return '\n'.join(lines) + '\n\n'


def frames():
    """The match on the strip: a frame for each batch, and where rows wait and no batch is complete one that says so."""
    strip, cuts, out, at = Strip(), Cuts(4, KINDS), '', 0
    cuts.limit = 5
    for size in BATCHES + [None]:
        if size is None:
            cuts.finish()
        else:
            cuts.push([(at + 1 + i, side, event, player.encode()) for i, (side, event, player) in enumerate(EVENTS[at:at + size])])
            at += size
        if not cuts.queued:
            out += frame(strip, len(cuts.buffered), [])
        while cuts.queued:
            numbers = [strip.take(row) for row in cuts.queued.popleft()]
            out += frame(strip, len(cuts.buffered), numbers)
    return out


def main():
    if len(sys.argv) not in (2, 3, 4):
        sys.exit('usage: match.py CAPTURE [TABLE [FRAMES]]')
    x = Capture()
    x.set_up(t=4, r=8, q=3, kinds=KINDS, b=4, n=16, p=65536)
    x.limit(5)
    at, buffered, listed = 0, 0, []
    for size in BATCHES:
        rows = EVENTS[at:at + size]
        names = b''.join(p.encode() for _, _, p in rows if len(p) > 12)
        number = min(set(range(16)) - set(listed))
        if names:
            x.register(names)
        x.push(size, *columns_of(rows, at + 1, number))
        if names:
            x.let_go(number)
        at += size
        if size > 5 and not buffered:
            continue
        # a buffer holds its batch's names and no more, so it is attached: it is not free while rows are buffered whose list has it
        listed = ([] if buffered + size >= 4 else listed) + ([number] if names else [])
        buffered = (buffered + size) % 4
        if not buffered:
            listed = []
    x.finish()
    open(sys.argv[1], 'wb').write(x.data)
    if len(sys.argv) > 2:
        open(sys.argv[2], 'w').write(table())
    if len(sys.argv) > 3:
        open(sys.argv[3], 'w').write(frames())


if __name__ == '__main__':
    main()
