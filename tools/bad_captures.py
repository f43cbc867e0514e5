#!/usr/bin/env python3
"""Plays captures that are cut, too long or odd with the programs `court` and `strip`, and holds what a person sees: the lines (of `court`), the fault,
the exit status. usage: bad_captures.py (after `rt ci`, or `rt run < /dev/null` in crates/court and crates/strip). Exit status 1 where one is not as it
should be."""
import os
import struct
import subprocess
import sys
import tempfile

from capture import Capture, column, inline, long, U64, U8, UTF8

ROOT = os.path.join(os.path.dirname(os.path.abspath(__file__)), '..')
PLAY = os.path.join(ROOT, 'tools', 'play')
MATCH = open(os.path.join(ROOT, 'data', 'match.capture'), 'rb').read()
KINDS = (U64, U8, U8, UTF8)
BESIDE = ' ' * 57
HEAD = 'rows the strip takes at once: 1\n' + ' ' * 17 + 'row  side   event   player\n'


def court(t=1, p=32768):
    """A capture behind its set-up."""
    x = Capture()
    x.set_up(t=t, r=4, q=2, kinds=KINDS, b=4, n=16, p=p)
    return x


def send(x, number, side, event, name, listed=()):
    """One row; None is null, and a name with a list is the view itself."""
    cells = [struct.pack('<Q', number or 0), bytes([side or 0]), bytes([event or 0]), name if listed else inline(name or b'')]
    valid = [None if value is not None else [0] for value in (number, side, event, name)]
    x.push(1, *[column([cell], bits, 0, listed if i == 3 else ()) for i, (cell, bits) in enumerate(zip(cells, valid))])


def row(number, side, event, name):
    """A row that is sent and taken, as it is shown."""
    return BESIDE + 'the box sends 1\n' + '%20s  %-5s  %-6s  %s\n---- rows to the strip: 1\n' % (number, side, event, name)


def odd_rows():
    """Rows that no match should have, each shown as what it is."""
    x, out = court(), HEAD
    for cells, shown in [
            ((1000, 1, 1, b'Asha'), (1000, 'home', 'out', 'Asha')),
            ((18446744073709551615, 2, 2, b'Lata'), (18446744073709551615, 'away', 'revive', 'Lata')),
            ((3, 7, 9, b'Asha'), (3, '?7', '?9', 'Asha')),
            ((4, 0, 255, b''), (4, '?0', '?255', '')),
            ((None, None, None, None), ('-', '-', '-', '-')),
            ((5, 1, 1, b'\x1b[2Jab\x7f\n'), (5, 'home', 'out', '?[2Jab??')),
            ((6, 1, 1, 'Zoë'.encode()), (6, 'home', 'out', 'Zoë')),
            ((7, 1, 1, b'a\x9bb\xc2\x9bc'), (7, 'home', 'out', 'a?b\udcc2?c')),
            ((8, 1, 1, b'a\x80\x9bc'), (8, 'home', 'out', 'a??c'))]:
        send(x, *cells)
        out += row(*shown)
    return x.data, out


def far_names():
    """A name whole, wherever in its buffer it lies; each is more than half of its buffer, so that it stays there."""
    x, out = court(p=65536), HEAD
    for number, (size, offset) in enumerate([(9000, 4200), (50000, 20000)]):
        text = bytes(97 + i % 26 for i in range(size))
        x.register(text)
        send(x, number, 1, 1, long(size - offset, text[offset:offset + 4], 0, offset), [number])
        out += row(number, 'home', 'out', text[offset:].decode())
    return x.data, out


def refusals():
    """Each refusal is told."""
    x = court()
    x.register(b'a' * 20, 40000)
    x.let_go(3)
    x.push_raw(1, b'', b'')
    x.lend(slots=-1)
    x.finish()
    x.lend()
    send(x, 1, 1, 1, b'Asha')
    out = HEAD + ''.join(BESIDE + line + '\n' for line in [
        'the box registers a buffer, refused 12', 'the box lets a buffer go, refused 13', 'the box sends 1, refused 2', 'the match ends, refused 1'])
    return x.data, out + row(1, 'home', 'out', 'Asha')


def another_set_up():
    """Rows that wait when another set-up comes."""
    x = court(t=4)
    send(x, 1, 1, 1, b'Asha')
    x.set_up(t=4, r=4, q=2, kinds=KINDS, b=4, n=16, p=32768)
    head = HEAD.replace('once: 1', 'once: 4')
    return x.data, head + BESIDE + 'the box sends 1\n---- rows that wait for more: 1\n' + head


def only(*calls):
    """A capture of such calls and no other."""
    x = Capture()
    for call in calls:
        x.call(call)
    return x.data


def waiting():
    """Rows that are sent and not yet a batch when the capture is over."""
    x = court(t=4)
    send(x, 1, 1, 1, b'Asha')
    return x.data, HEAD.replace('once: 1', 'once: 4') + BESIDE + 'the box sends 1\n---- rows that wait for more: 1\n'


def many():
    """Behind a million calls the next is still played."""
    x = court()
    one = Capture()
    one.limit()
    x.data += bytes(one.data) * 1000001
    send(x, 1, 1, 1, b'Asha')
    return x.data, HEAD + row(1, 'home', 'out', 'Asha')


def brings(extra):
    """A call whose two runs are as long as the memory for them, or longer."""
    x = court()
    x.call(99, first=b'x' * 60000, second=b'y' * (5536 + extra))
    return x.data


def lends(slots=0, pool=0, books=0):
    """Other lengths than set-up's lent, these or none."""
    x = court()
    x.call(13, 0, 0, 0, 0, 0, slots, books, pool)
    return x.data


def other_columns():
    """Names of another kind."""
    x = Capture()
    x.set_up(t=1, kinds=(U64, U8, U8, 19))
    return x.data


# what is played, what must be written, and the fault that must be told; None for what is not looked at here
CASES = [
    ('a match', MATCH, open(os.path.join(ROOT, 'crates', 'court', 'stdout')).read(), ''),
    ('cut in a header', MATCH[:700], None, 'capture: call 7 is cut short: 41 bytes of 48 are there'),
    ('cut in the bytes of a call', MATCH[:60], '', 'capture: call 1 is cut short: 12 bytes of 16 are there'),
    ('cut behind a header', MATCH[:48], '', 'capture: call 1 is cut short: 0 bytes of 16 are there'),
    ('no bytes', b'', '', 'capture: there is no call in it'),
    ('no capture', b'Asha is out, Lata comes back: a text and no capture', '', 'capture: call 1 is of no kind: 1634235201'),
    ('a call of no kind', struct.pack('<12I', 15, *[0] * 11), '', 'capture: call 1 is of no kind: 15'),
    ('as many bytes as there is room for', brings(0), HEAD, ''),
    ('one byte more', brings(1), HEAD, 'capture: call 2 brings 65537 bytes, and this program has room for 65536'),
    ('slots of 65,537 bytes', lends(slots=65537), HEAD, 'capture: call 2 lends 65537 bytes of slots, and this program has room for 65536'),
    ('a pool of 65,537 bytes', lends(pool=65537), HEAD, 'capture: call 2 lends 65537 bytes of the pool, and this program has room for 65536'),
    ('a pool of 65,536 bytes', lends(pool=65536), HEAD, ''),
    ('books of 65,537 bytes', lends(books=65537), HEAD, 'capture: call 2 lends 65537 bytes of books, and this program has room for 65536'),
    ('other columns', other_columns(), '', 'capture: call 1 sets up other columns than a match has: UInt64, UInt8, UInt8, Utf8View'),
    ('odd rows', *odd_rows(), ''),
    ('names far back and long', *far_names(), ''),
    ('refusals', *refusals(), 'capture: calls refused: 4'),
    ('another set-up', *another_set_up(), ''),
    ('text alone', only(99, 99), '', 'capture: no set-up in it was done'),
    ('a match without its set-up', only(5), BESIDE + 'the match ends, refused 1\n', 'capture: no set-up in it was done'),
    ('rows that wait', *waiting(), ''),
    ('a million calls', *many(), ''),
]


def played(program, stdin, stdout):
    """What a program writes and tells, and its exit status."""
    done = subprocess.run([PLAY, program], stdin=stdin, stdout=stdout, stderr=subprocess.PIPE, check=False)
    return (done.stdout or b'').decode(errors='surrogateescape'), done.stderr.decode(), done.returncode


def wrong(name, written, fault, got):
    """Says where what was seen is not what must be."""
    for what, must, saw in zip(('standard output', 'standard error', 'exit status'), (written, fault + '\n' if fault else '', 1 if fault else 0), got):
        if must is not None and must != saw:
            print('%s: %s is\n%.600r\nand must be\n%.600r' % (name, what, saw, must))
            return True
    return False


def main():
    failed = 0
    for name, data, written, fault in CASES:
        for program in ('court', 'strip'):
            with tempfile.TemporaryFile() as capture:
                capture.write(data)
                capture.seek(0)
                failed += wrong(program + ', ' + name, written if program == 'court' else None, fault, played(program, capture, subprocess.PIPE))
    for program in ('court', 'strip'):
        folder = os.open(ROOT, os.O_RDONLY)
        failed += wrong(program + ', a folder', '', "capture: standard input can't be read, at call 1", played(program, folder, subprocess.PIPE))
        with tempfile.TemporaryFile() as capture, open('/dev/full', 'wb') as full:
            capture.write(MATCH)
            capture.seek(0)
            failed += wrong(program + ', no room for output', None, 'capture: standard output takes no more', played(program, capture, full))
    print('court and strip: %d captures that are cut, too long or odd, %d not as they should be' % (len(CASES) + 2, failed))
    sys.exit(1 if failed else 0)


if __name__ == '__main__':
    main()
