"""The refusals of the program `edges`: each number of document 01, both sides of each bound, and the order of the tests. tools/edges.py has the rest."""
import struct

from capture import batch, BINARY, column, inline, long, NONE, plain, text, U8, UTF8, views


def set_ups(x):
    x.note('-- 1: set-up outside its bounds')
    for t, r, q, b, n in ((0, 4, 2, 4, 8), (1, 4, 2, 4, 8), (5, 4, 2, 4, 8), (4, 65536, 1, 4, 8), (4, 65537, 1, 4, 8), (65537, 65537, 1, 4, 8),
                          (65536, 65536, 1, 4, 8), (4, 4, 0, 4, 8), (4, 4, 1, 4, 8), (4, 4, 1024, 4, 8), (4, 4, 1025, 4, 8), (4, 4, 2, 0, 8),
                          (4, 4, 2, 1, 8), (4, 4, 2, 1024, 8), (4, 4, 2, 1025, 8), (4, 4, 2, 4, 0), (4, 4, 2, 4, 1), (4, 4, 2, 4, 65536),
                          (4, 4, 2, 4, 65537)):
        x.set_up(t=t, r=r, q=q, b=b, n=n, kinds=(U8,), p=0)
    x.note('-- 1: a kind outside the table; more than 16 columns')
    x.set_up(kinds=(0,))
    x.set_up(kinds=(20,))
    x.set_up(kinds=(19,))
    x.set_up(t=1, kinds=(U8,) * 17, q=1)
    x.set_up(t=1, kinds=(U8,) * 16, q=1)
    x.note('-- 1: lent memory not of the set-up lengths')
    for lent in ((1, 0, 0), (0, 0, 1)):
        x.set_up(lent=lent)
    x.set_up()
    x.lend(slots=1)
    x.finish()
    x.lend(pool=1)
    x.drop()
    x.lend(books=1)
    x.push(0)
    x.row(0, 0)
    x.buffer(0)
    x.let_go(0)
    x.register(b'a')
    x.lend()
    x.finish()
    x.note('-- 1 before 14, and both before 0 rows are done')
    x.poke(0, 44, 4)
    x.push(0)
    x.lend(books=1)
    x.push(0)
    x.let_go(0)


def ranges(x):
    x.note('-- 14: the state out of range, and at the edge')
    data = text(100)

    def fresh():
        x.set_up(t=4, r=8, q=2, b=3, n=8, kinds=(UTF8, U8))
        x.register(data, 200)
        x.push(1, column(views(data, [(0, 20)]), listed=[0]), column(plain(1, U8)))
        for slot in (0, 1):
            for place in range(4):
                x.poke(1, x.list_at(slot, 0) + 4 * place, 0)

    for memory, at, good, bad in ((0, 44, 3, 4), (0, 40, 2, 3), (0, 36, 2, 3), (0, 52, 4096, 4095), (0, 52, 1048576, 1048577),
                                  (0, 60, 1, 2)):
        for value in (good, bad):
            fresh()
            x.poke(memory, at, value)
            x.let_go(7)
    for at, good, bad in ((0, 8, 9), (24 + 4, 32768 - 200, 32769 - 200), (24 + 8, 8192, 8193), (4 + 12, 1, 2)):
        for value in (good, bad):
            fresh()
            x.poke(2, at, value)
            x.let_go(7)
    counts = 4 + 20 * 8
    for at, good, bad in ((counts, 8, 9), (counts + 4, 2, 3), (counts + 12 + 4, 3, 4), (counts + 8, 0, 1)):
        for value in (good, bad):
            fresh()
            x.poke(2, at, value)
            x.let_go(7)
    for value in (7, 8):
        fresh()
        x.poke(2, counts + 12 + 4, 1)
        x.poke(1, x.list_at(1, 0), value)
        x.let_go(7)


def open_blocks(x):
    data = text(100)

    def fresh():
        x.set_up(t=4, r=8, q=2, b=3, n=8, kinds=(UTF8, UTF8), p=40000)
        x.register(data, 200)
        x.push(1, column(views(data, [(0, 20)]), listed=[0]), column(views(data, [(0, 20)]), listed=[0]))
        x.register(b'Asha')
        x.let_go(0)

    x.note('-- 14: an open block in use, free, not in use, not below N')
    for number in (1, 0, 4, 8):
        fresh()
        x.poke(0, 48 + 12, number)
        x.let_go(7)
    x.note('-- 14: each column has its own block; both the first; both the second')
    for at, number in ((48 + 12, 1), (64 + 12, 1), (48 + 12, 2)):
        fresh()
        x.poke(0, at, number)
        x.let_go(7)
    x.note('-- 14 in the steps of a push: a block under a free number whose entry is not zero (start, capacity, length), which stays; 12 comes first, and 11 where no number is free')
    one = (column(views(data, [(0, 20)]), listed=[0]),)
    for at in (0, 4, 8, None):
        x.set_up(t=4, n=3, b=1)
        x.register(data, 200)
        if at is not None:
            x.poke(2, 4 + 20 + at, 5)
        x.push(1, *one)
        x.show(2, 0, 64)
    for n, p in ((1, 32768), (3, 400)):
        x.set_up(t=4, n=n, p=p)
        x.register(data, 200)
        if n > 1:
            x.poke(2, 4 + 20, 5)
        x.push(1, *one)
    x.note('-- registering takes such a number, and its entry is written whole')
    x.set_up(t=4, n=3)
    x.poke(2, 4 + 8, 5)
    x.register(b'Asha')
    x.books()


def older_state(x):
    x.note('-- a push with a state that an earlier call left, over the memory of now: its blocks were freed since; refused, and no row changes')
    data = text(10000)
    x.set_up(t=8, r=8, q=2, b=8, n=4, p=27000, kinds=(UTF8, UTF8))
    x.register(data, 10000)
    listed = [0, 0, 0]
    x.push(1, column([inline(b'a')]), column(views(data, [(0, 20)]), listed=listed))
    x.push(1, column(views(data, [(0, 20)]), listed=listed), column([inline(b'b')]))
    x.register(b'x' * 100, 100)
    x.finish()
    x.drop()
    for k in range(2):
        x.push(8, column([inline(b'q%d' % k)] * 8), column([inline(b'r%d' % k)] * 8))
    x.push(3, column([inline(b'one'), inline(b'two'), inline(b'three')]), column([inline(b'un'), inline(b'deux'), inline(b'trois')], [1, 1, 0]))
    x.drop()
    x.drop()
    # the six words of the state that differ from those after the second push, and back
    for at, value in ((44, 2), (48 + 8, 1), (48 + 12, 2), (64 + 8, 1), (64 + 12, 1)):
        x.poke(0, at, value)
    x.push(2, column(views(data, [(0, 2500), (2500, 2500)]), listed=listed), column(views(data, [(0, 6000), (3000, 6000)]), listed=listed))
    for at, value in ((44, 3), (48 + 8, 0), (48 + 12, 0), (64 + 8, 0), (64 + 12, 0)):
        x.poke(0, at, value)
    x.books()
    x.finish()
    for c in (0, 1):
        for i in range(3):
            x.row(c, i)
    x.drop()


def records(x):
    x.note('-- 2, 3: record bytes, rows over R')
    data = text(100)
    x.set_up(t=2, r=3, kinds=(UTF8, U8), p=65536)
    x.register(data)
    good = [column(views(data, [(0, 20)]), [1], 0, [0]), column(plain(1, U8), [1], 0)]

    def cut(r, b):
        return r[:-1], b

    def more(r, b):
        return r + b'\0', b

    x.push(1, *good, edit=cut)
    x.push(1, *good, edit=more)
    x.push(4, column(views(data, [(0, 2)] * 4)), column(plain(4, U8)), edit=cut)
    x.push(3, column(views(data, [(0, 2)] * 3)), column(plain(3, U8)))
    x.push(4, column(views(data, [(0, 2)] * 4)), column(plain(4, U8)))

    def word(at, value):
        def edit(r, b):
            struct.pack_into('<I', r, at, value)
            return r, b
        return edit

    x.note('-- 4: a record of the wrong kind or against its rules (the fourth keeps them: no validity, and first bit 0)')
    for at, value in ((0, 19), (24, 1), (28, 1), (8, NONE), (32 + 20, 1)):
        x.push(1, *good, edit=word(at, value))
    x.push(1, column(views(data, [(0, 2)])), column(plain(1, U8)), edit=word(12, 1))
    x.push(1, column(views(data, [(0, 2)])), column(plain(1, U8)), edit=word(16, 1))
    x.drop()
    x.drop()
    x.note('-- 5: values, bitmap or list outside the body; just inside it is 6 or 7 that refuses, since other bytes are read, or none')
    size = len(batch(1, x.kinds, good)[1])
    for at, inside in ((4, size - 16), (8, size - 1), (16, size - 4)):
        for value in (inside + 1, inside, NONE - 1):
            x.push(1, *good, edit=word(at, value))
    x.push(1, *good, edit=word(12, 8))
    x.push(1, *good, edit=word(12, 8 * (size - 16) - 1))
    x.push(1, *good, edit=word(12, 8 * (size - 16)))
    x.push(1, *good, edit=word(20, 2))
    x.note('-- 5 in more than 32 bits: a second row\'s bit 4,294,967,296, a list of 1,073,741,824 numbers')
    x.push(2, column(views(data, [(0, 20)] * 2), [1, 1], 0, [0]), column(plain(2, U8)), edit=word(12, NONE))
    x.push(1, *good, edit=word(20, 1 << 30))
    x.note('-- 6: a listed buffer that the caller does not hold (the first is held)')
    for number in (0, 1, 8, NONE):
        x.push(1, column(views(data, [(0, 2)]), listed=[number]), column(plain(1, U8)))
    x.let_go(0)
    x.push(1, column(views(data, [(0, 2)]), listed=[0]), column(plain(1, U8)))
    x.note('-- 7: an invalid view, null rows included')
    x.set_up(t=8, kinds=(BINARY,))
    x.register(data, 120)
    for cell in (inline(b'Bhavani'), inline(b'')[:4] + b'\0' * 11 + b'a', struct.pack('<I', 11) + text(12), struct.pack('<I', 12) + text(12),
                 long(13, data[:4], 0, 0), long(13, data[:4], 1, 0), long(100, data[:4], 0, 0), long(101, data[:4], 0, 0),
                 long(13, data[87:91], 0, 87), long(13, data[88:92], 0, 88), long(13, b'none', 0, 0), long(NONE, data[:4], 0, NONE),
                 long(NONE - 29, data[50:54], 0, 50)):
        x.push(1, column([cell], [0], 0, [0]))
    x.note('-- the order: 4 before 5 before 6 before 7, and all of column 0 before column 1')
    x.set_up(t=8, kinds=(UTF8, UTF8))
    x.register(data)
    bad = column([long(13, b'none', 0, 0)], [1], 0, [0])
    unheld = column([long(13, data[:4], 0, 0)], [1], 0, [7])
    fine = column([long(13, data[:4], 0, 0)], [1], 0, [0])
    x.push(1, bad, unheld)
    x.push(1, fine, unheld)
    x.push(1, unheld, bad, edit=word(32 + 24, 1))
    x.push(1, fine, bad, edit=word(32 + 24, 1))
    x.push(1, bad, fine, edit=word(4, NONE - 1))
    x.push(1, unheld, fine, edit=word(4, NONE - 1))
    x.push(1, bad, fine, edit=lambda r, b: word(24, 1)(*word(4, NONE - 1)(r, b)))


def room(x):
    data = text(200)
    x.note('-- 9: finishing or queueing whole with Q queued')
    x.set_up(t=2, q=1, kinds=(U8,))
    x.push(2, column(plain(2, U8)))
    x.push(1, column(plain(1, U8)))
    x.push(1, column(plain(1, U8)))
    x.finish()
    x.limit(0)
    x.push(1, column(plain(1, U8)))
    x.counts()
    x.drop()
    x.push(1, column(plain(1, U8)))
    x.finish()
    x.finish()
    x.note('-- a push that needs two finishes with room for one changes nothing')
    x.set_up(t=2, r=8, q=2, kinds=(U8,))
    x.push(1, column(plain(1, U8)))
    x.push(5, column(plain(5, U8)))
    x.push(4, column(plain(4, U8)))
    x.counts()
    x.note('-- 10: a list would pass B: attached, the block it closes counted; opened; queued whole')
    x.set_up(t=8, b=2)
    for _ in range(3):
        x.register(data, 200)
    attach = column(views(data, [(0, 150)]), listed=[0])
    compact = column(views(data, [(0, 20)]), listed=[0])
    x.push(1, attach)
    x.push(1, column(views(data, [(0, 200), (0, 200)]), listed=[0, 1]))
    x.push(1, attach)
    x.push(1, attach)
    x.push(1, compact)
    x.finish()
    x.push(1, compact)
    x.push(1, column(views(data, [(0, 200)]), listed=[0, 1]))
    x.push(1, attach)
    x.push(1, compact)
    x.finish()
    x.drop()
    x.limit(0)
    x.push(1, column(views(data, [(0, 150)]), listed=[0, 1, 2]))
    x.push(1, column(views(data, [(0, 150)]), listed=[0, 1]))
    x.note('-- a list longer than B that is compacted, or of inline views, is not refused')
    x.limit()
    x.drop()
    x.push(1, column(views(data, [(0, 20)]), listed=[0, 1, 2]))
    x.push(1, column(views(data, [(0, 2)]), listed=[0, 1, 2]))
    x.note('-- a block opens where its list has one place left')
    x.set_up(t=8, b=1)
    x.register(data, 200)
    x.push(1, compact)
    x.finish()
    x.note('-- 10 before 11 on opening; 10 before 9 where both a list and the queue are full, 9 before 10 for a batch queued whole')
    x.set_up(t=2, q=1, b=1, n=1)
    x.register(data, 200)
    x.push(1, attach)
    x.push(1, compact)
    x.push(1, column([inline(b'Anup')]))
    x.push(1, attach)
    x.push(1, attach)
    x.push(1, column([inline(b'Bhavani')]))
    x.finish()
    x.drop()
    x.finish()
    x.limit(0)
    x.push(1, column(views(data, [(0, 150)]), listed=[0, 0]))
    x.drop()
    x.push(1, column(views(data, [(0, 150)]), listed=[0, 0]))
    x.note('-- 11: no free buffer number; 12: no gap; 13 before 11 before 12')
    x.set_up(t=8, n=2, p=10000)
    x.register(data, 8000)
    x.register(data, 2001)
    x.register(data, 2000)
    x.register(data, 1)
    x.register(b'a', 1)
    x.push(1, compact)
    x.let_go(1)
    x.push(1, compact)
    x.register(data, 199)
    x.books()
    x.note('-- two columns: the first takes the last number, the second is refused, and nothing is kept; also with a number below one in use')
    x.set_up(t=8, n=2, p=32768, kinds=(UTF8, UTF8))
    x.register(data, 200)
    x.push(1, compact, compact)
    x.books()
    x.push(1, compact, column([inline(b'Anup')]))
    x.books()
    x.set_up(t=8, n=2, p=32768, kinds=(UTF8, UTF8))
    x.register(b'')
    x.register(data, 200)
    x.let_go(0)
    second = column(views(data, [(0, 20)]), listed=[1])
    x.push(1, second, second)
    x.books()
    x.push(1, second, column([inline(b'Anup')]))
    x.books()
    x.note('-- capacity 0: a number, start 0, and no room')
    x.set_up(t=8, n=4, p=100)
    x.register(b'')
    x.register(data[:100])
    x.register(b'')
    x.buffer(2)
    x.let_go(0)
    x.register(b'', 0)
    x.books()
    x.note('-- 13: what is not there, or not the caller\'s')
    x.set_up(t=1, n=4, p=32768)
    x.register(data, 199)
    x.register(data, 200)
    x.row(0, 0)
    x.push(1, compact)
    x.row(0, 0)
    x.row(0, 1)
    x.row(1, 0)
    x.buffer(0)
    x.buffer(1)
    x.buffer(2)
    x.let_go(1)
    x.let_go(2)
    x.let_go(0)
    x.let_go(0)
    x.buffer(0)
    x.row(0, 0)
    x.buffer(1)
    x.drop()
    x.books()
