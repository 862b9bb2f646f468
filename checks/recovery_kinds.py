"""The kinds of damage of recovery.py."""
import random, struct
from recovery_dumps import (Dump, Made, array, between, binary, cut, element, framed, identifier, int32, nested, oplog, others, string, woven)


def lengths(documents, numbers, wrong):
    dump = Dump(documents)
    for i in numbers:
        dump.length(i, wrong(i))
    return dump


def tags(documents, step, dump=None):
    dump = dump or Dump(documents)
    for i in range(0, len(documents), step):
        dump.put(dump.starts[i] + 4, b"\x66")
    return dump


def flips(documents, r, count, place):
    dump = Dump(documents)
    for _ in range(count):
        offset = place(dump)
        dump.put(offset, bytes([dump.data[offset] ^ 1 << r.randrange(8)]))
    return dump


def odd_length(r, size):
    return r.choice([0, r.randrange(-2**31, 2**31), size + r.choice([-1, 1]) * r.randrange(1, 40)])


def of_lengths(docs, r):
    every, size = range(len(docs)), lambda i: len(docs[i])
    yield "every third length too large", lengths(docs, every[::3], lambda i: 0x7FFFFFFF)
    yield "every third length negative", lengths(docs, every[1::3], lambda i: -size(i))
    yield "every twentieth length 7 more", lengths(docs, every[::20], lambda i: size(i) + 7)
    yield "every tenth length 3 less", lengths(docs, every[5::10], lambda i: size(i) - 3)
    yield "one length of 9000000", lengths(docs, [len(docs) // 7], lambda i: 9_000_000)
    yield "lengths of two documents", lengths(docs, every[9:-1:50], lambda i: size(i) + size(i + 1))
    yield "20 flips in lengths", flips(docs, r, 20, lambda dump: r.choice(dump.starts) + r.randrange(4))
    yield "every second length random, 0 or near", lengths(docs, every[::2], lambda i: odd_length(r, size(i)))
    yield "every tenth length 1 KB to 5 MB more", lengths(docs, every[::10], lambda i: size(i) + r.randrange(1000, 5_000_000))
    entries = [oplog(r, i) for i in every]
    yield "an oplog, every tenth length more", lengths(entries, every[::10], lambda i: len(entries[i]) + r.randrange(1000, 5_000_000))


def of_values(docs, r):
    yield "flips anywhere", flips(docs, r, len(docs) // 40, lambda dump: r.randrange(len(dump.data)))
    total = sum(map(len, docs))
    yield "a flip in every 10000 bytes", flips(docs, r, total // 10000, lambda dump: r.randrange(len(dump.data)))
    yield "every second tag wrong", tags(docs, 2)
    dump = tags(docs, 2)
    for i in range(1, len(docs), 20):
        dump.length(i, odd_length(r, len(docs[i])))
    yield "every second tag wrong, some lengths", dump
    reviews = [framed(identifier(r) + string("text", "caf\u00e9 " + "good " * r.randrange(30)) + int32("stars", r.randrange(1, 12))) for _ in docs]
    dump = Dump(reviews)
    for i in range(3, len(reviews), 10):
        dump.put(dump.starts[i] + reviews[i].index("\u00e9".encode()), b"\xe9\xe9")
    yield "every tenth text in Latin-1", dump


def of_places(docs, r):
    new = lambda: Dump(docs)
    for fill in (b"\0", b"\xff"):
        dump = new()
        for _ in range(8):
            dump.put(r.randrange(len(dump.data) - 4096), fill * 4096)
        yield "pages of %d" % fill[0], dump
    yield "cuts", cut(new(), r, 8, 777, lambda: b"")
    yield "insertions", cut(new(), r, 8, 0, lambda: r.randbytes(r.randrange(1, 9000)))
    dump = new()
    for at in range(0, len(dump.data), 512):
        if r.randrange(20) == 0:
            dump.put(at, r.randbytes(512))
    yield "5 % of the sectors of another file", dump
    dump = new()
    dump.hurt.add(len(docs) - 1)
    del dump.data[-25:]
    yield "a cut tail", dump
    dump, middle = new(), len(docs) // 2
    dump.hurt.add(middle)
    del dump.data[dump.starts[middle + 1] - 9:dump.starts[middle + 1]]
    yield "a file that is cut and goes on", dump
    yield "two dumps in turn, by 4 KiB", woven(docs, 4096)
    yield "two dumps in turn, by 16 KiB", woven(docs, 16384)
    pages = [bytes(new().data[at:at + 65536]) for at in range(0, len(new().data), 65536)]
    within = [d for at, d in zip(new().starts, docs) if at // 65536 == (at + len(d) - 1) // 65536]
    r.shuffle(pages)
    yield "pages of 64 KiB in any order", Made(b"".join(pages), within)


def of_bytes_between(docs, r):
    wire = lambda d: struct.pack("<iiiiiB", 21 + len(d), r.randrange(10**6), 0, 2013, 0, 0)
    yield "a line feed after each", between(docs, lambda i, at: b"\n" if i else b"")
    yield "a line of a log before each", between(docs, lambda i, at: b"2026-01-02T03:04:05Z INFO wrote document %d\n" % i)
    yield "a message's header before each", between(docs, lambda i, at: wire(docs[i]))
    yield "a cell's header before each", between(docs, lambda i, at: r.randbytes(r.randrange(28, 65)))
    yield "aligned to 8 bytes", between(docs, lambda i, at: bytes(-at % 8))
    plain = [d for d in docs if b"\n" not in d]
    yield "LF became CR LF", Made(b"".join(docs).replace(b"\n", b"\r\n"), plain)
    yield "CR is gone", Made(b"".join(docs).replace(b"\r", b""), [d for d in docs if b"\r" not in d])


def of_documents_inside(docs, r):
    groups = [docs[i:i + 3] for i in range(0, len(docs) - 2, 3)]
    holders = [framed(identifier(r) + binary("b", b"".join(group)) + int32("z", 0)) for group in groups]
    yield "every second that holds a dump damaged inside", tags(holders, 2)
    yield "every tenth length of those that hold a dump negative", lengths(holders, range(0, len(holders), 10), lambda i: -1)
    orders = [framed(identifier(r) + array("all", [lambda key, d=d: element(3, key, d) for d in group])) for group in groups]
    yield "arrays of documents, every tenth length negative", lengths(orders, range(0, len(orders), 10), lambda i: -1)
    rows = [lambda key, i=i: nested(key, identifier(r), int32("n", i)) for i in range(20000)]
    large = framed(identifier(r) + array("rows", rows) + int32("z", 1))
    dump = Dump(docs[:50] + [large] + docs[50:100])
    yield "rows in one large document without its length", dump.length(50, -1)
    small = framed(int32("a", 1)).decode("latin-1")
    texts = [framed(identifier(r) + string("t", "a" * r.randrange(9) + small + small) + int32("z", i)) for i in range(len(docs))]
    yield "documents in texts, every tenth length negative", lengths(texts, range(0, len(texts), 10), lambda i: -1)


def of_other_documents(docs, r):
    posts = others(r, len(docs))
    every = range(len(posts))
    yield "every third length in the other byte order", lengths(posts, every[::3], lambda i: struct.unpack(">i", posts[i][:4])[0])
    yield "every fourth length that of another", lengths(posts, every[::4], lambda i: len(r.choice(posts)))
    dump = Dump(posts)
    for i in every[1::2]:
        dump.put(dump.starts[i] + len(posts[i]) - 1, b"\1")
    yield "every second final 0 wrong", dump
    dump = Dump(posts)
    for i in every[1::3]:
        dump.put(dump.starts[i] + posts[i].index(b"\x10n\0"), b"\x42")
    yield "every third tag of a second element wrong", dump
    dump = Dump(posts)
    for i in every[::5]:
        dump.put(dump.starts[i], bytes(min(len(posts[i]), r.randrange(4, 40))))
    yield "zeros over the fronts of every fifth", dump
    dump = Dump(posts)
    for _ in range(len(dump.data) // 2000):
        dump.put(r.randrange(len(dump.data) - 16), r.randbytes(r.randrange(1, 16)))
    yield "1 to 15 bytes wrong in every 2000", dump
    yield "a checksum after each", between(posts, lambda i, at: r.randbytes(4))


def of_sizes(docs, r):
    small = [framed(b"")] * 20 + [framed(element(10, "", b""))] * 20 + docs[:len(docs) // 2]
    yield "documents of 5 and 7 bytes", Dump(small).length(20 + 20 + 5, -1)
    large = framed(binary("b", r.randbytes(16_000_000)))
    yield "a document of 16 MB", Dump(docs[:100] + [large] + docs[100:200]).length(50, 2**31 - 1).length(150, -1)


def kinds(docs, r):
    """Each kind by its name, and a dump that is damaged so."""
    for some in (of_lengths, of_values, of_places, of_bytes_between, of_documents_inside, of_other_documents, of_sizes):
        yield from some(docs, random.Random(r.randrange(2**32)))
