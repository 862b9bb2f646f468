"""Made documents for recovery.py, and dumps of them that are damaged, each with the documents that still lie whole in it."""
import bisect, struct

WORDS = "alpha beta naïve Zürich 東京 Привет 😀 order shipped λάμδα line\nbreak tab\t quote\" back\\slash return\r\n".split(" ")


def framed(inside):
    return struct.pack("<i", len(inside) + 5) + inside + b"\0"


def element(tag, key, payload):
    return bytes([tag]) + key.encode() + b"\0" + payload


def text_of(r, count):
    return " ".join(r.choice(WORDS) for _ in range(count))


def string(key, text):
    return element(2, key, struct.pack("<i", len(text.encode()) + 1) + text.encode() + b"\0")


def int32(key, number):
    return element(16, key, struct.pack("<i", number))


def double(key, number):
    return element(1, key, struct.pack("<d", number))


def date(key, r):
    return element(9, key, struct.pack("<q", 1_600_000_000_000 + r.randrange(10**11)))


def binary(key, data, subtype=0):
    return element(5, key, struct.pack("<iB", len(data), subtype) + data)


def nested(key, *inside):
    return element(3, key, framed(b"".join(inside)))


def array(key, items):
    """An array of elements, each given by what makes it of its key."""
    return element(4, key, framed(b"".join(item(str(i)) for i, item in enumerate(items))))


def identifier(r):
    return element(7, "_id", r.randbytes(12))


def head(r, number):
    return identifier(r) + int32("n", number)


def order(r, number):
    items = [lambda key, n=r.randrange(1, 20): nested(key, string("sku", "S%06d" % r.randrange(10**6)), double("price", r.random() * 1000), int32("count", n))
             for _ in range(r.randrange(1, 12))]
    address = nested("address", string("city", text_of(r, 1)), array("geo", [lambda key: double(key, r.uniform(-180, 180))] * 2))
    return framed(head(r, number) + nested("customer", string("name", text_of(r, 2)), address) + array("items", items) + array("tags", []) + date("at", r))


def log(r, number):
    context = nested("context", int32("pid", r.randrange(40000)), array("tags", []), nested("more"))
    return framed(head(r, number) + date("at", r) + string("text", text_of(r, r.randrange(3, 40))) + context + int32("level", r.randrange(1, 6)))


def user(r, number):
    roles = [lambda key: string(key, text_of(r, 1))] * r.randrange(4)
    return framed(head(r, number) + string("name", text_of(r, 2)) + array("roles", roles) + nested("settings") + int32("__v", r.randrange(0, 12)))


def feature(r, number):
    point = lambda key: array(key, [lambda key: double(key, r.uniform(-180, 180))] * 2)
    ring = lambda key: array(key, [point] * r.randrange(4, 12))
    return framed(head(r, number) + string("type", "Feature") + nested("geometry", string("type", "Polygon"), array("coordinates", [ring])) + nested("properties"))


def series(r, number):
    sample = lambda key: nested(key, date("t", r), double("v", r.gauss(0, 100)))
    return framed(head(r, number) + array("samples", [sample] * r.randrange(5, 40)) + element(18, "total", r.randbytes(8)))


def chunk(r, number):
    return framed(head(r, number) + element(7, "files_id", r.randbytes(12)) + binary("data", r.randbytes(r.randrange(3000)), r.choice([0, 5, 128])))


def deep(r, number):
    inner = framed(string("t", text_of(r, 3)))
    for level in range(r.randrange(1, 12)):
        inner = framed(int32("v", level) + element(3, "l", inner))
    return framed(head(r, number) + element(3, "l", inner) + element(11, "re", b"^a.*\0im\0") + element(10, "nil", b"") + element(255, "min", b""))


def post(r, number):
    """A document whose nested ones have identifiers, too."""
    comment = lambda key: nested(key, identifier(r), string("text", text_of(r, r.randrange(2, 12))), int32("likes", r.randrange(60)))
    return framed(head(r, number) + string("title", text_of(r, 3)) + array("comments", [comment] * r.randrange(6)) + int32("__v", r.randrange(20)))


def invoice(r, number):
    row = lambda key: nested(key, int32("quantity", r.randrange(1, 30)), element(19, "price", r.randbytes(16)))
    return framed(head(r, number) + array("rows", [row] * r.randrange(1, 9)) + element(8, "paid", b"\1") + double("total", r.random() * 10000))


def sensor(r, number):
    return framed(head(r, number) + date("t", r) + double("a", r.gauss(0, 50)) + double("b", r.gauss(0, 50)) + int32("seq", r.randrange(200)))


def session(r, number):
    flags = nested("flags", element(8, "x", b"\1"), int32("k", r.randrange(40)))
    return framed(head(r, number) + binary("key", r.randbytes(32)) + flags + element(7, "user", r.randbytes(12)))


def message(r, number):
    return framed(head(r, number) + string("from", text_of(r, 1)) + string("to", text_of(r, 1)) + string("body", text_of(r, r.randrange(1, 60))))


def matrix(r, number):
    row = lambda key: array(key, [lambda column: int32(column, r.randrange(100))] * r.randrange(1, 8))
    return framed(head(r, number) + array("m", [row] * r.randrange(1, 8)) + int32("w", r.randrange(40)))


def oplog(r, number):
    """An entry of an oplog: its first element is no identifier, and the document that was written is nested in it."""
    entry = element(17, "ts", r.randbytes(8)) + element(18, "t", struct.pack("<q", 7)) + int32("v", 2) + string("op", "i") + string("ns", "shop.orders")
    return framed(entry + element(3, "o", user(r, number)) + date("wall", r))


def documents(r, count):
    return [r.choice((order, log, user, feature, series, chunk, deep))(r, i) for i in range(count)]


def others(r, count):
    """Documents of other forms, many of which end in a number."""
    return [r.choice((post, invoice, sensor, session, message, matrix))(r, i) for i in range(count)]


def pieces(data):
    at = 0
    while at < len(data):
        size = struct.unpack_from("<i", data, at)[0]
        yield data[at:at + size]
        at += size


class Dump:
    """Documents one after the other, and which of them still lie whole."""

    def __init__(self, documents):
        self.documents, self.data, self.starts = documents, bytearray(b"".join(documents)), [0]
        for d in documents[:-1]:
            self.starts.append(self.starts[-1] + len(d))
        self.hurt = set()

    def at(self, offset):
        return bisect.bisect_right(self.starts, offset) - 1

    def put(self, offset, data):
        """Writes over bytes of the documents as they were made."""
        data = data[:len(self.data) - offset]
        if bytes(self.data[offset:offset + len(data)]) != data:
            self.hurt |= set(range(self.at(offset), self.at(offset + len(data) - 1) + 1))
            self.data[offset:offset + len(data)] = data
        return self

    def length(self, number, size):
        return self.put(self.starts[number], struct.pack("<i", size))

    def whole(self):
        return [d for i, d in enumerate(self.documents) if i not in self.hurt]


class Made:
    """Bytes that were put together, and the documents that lie whole in them."""

    def __init__(self, data, whole):
        self.data, self.kept = data, whole

    def whole(self):
        return self.kept


def between(documents, put):
    """The documents with these bytes before each, which depend on its number and on how many bytes there are so far."""
    out = bytearray()
    for i, d in enumerate(documents):
        out += put(i, len(out)) + d
    return Made(out, documents)


def woven(documents, size):
    """Two dumps of which pages lie in turn."""
    halves = [Dump(documents[::2]), Dump(documents[1::2])]
    data = b"".join(bytes(half.data[at:at + size]) for at in range(0, max(len(half.data) for half in halves), size) for half in halves)
    return Made(data, [d for half in halves for at, d in zip(half.starts, half.documents) if at // size == (at + len(d) - 1) // size])


def cut(dump, r, count, size, put):
    """The same without this many pieces of `size` bytes, in whose place others are put."""
    for offset in sorted((r.randrange(len(dump.data) - size) for _ in range(count)), reverse=True):
        first, last = dump.at(offset), dump.at(offset + size - 1) if size else dump.at(offset)
        if size or dump.starts[first] != offset:
            dump.hurt |= set(range(first, last + 1))
        dump.data[offset:offset + size] = put()
    return dump
