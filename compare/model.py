#!/usr/bin/env python3
"""A second reading of the format, in Python, to compare the program `replay` with: it answers the same lines, but for `tell` and `worked`.

    python3 compare/model.py < lines        # one answer a line, as replay prints them

It was written from docs/FORMAT.md and docs/REFUSALS.md and shares nothing with the Rattle sources. Text is what
CPython's strict UTF-8 decoder accepts.
"""
import sys

LIMIT = 2147483647
STOP = LIMIT + 1
MAXU = 2**64 - 1


class Refused(Exception):
    def __init__(self, number, place=0, depth=0):
        self.told = (number, place, depth)


def stop(n):
    return min(n, STOP)


def up(q, a):
    return -(-q // a) * a


def is_text(bs):
    try:
        bytes(bs).decode("utf-8")
        return True
    except UnicodeDecodeError:
        return False


def scalar_value(n):
    return n < 0xD800 or 0xE000 <= n < 0x110000


def deeper(f):
    try:
        return f()
    except Refused as r:
        n, p, d = r.told
        raise Refused(n, p, min(d + 1, STOP))


def mark(sheet, at, m, own):
    if at + 2 > len(sheet):
        raise Refused(12, at)
    if sheet[at:at + 2] != m:
        raise Refused(11, at)
    if at + 2 + own > len(sheet):
        raise Refused(12, at)


def sits(named, place, size, align, length):
    if place + size > length:
        raise Refused(21, named)
    if place % align:
        raise Refused(22, named)


class Kind:
    """scan(sheet, at) -> end; lay(sheet, at, head, tail) -> (head bytes, tail bytes, end, widest, next);
    shallow(archive, at); read(archive, at) -> sheet."""


class Scalar(Kind):
    def __init__(self, m, w, ok, order):
        self.m, self.size, self.align, self.ok, self.order = m, w, w, ok, order

    def scan(self, s, at):
        mark(s, at, self.m, self.size)
        if not self.ok(int.from_bytes(s[at + 2:at + 2 + self.size], "little")):
            raise Refused(14, at)
        return at + 2 + self.size

    def lay(self, s, at, h, t):
        n = int.from_bytes(s[at + 2:at + 2 + self.size], "little")
        return n.to_bytes(self.size, self.order), b"", t, self.align, at + 2 + self.size

    def value(self, a, at):
        n = int.from_bytes(a[at:at + self.size], self.order)
        if not self.ok(n):
            raise Refused(24, at)
        return n

    def shallow(self, a, at):
        self.value(a, at)

    def read(self, a, at):
        return self.m + self.value(a, at).to_bytes(self.size, "little")


def sheet_text(s, at, m):
    mark(s, at, m, 4)
    n = int.from_bytes(s[at + 2:at + 6], "little")
    if at + 6 + n > len(s):
        raise Refused(12, at)
    if not is_text(s[at + 6:at + 6 + n]):
        raise Refused(13, at)
    return s[at + 6:at + 6 + n]


def text_sheet(m, bs):
    return m + len(bs).to_bytes(4, "little") + bs


def target(a, at, order, size, align):
    d = int.from_bytes(a[at:at + 4], order, signed=True)
    if at + d < 0:
        raise Refused(21, at)
    sits(at, at + d, size, align, len(a))
    return at + d


def distance(frm, to, order):
    return ((to - frm) % 2**32).to_bytes(4, order)


class Text(Kind):
    size, align = 8, 4

    def __init__(self, order):
        self.order = order

    def scan(self, s, at):
        return at + 6 + len(sheet_text(s, at, b"TX"))

    def lay(self, s, at, h, t):
        bs = sheet_text(s, at, b"TX")
        return len(bs).to_bytes(4, self.order) + distance(h + 4, t, self.order), bs, stop(t + len(bs)), 4, at + 6 + len(bs)

    def get(self, a, at):
        n = int.from_bytes(a[at:at + 4], self.order)
        if n == 0:
            return at + 4, b""
        q = target(a, at + 4, self.order, n, 1)
        if not is_text(a[q:q + n]):
            raise Refused(23, at)
        return q, a[q:q + n]

    def shallow(self, a, at):
        self.get(a, at)

    def read(self, a, at):
        return text_sheet(b"TX", self.get(a, at)[1])


class Inline(Kind):
    align = 4

    def __init__(self, c, order):
        self.c, self.order, self.size = c, order, up(4 + c, 4)

    def scan(self, s, at):
        return at + 6 + len(sheet_text(s, at, b"TI"))

    def cut(self, bs):
        n = min(self.c, len(bs))
        while n < len(bs) and 0x80 <= bs[n] <= 0xBF:
            n -= 1
        return bs[:n]

    def lay(self, s, at, h, t):
        bs = sheet_text(s, at, b"TI")
        kept = self.cut(bs)
        head = len(kept).to_bytes(4, self.order) + kept
        return head + bytes(self.size - len(head)), b"", t, 4, at + 6 + len(bs)

    def get(self, a, at):
        n = min(self.c, int.from_bytes(a[at:at + 4], self.order))
        if not is_text(a[at + 4:at + 4 + n]):
            raise Refused(23, at)
        return at + 4, a[at + 4:at + 4 + n]

    def shallow(self, a, at):
        self.get(a, at)

    def read(self, a, at):
        return text_sheet(b"TI", self.get(a, at)[1])


class Row(Kind):
    """n items side by side, without a mark."""

    def __init__(self, k, n):
        self.k, self.n, self.size, self.align = k, n, stop(n * k.size), k.align

    def scan(self, s, at):
        for _ in range(self.n):
            at = self.k.scan(s, at)
        return at

    def lay(self, s, at, h, t):
        head, tail, widest = b"", b"", self.k.align
        for _ in range(self.n):
            x = self.k.lay(s, at, h, t)
            head, tail, t, widest, at, h = head + x[0], tail + x[1], x[2], max(widest, x[3]), x[4], h + self.k.size
        return head, tail, t, widest, at

    def shallow(self, a, at):
        for i in range(self.n):
            self.k.shallow(a, at + i * self.k.size)

    def read(self, a, at):
        return b"".join(self.k.read(a, at + i * self.k.size) for i in range(self.n))


class Array(Kind):
    def __init__(self, k, n):
        self.row = Row(k, n)
        self.size, self.align = self.row.size, self.row.align

    def scan(self, s, at):
        mark(s, at, b"AN", 0)
        return deeper(lambda: self.row.scan(s, at + 2))

    def lay(self, s, at, h, t):
        return self.row.lay(s, at + 2, h, t)

    def shallow(self, a, at):
        deeper(lambda: self.row.shallow(a, at))

    def read(self, a, at):
        return b"AN" + deeper(lambda: self.row.read(a, at))


class Link(Kind):
    """One distance to something that sits."""
    size, align = 4, 4

    def __init__(self, m, k, order):
        self.m, self.k, self.order = m, k, order

    def scan(self, s, at):
        mark(s, at, self.m, 0)
        return deeper(lambda: self.k.scan(s, at + 2))

    def lay(self, s, at, h, t):
        q = up(t, self.k.align)
        x = self.k.lay(s, at + 2, q, stop(q + self.k.size))
        return distance(h, q, self.order), bytes(q - t) + x[0] + x[1], x[2], max(4, x[3]), x[4]

    def get(self, a, at):
        return (target(a, at, self.order, self.k.size, self.k.align),)

    def shallow(self, a, at):
        self.get(a, at)

    def read(self, a, at):
        q = self.get(a, at)[0]
        return self.m + deeper(lambda: self.k.read(a, q))


class Slice(Kind):
    size, align = 8, 4

    def __init__(self, k, order):
        self.k, self.order = k, order

    def scan(self, s, at):
        mark(s, at, b"SL", 4)
        n = int.from_bytes(s[at + 2:at + 6], "little")
        return deeper(lambda: Row(self.k, n).scan(s, at + 6))

    def lay(self, s, at, h, t):
        n = int.from_bytes(s[at + 2:at + 6], "little")
        q, row = up(t, self.k.align), Row(self.k, n)
        x = row.lay(s, at + 6, q, stop(q + row.size))
        head = n.to_bytes(4, self.order) + distance(h + 4, q, self.order)
        return head, bytes(q - t) + x[0] + x[1], x[2], max(4, x[3]), x[4]

    def get(self, a, at):
        n = int.from_bytes(a[at:at + 4], self.order)
        if n == 0:
            return at + 4, 0
        return target(a, at + 4, self.order, stop(n * self.k.size), self.k.align), n

    def shallow(self, a, at):
        self.get(a, at)

    def read(self, a, at):
        q, n = self.get(a, at)
        return b"SL" + n.to_bytes(4, "little") + deeper(lambda: Row(self.k, n).read(a, q))


def kind(line, order):
    k, rest = parse(line, order)
    if rest:
        raise ValueError
    return k


def parse(line, order):
    c, rest = line[:1], line[1:]
    if c and c in "1248":
        return Scalar(b"N" + c.encode(), int(c), lambda n: True, order), rest
    if c == "b":
        return Scalar(b"BO", 1, lambda n: n < 2, order), rest
    if c == "c":
        return Scalar(b"CH", 4, scalar_value, order), rest
    if c == "t":
        return Text(order), rest
    if c and c in "ira":
        n, rest = rest.split(".", 1)
        n = int(n)
        if not 1 <= n <= 65535:
            raise Refused(7)
        if c == "i":
            return Inline(n, order), rest
        k, rest = parse(rest, order)
        return (Array(k, n) if c == "r" else Link(b"AR", Row(k, n), order)), rest
    if c and c in "ps":
        k, rest = parse(rest, order)
        return (Link(b"RP", k, order) if c == "p" else Slice(k, order)), rest
    raise ValueError


def rooted(k, a, place):
    if len(a) > LIMIT:
        raise Refused(1)
    sits(place, place, k.size, k.align, len(a))


POWERS = [2**k for k in range(13)]


class Builder:
    def __init__(self, room):
        if room > LIMIT:
            raise Refused(1)
        self.used, self.align, self.room, self.buffer = 0, 1, room, bytearray(b"\xee" * room)

    def append(self, alignment, bs):
        p = up(self.used, alignment)
        if p + len(bs) > self.room:
            raise Refused(4)
        self.buffer[self.used:p] = bytes(p - self.used)
        self.buffer[p:p + len(bs)] = bs
        self.used, self.align = p + len(bs), max(self.align, alignment)
        return p

    def allowed(self, a):
        if a != 0 and a not in POWERS:
            raise Refused(3)
        return max(1, a)

    def zeros(self, alignment, n):
        if up(self.used, alignment) + n > self.room:
            raise Refused(4)
        return self.append(alignment, bytes(n))

    def build(self, k, sheet):
        if len(sheet) > LIMIT:
            raise Refused(1)
        end = k.scan(sheet, 0)
        if end < len(sheet):
            raise Refused(15, end)
        h = up(self.used, k.align)
        head, tail, end, widest, _ = k.lay(sheet, 0, h, stop(h + k.size))
        if end > self.room:
            raise Refused(4)
        self.append(k.align, head + tail)
        assert self.used == end
        self.align = max(self.align, widest)
        return h


def hexed(bs):
    return bytes(bs).hex().upper() or "-"


def unhex(w):
    return b"" if w == "-" else bytes.fromhex(w)


FRONTS = {"p": (b"RP", 1), "r": (b"AN", 2), "a": (b"AR", 3)}


def word(letter, sheet):
    """The word that a sheet begins with: where it begins and ends, and what it is."""
    if letter in "ti":
        bs = sheet_text(sheet, 0, b"TX" if letter == "t" else b"TI")
        return [0, 6 + len(bs), "text", bs]
    if letter in FRONTS:
        m, count = FRONTS[letter]
        mark(sheet, 0, m, 0)
        return [0, 2, "values", count]
    if letter == "s":
        mark(sheet, 0, b"SL", 4)
        return [0, 6, "values", int.from_bytes(sheet[2:6], "little")]
    end = kind(letter, "little").scan(sheet, 0)
    return [0, end, "number", int.from_bytes(sheet[2:end], "little")]


class Desk:
    builder = None

    def answer(self, words):
        short = words[0] == "short"
        if short:
            words = words[1:]
        name, args = words[0], words[1:]
        orders = {"l": "little", "b": "big"}
        if name == "text":
            return "ok text" if is_text(unhex(args[0])) else "ok no text"
        if name == "texts":
            length = int(args[0])
            return [sum(is_text(n.to_bytes(length, "big")) for n in range(256**length))]
        if name == "word":
            return word(args[0], unhex(args[1]))
        if name == "scan":
            return [kind(args[0], "little").scan(unhex(args[1]), 0)]
        if name in ("shallow", "deep", "get", "copy"):
            k, place, a = kind(args[0], orders[args[1]]), int(args[2]), unhex(args[-1])
            if name == "get" and not hasattr(k, "get"):
                return "not a call: this kind has no get"
            rooted(k, a, place)
            if name == "shallow":
                k.shallow(a, place)
                return [place]
            if name == "get":
                return list(k.get(a, place))
            sheet = k.read(a, place)
            if name == "deep":
                return [place]
            room = int(args[3])
            if len(sheet) > room:
                raise Refused(4)
            return [len(sheet), sheet + b"\xee" * (room - len(sheet))]
        if name == "new":
            self.builder = Builder(int(args[0]))
            return []
        b = self.builder
        if b is None:
            return "not a call: no builder is open"
        if name == "finish":
            self.builder = None
            return [b.used, b.align, bytes(b.buffer[:b.used])]
        if short and b.room:
            raise Refused(2)
        if name == "align":
            b.append(b.allowed(int(args[0])), b"")
            return [b.used]
        if name == "reserve":
            k = kind(args[0], orders[args[1]])
            return [b.zeros(k.align, k.size)]
        if name == "reserve_bytes":
            return [b.zeros(b.allowed(int(args[1])), int(args[0]))]
        if name == "write":
            place, bs = int(args[0]), unhex(args[1])
            if place + len(bs) > b.used:
                raise Refused(5)
            b.buffer[place:place + len(bs)] = bs
            return [place]
        if name == "push":
            k, bs = kind(args[0], orders[args[1]]), unhex(args[2])
            if len(bs) != k.size:
                raise Refused(6)
            return [b.append(k.align, bs)]
        if name == "push_bytes":
            return [b.append(b.allowed(int(args[1])), unhex(args[0]))]
        if name == "build":
            return [b.build(kind(args[0], orders[args[1]]), unhex(args[2]))]
        raise ValueError


def main():
    desk = Desk()
    for line in sys.stdin:
        words = line.split()
        try:
            said = desk.answer(words)
            if isinstance(said, str):
                print(said)
            else:
                print(" ".join(["ok"] + [hexed(x) if isinstance(x, (bytes, bytearray)) else str(x) for x in said]))
        except Refused as r:
            print("refused", *r.told)


if __name__ == "__main__":
    sys.setrecursionlimit(10000)
    main()
