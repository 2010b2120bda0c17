#!/usr/bin/env python3
"""Writes the stored books of crates/book_vectors (stdin) and what the program must say of them (stdout).

The reader and the repacker below are written from documents 01 and 02 alone, over Python's bytes: nothing is shared with the crates
`records` and `book`. Run from the repository's root: python3 tools/book_vectors.py"""
import random
import struct

CASES = []

# what differs between the versions: a record's first bytes, up to the kind and the padding, and how many records a book has at most
HEAD = {1: "<BB", 2: "<HBB"}
WIDTH = {1: 12, 2: 14}
MOST = {1: 256, 2: 4096}


def record(layout, link, kind, rest, pad=0):
    """A record of a version: its link, its kind (in the header the version), in version 2 a byte of padding, and the last ten bytes."""
    return struct.pack(HEAD[layout], *((link, kind) if layout == 1 else (link, kind, pad))) + rest


def header(first, count, p=1, q=1, version=None, floors=(0, 0), layout=1, pad=0):
    """A header of a version. Version 1 has zeros where version 2 has the floors; other bytes there are against it."""
    return record(layout, first, layout if version is None else version, struct.pack("<hhHhh", p, q, count, *floors), pad)


def rule(nxt, a=1, b=1, c=1, kind=1, label=0, layout=1, pad=0):
    return record(layout, nxt, kind, struct.pack("<hhHi", a, b, label, c), pad)


def fields(layout, book, index):
    """A record's link, kind and padding, and its last ten bytes."""
    width = WIDTH[layout]
    found = book[width * index:width * (index + 1)]
    link, kind, pad = (*struct.unpack(HEAD[layout], found[:-10]), 0)[:3]
    return link, kind, pad, found[-10:]


def read(book, layout=1):
    n, width = len(book), WIDTH[layout]
    if n < width or n > width * MOST[layout] or n % width:
        return ("refused", 1, 0)
    first, version, pad, rest = fields(layout, book, 0)
    p, q, count, lx, ly = struct.unpack("<hhHhh", rest)
    if version != layout or pad:
        return ("refused", 2, 0)
    if count != n // width - 1:
        return ("refused", 3, 0)
    if p == -32768 or q == -32768:
        return ("refused", 4, 0)
    if layout == 1 and (lx, ly) != (0, 0):
        return ("refused", 5, 0)
    at, link, seen, labels, chain = 0, first, set(), set(), []
    while link:
        if link > count:
            return ("refused", 6, at)
        if link in seen:
            return ("refused", 7, at)
        seen.add(link)
        nxt, kind, pad, rest = fields(layout, book, link)
        a, b, label, c = struct.unpack("<hhHi", rest)
        if kind not in (1, 2) or pad:
            return ("refused", 8, link)
        if a == -32768 or b == -32768:
            return ("refused", 9, link)
        if abs(c) > 1000000000:
            return ("refused", 10, link)
        if label in labels:
            return ("refused", 12, link)
        labels.add(label)
        chain.append((link, kind, a, b, c, label))
        at, link = link, nxt
    return ("accepted", (p, q), chain, (lx, ly))


def repack(book, room, layout=1):
    """The repacked form, which is of version 2 whatever the book's version, with the floors carried over, as zeros from version 1."""
    got = read(book, layout)
    if got[0] == "refused":
        return (got[1], got[2], b"")
    _, (p, q), chain, floors = got
    n = len(chain)
    if room < 14 * (n + 1):
        return (11, 0, b"")
    out = header(1 if n else 0, n, p, q, floors=floors, layout=2)
    for k, (_, kind, a, b, c, label) in enumerate(chain, 1):
        out += rule(k + 1 if k < n else 0, a, b, c, kind, label, layout=2)
    return (0, 0, out)


def case(name, book, rooms=(4096,), layout=1):
    for room in rooms:
        CASES.append((name if len(rooms) == 1 else f"{name}, room {room}", layout, book, room))


def header_edges():
    case("no bytes", b"")
    case("11 bytes", header(0, 0)[:11])
    case("12 bytes", header(0, 0))
    case("13 bytes", header(0, 0) + b"\0")
    case("3072 bytes", header(0, 255) + bytes(12 * 255))
    case("3084 bytes", header(0, 256) + bytes(12 * 256))
    case("version 0", header(0, 0, version=0))
    case("version 2", header(0, 0, version=2))
    case("count one low", header(1, 0) + rule(0))
    case("count one high", header(1, 2) + rule(0))
    case("count in its high byte", header(1, 257) + rule(0))
    case("p lowest", header(0, 0, p=-32768))
    case("q lowest", header(0, 0, q=-32768))
    case("p and q at the ends", header(0, 0, p=-32767, q=32767))
    for byte in range(8, 12):
        book = bytearray(header(0, 0))
        book[byte] = 128
        case(f"header byte {byte} set", bytes(book))


def link_edges():
    case("first link above the count", header(2, 1) + rule(0))
    case("first link at the count", header(2, 2) + rule(0) + rule(0))
    case("later link above the count", header(1, 2) + rule(2) + rule(3, label=1))
    case("later link at the count", header(1, 2) + rule(2) + rule(0, label=1))
    case("link to itself", header(1, 1) + rule(1))
    case("link to a visited record", header(1, 3) + rule(2) + rule(3, label=1) + rule(2, label=2))
    case("link to the first of a cycle", header(3, 3) + rule(3) + rule(1, label=1) + rule(2, label=2))


def kind_edges():
    for kind in (0, 1, 2, 3, 255):
        case(f"kind {kind}", header(1, 1) + rule(0, kind=kind))


def slope_edges():
    for a in (-32768, -32767, 32767):
        case(f"a of {a}", header(1, 1) + rule(0, a=a))
        case(f"b of {a}", header(1, 1) + rule(0, b=a))


def bound_edges():
    for c in (1000000000, 1000000001, -1000000000, -1000000001, 2147483647, -2147483648):
        case(f"c of {c}", header(1, 1) + rule(0, c=c))


def lawful():
    case("label 65535", header(1, 1) + rule(0, label=65535))
    case("kind 2 turned round", header(1, 1) + rule(0, a=-3, b=4, c=-5, kind=2))
    case("a rule without slope", header(1, 1) + rule(0, a=0, b=0, c=-1))
    case("the whole case of document 01", bytes.fromhex("020101000100020000000000" "0001030001000B0009000000" "010101000200" "0A0008000000"))


def pairs():
    """Two causes at once, in each neighbouring order: the first is said."""
    case("1 before 2", header(0, 0, version=2) + b"\0")
    case("2 before 3", header(0, 1, version=2))
    case("3 before 4", header(0, 1, p=-32768))
    case("4 before 5", header(0, 0, q=-32768, floors=(1, 0)))
    case("5 before 6", header(1, 0, floors=(1, 0)))
    case("6 before 7", header(1, 2) + rule(2) + rule(200, label=1))
    case("7 at a record before 8 of none", header(1, 1) + rule(1))
    case("6 before 8 of a spare record", header(2, 1) + rule(0, kind=9))
    case("8 before the 6 of its own link", header(1, 1) + rule(9, kind=9))
    case("8 before the 7 of its own link", header(1, 1) + rule(1, kind=9))
    case("8 before 9", header(1, 1) + rule(0, kind=9, a=-32768))
    case("9 before 10", header(1, 1) + rule(0, b=-32768, c=1000000001))
    case("10 before the 6 of its own link", header(1, 1) + rule(9, c=1000000001))
    case("8 of an earlier record before 9 of a later", header(1, 2) + rule(2, kind=0) + rule(0, a=-32768))
    case("9 of an earlier record before 8 of a later", header(2, 2) + rule(0, kind=0) + rule(1, a=-32768))
    case("10 before 11", header(1, 1) + rule(0, c=1000000001), (0,))
    case("1 before 11", b"", (0,))


def labels():
    """A label typed twice."""
    two = header(1, 2) + rule(2, label=7)
    bad = dict(label=7)
    case("a label at neighbours, higher index", two + rule(0, **bad))
    case("a label at neighbours, lower index", header(2, 2) + rule(0, **bad) + rule(1, **bad))
    case("label 0 twice", header(1, 2) + rule(2) + rule(0))
    case("label 65535 twice", header(1, 2) + rule(2, label=65535) + rule(0, label=65535))
    case("a label with others between", header(1, 4) + rule(2, **bad) + rule(3, label=8) + rule(4, label=9) + rule(0, **bad))
    case("a label with others between, lower index", header(4, 4) + rule(0, **bad) + rule(1, label=8) + rule(2, label=9) + rule(3, **bad))
    case("a label three times", header(3, 3) + rule(0, **bad) + rule(1, **bad) + rule(2, **bad))
    case("two labels twice", header(1, 4) + rule(2, label=8) + rule(3, **bad) + rule(4, **bad) + rule(0, label=8))
    case("labels that differ in one byte", header(1, 3) + rule(2, label=0x0107) + rule(3, label=0x0207) + rule(0, label=0x0108))
    case("one rule with two labels", header(1, 2) + rule(2, label=1) + rule(0, label=2))
    case("a label in spare records only", header(2, 4) + rule(0, **bad) + rule(0, label=8) + rule(0, **bad) + rule(1, **bad))
    case("a label on the chain and in spare records", header(2, 4) + rule(0, **bad) + rule(0, **bad) + rule(0, **bad) + rule(2, **bad))
    case("8 before 12", two + rule(0, kind=0, **bad))
    case("9 before 12", two + rule(0, b=-32768, **bad))
    case("10 before 12", two + rule(0, c=-1000000001, **bad))
    case("12 before the 6 of its own link", two + rule(3, **bad))
    case("12 before the 7 of its own link, to itself", two + rule(2, **bad))
    case("12 before the 7 of its own link, to the first", two + rule(1, **bad))
    case("6 before 12 of none", two + rule(3, label=8))
    case("7 before 12 of the record visited", header(1, 1) + rule(1, **bad))
    case("12 of an earlier record before 8 of a later", header(1, 3) + rule(2, **bad) + rule(3, **bad) + rule(0, kind=0))
    case("10 of an earlier record before 12 of a later", header(1, 3) + rule(2, **bad) + rule(3, c=1000000001, label=8) + rule(0, **bad))
    case("12 before 11", two + rule(0, **bad), (0, 4096))


def spare():
    junk = bytes(range(200, 212))
    case("junk in a spare record", header(2, 2) + junk + rule(0))
    case("zeros in a spare record", header(2, 2) + bytes(12) + rule(0))
    case("spare records alone", header(0, 3) + junk + junk + junk)
    case("junk between and after", header(4, 5) + junk + rule(0, c=2) + junk + rule(2, c=1, label=1) + junk)


def chains():
    rng = random.Random(4)
    case("no rules", header(0, 0), (12, 13, 14, 15))
    case("one rule, scattered", header(7, 9) + b"".join(rule(0, label=7) if k == 7 else bytes(12) for k in range(1, 10)), (24, 27, 28, 29, 100))
    order = list(range(1, 256))
    rng.shuffle(order)
    labels = dict(zip(order, rng.sample(range(65536), 255)))
    nxt = {order[k]: order[k + 1] if k + 1 < 255 else 0 for k in range(255)}
    rules = {k: rule(nxt[k], rng.randint(-32767, 32767), rng.randint(-32767, 32767), rng.randint(-10**9, 10**9), rng.choice((1, 2)), labels[k]) for k in order}
    full = header(order[0], 255, -32767, 32767) + b"".join(rules[k] for k in range(1, 256))
    case("255 rules, scattered", full, (3583, 3584))
    broken = bytearray(full)
    broken[12 * order[-1]] = order[100]
    case("255 rules, the last back to the 101st", bytes(broken))
    broken = bytearray(full)
    broken[12 * order[-1] + 1] = 3
    case("255 rules, the last of no kind", bytes(broken))
    for name, later, earlier in (("first at the last", -1, 0), ("first at the second", 1, 0), ("middle at the last", -1, 127), ("last but one at the last", -1, -2)):
        broken = bytearray(full)
        broken[12 * order[later] + 6:12 * order[later] + 8] = struct.pack("<H", labels[order[earlier]])
        case(f"255 rules, the label of the {name}", bytes(broken))
    case("255 labels, each in its own word", header(1, 255) + b"".join(rule((k + 1) % 256, label=64 * k) for k in range(1, 256)))
    case("255 labels, the highest", header(1, 255) + b"".join(rule((k + 1) % 256, label=65536 - k) for k in range(1, 256)))
    three = header(5, 6, -4, 9) + rule(3, c=3, label=3) + bytes(12) + rule(0, a=-1, b=2, c=-3, kind=2, label=65535) + bytes(12) + rule(1, c=5) + bytes(12)
    case("three rules, scattered", three, (0, 14, 48, 55, 56, 57, 64))
    case("three rules, repacked", repack(three, 4096)[2], (55, 56, 64), layout=2)


def second():
    """Version 2: what differs from version 1, and each cause."""
    def head(*args, **named):
        return header(*args, layout=2, **named)

    def row(*args, **named):
        return rule(*args, layout=2, **named)

    def book(name, data, rooms=(4096,)):
        case(f"2: {name}", data, rooms, layout=2)

    book("no bytes", b"")
    book("13 bytes", head(0, 0)[:13])
    book("14 bytes", head(0, 0), (13, 14, 15))
    book("15 bytes", head(0, 0) + b"\0")
    book("a header of version 1", header(0, 0))
    book("version 1", head(0, 0, version=1))
    book("version 2 in the place of version 1", b"\0\2" + head(0, 0)[2:])
    for pad in (1, 128, 255):
        book(f"header byte 3 of {pad}", head(0, 0, pad=pad))
        book(f"byte 3 of {pad} in a rule", head(1, 1) + row(0, pad=pad))
    book("byte 3 set in a spare record", head(1, 2) + row(0) + row(0, pad=1))
    book("count by 12 bytes", head(0, 7) + bytes(14 * 6))
    book("count", head(0, 6) + bytes(14 * 6))
    book("count one high", head(1, 2) + row(0))
    book("p lowest", head(0, 0, p=-32768))
    book("q lowest", head(0, 0, q=-32768))
    for byte in range(10, 14):
        data = bytearray(head(0, 0))
        data[byte] = 128
        book(f"header byte {byte} set", bytes(data))
    two = row(0, c=-7, label=7) + row(1, a=-2, b=3, kind=2, label=8)
    for lx, ly in ((1, 2), (-1, -2), (-300, 300), (-32768, 32767), (32767, -32768), (-32768, -32768)):
        book(f"floors {lx} and {ly}", head(0, 0, floors=(lx, ly)))
        book(f"floors {lx} and {ly}, scattered", head(2, 2, floors=(lx, ly)) + two, (41, 42, 43))
    book("4 with floors", head(0, 0, p=-32768, floors=(5, 6)))
    book("6 with floors, where version 1 has 5", head(1, 0, floors=(5, 6)))
    # records up to 257, and a chain through those whose links need the high byte
    places = {1: row(255, c=1, label=1), 255: row(256, c=2, label=2), 256: row(257, c=3, label=3), 257: row(0, c=4, label=4, kind=2)}
    long = head(1, 257) + b"".join(places.get(k, bytes(14)) for k in range(1, 258))
    book("links 255, 256 and 257", long, (69, 70))
    book("first link 256", head(256, 257) + long[14:])
    book("first link 256, above the count", head(256, 1) + row(0))
    book("first link 4095, above the count", head(4095, 1) + row(0))
    book("first link 4096, above the count", head(4096, 1) + row(0))
    book("link to itself by its low byte alone", head(1, 1) + row(257))
    book("link to itself", head(1, 1) + row(1))
    for kind in (0, 2, 3):
        book(f"kind {kind}", head(1, 1) + row(0, kind=kind))
    book("a lowest", head(1, 1) + row(0, a=-32768))
    book("c of 1000000001", head(1, 1) + row(0, c=1000000001))
    book("a label twice", head(1, 2) + row(2, label=7) + row(0, label=7))
    book("2 before 3", head(0, 1, pad=1))
    book("8 by byte 3 before 9", head(1, 1) + row(0, pad=1, a=-32768))
    book("12 before 11", head(1, 2) + row(2, label=7) + row(0, label=7), (0,))


def show(name, layout, book, room):
    got = read(book, layout)
    if got[0] == "refused":
        line = f"{name} refused {got[1]} {got[2]}"
    else:
        line = f"{name} accepted {got[1][0]} {got[1][1]} {len(got[2])}"
        for i, kind, a, b, c, label in got[2]:
            s = -1 if kind == 2 else 1
            line += f" | {i} {kind} {a} {b} {c} {label} as {s * a} {s * b} {s * c}"
    number, at, out = repack(book, room, layout)
    return f"{line}\n  packed {number} {at} {len(out)} {out.hex()} changed 0\n"


def stored(name, layout, book, room):
    name = name.encode()
    return struct.pack("<H", len(name)) + name + struct.pack("<HH", layout, len(book)) + book + struct.pack("<H", room)


def main():
    header_edges()
    link_edges()
    kind_edges()
    slope_edges()
    bound_edges()
    lawful()
    pairs()
    labels()
    spare()
    chains()
    second()
    data = b"".join(stored(*c) for c in CASES)
    assert len(data) <= 65536, len(data)
    open("crates/book_vectors/stdin", "wb").write(data)
    open("crates/book_vectors/stdout", "w").write("".join(show(*c) for c in CASES))


main()
