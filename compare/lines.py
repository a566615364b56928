#!/usr/bin/env python3
"""Makes lines for the program `replay`: chosen ones first, then random ones from a seed.

    python3 compare/lines.py [COUNT [SEED]]      # COUNT random rounds, 60 if none is given
"""
import random
import sys

import model

LEAVES = ["1", "2", "4", "8", "b", "c", "t", "i2.", "i5."]
HOLDERS = ["p", "r2.", "a3.", "s"]
KINDS = LEAVES + [h + k for h in HOLDERS for k in LEAVES] + [h + g + k for h in HOLDERS for g in HOLDERS for k in ("2", "t")]
KINDS += ["ppp1", "sss2", "spsb", "r2.sr2.c", "a3.pst", "psa3.i5.", "sa3.r2.8", "pr2.st", "ssr2.1", "a3.a3.a3.1", "r2.r2.r2.b", "spst", "ss8", "pp8"]

CHOSEN = """
new 26
build st l 534C020000005458020000004137545800000000
finish
new 26
build st b 534C020000005458020000004137545800000000
finish
scan st 534C010000005459
new 10
push_bytes FF 1
build p2 l 52504E323412
finish
new 9
push_bytes FF 1
build p2 l 52504E323412
finish
new 8
build i2. l 54490500000061C3A9C3A9
finish
new 12
build i5. l 54490500000061C3A9C3A9
finish
get s2 l 0 01000000040000003412
deep s2 l 0 01000000040000003412
deep s2 l 0 01000000050000003412
deep s2 l 0 010000000500000034120000
get p1 l 4 07000000FCFFFFFF
copy p1 l 4 5 07000000FCFFFFFF
copy st l 0 20 0200000004000000020000000C00000000000000060000004137
copy st l 0 20 0200000008000000020000000C00000000000000060000004137
copy st l 0 20 0200000004000000020000000C000000000000000E0000004137
copy st l 0 19 0200000004000000020000000C00000000000000060000004137
deep i2. l 0 0200000061C30000
copy i2. l 0 16 0300000061C30000
copy i5. l 0 16 0700000061C3A9C3A9000000
new 20
build s8 l 534C00000000
finish
new 20
push_bytes 00 1
build s8 l 534C00000000
finish
new 15
build ss8 l 534C01000000534C00000000
new 16
build ss8 l 534C01000000534C00000000
finish
new 24
build ss8 l 534C01000000534C00000000
finish
new 40
build st l -
build st l 53
build st l 5353
build st l 534C000000
build st l 534C01000000
build st l 534C0100000054
build st l 534C010000005458020000004180
build st l 534C0100000054580200000041
build st l 534C010000005458020000004141FF
build b l 424F02
build c l 434800D80000
build c l 434800001100
build c b 434841000000
build c l 4348FFFF1000
build sc l 534C020000004348410000004348FFDF0000
build s1 l 534CFFFFFFFF4E3100
build r2.1 l 414E4E3101
build r2.1 l 414E4E31014E3202
build a3.2 l 41524E3201004E3202004E320300
build r2.t l 414E545801000000615458020000006263
build p8 b 52504E380102030405060708
finish
align 4
build 1 l 4E3101
finish
write 0 00
new 12
short align 1
short align 3
short reserve 8 l
short build 1 l 4E3101
short write 0 -
short push 1 l 01
short push 2 l 01
short push_bytes 01 3
short reserve_bytes 99 3
align 3
align 5
align 8192
align 4096
align 0
align 1
push_bytes AABB 1
align 4096
align 4
reserve 8 l
push 2 l 01
push 2 l 0102
push 2 l 010203
write 5 01
write 6 -
write 7 -
write 18446744073709551615 01
write 18446744073709551615 -
write 0 11
reserve_bytes 18446744073709551615 1
reserve_bytes 18446744073709551615 4096
reserve_bytes 6 1
reserve_bytes 1 1
reserve_bytes 0 1
reserve_bytes 0 4096
push_bytes - 0
finish
new 0
align 0
push_bytes - 1
write 0 -
reserve_bytes 0 0
build 1 l 4E3101
finish
shallow b l 0 02
deep b l 0 02
deep sb l 0 010000000400000002
shallow sb l 0 010000000400000002
shallow r2.b l 0 0102
deep c l 0 00D80000
deep c b 0 00000041
deep 8 l 0 00000000000000
deep 8 l 1 000000000000000000
deep 8 l 4 0000000000000000000000000000
deep 8 l 18446744073709551615 00
shallow 4 l 18446744073709551612 00000000
get p8 l 0 080000000000000001020304050607
get p8 l 0 08000000000000000102030405060708
get p8 l 0 04000000000000000102030405060708
get p8 l 0 FFFFFFFF000000000102030405060708
get p1 l 0 00000000
get pp8 l 0 00000000
deep pp8 l 0 00000000
deep pp8 l 4 00000000FCFFFFFF
deep p1 l 0 FFFFFFFF
get p1 l 4 000000FFFBFFFFFF
get t l 0 0000000063636363
get t l 0 00000000FFFFFF7F
get s8 l 0 00000000FFFFFF7F
get s8 l 4 000000000000000001000080
get t l 0 02000000040000004137
get t l 0 0300000004000000E289A2
get t l 0 0200000004000000E289A2
get t l 0 03000000040000004137
get t l 0 04000000FCFFFFFF
get t l 4 4142000004000000F8FFFFFF
get i5. l 0 0200000041420000
get i5. l 0 020000004142000000000000
get i5. l 0 FFFFFFFF4142434445000000
get i5. l 0 FFFFFFFF41424344C3A90000
get a3.2 l 0 0400000001000200
get a3.2 l 0 04000000010002000300
get a3.2 l 0 0500000001000200030000
get s2 l 0 FFFFFFFF04000000
get 1 l 0 00
get r2.1 l 0 0000
copy st l 0 99 020000000400000002000000080000000200000000000000FFFF4137
copy a3.p2 l 0 99 040000000C0000000800000004000000070A
copy spst l 0 60 00000000FFFFFFFF
new 40
reserve r65535.r65535.8 l
push r65535.r65535.8 l 00
build r65535.r65535.8 l 414E414E4E380102030405060708
build sr65535.r65535.8 l 534C00000000
build sr65535.r65535.8 l 534C01000000414E
finish
shallow r65535.r65535.8 l 0 0000000000000000
deep r65535.r65535.8 l 8 0000000000000000
deep sr65535.r65535.8 l 0 0000000004000000
deep sr65535.r65535.8 l 0 0100000004000000
deep sr65535.r65535.8 l 0 FFFFFFFF04000000
get sr65535.r65535.8 l 0 FFFFFFFFFCFFFFFF
new 40
reserve r65535.r65535.r65535.r65535.8 l
push r65535.r65535.r65535.r65535.8 l 0102
build r65535.r65535.r65535.r65535.8 l 414E414E414E414E4E380102030405060708
build pr65535.r65535.r65535.r65535.8 l 5250414E414E414E414E4E380102030405060708
build sr65535.r65535.r65535.r65535.8 l 534C00000000
finish
shallow r65535.r65535.r65535.r65535.8 l 0 0000000000000000
shallow pr65535.r65535.r65535.r65535.8 l 0 0000000000000000
deep pr65535.r65535.r65535.r65535.8 b 0 FFFFFFFC00000000
get pr65535.r65535.r65535.r65535.8 l 0 0400000000000000
deep sr65535.r65535.r65535.r65535.8 l 0 0100000004000000
deep sr65535.r65535.r65535.r65535.8 l 0 00000000FFFFFFFF
deep r0.1 l 0 00
scan a65536.1 41524E3101
deep i0. l 0 00000000
new 8
build i4. l 54490500000061C3A9C3A9
finish
deep i4. l 0 0300000061C3A900
copy i4. l 0 12 0300000061C3A900
new 28
build st l 534C0200000054580200000041375458020000004238
finish
copy st l 0 22 0200000004000000020000000C000000020000000600000041374238
copy st l 0 22 0200000004000000020000000C000000020000000E00000041374238
copy st l 0 22 0200000004000000020000000E000000020000000400000042384137
new 12
build s2 l 534C020000004E3234124E327856
finish
copy s2 l 0 14 020000000400000034120000
shallow s8 l 2 00000000000000000000
shallow p8 l 0 0400000000000000000000000000
get s8 l 2 00000000000000000000
get p1 l 2 000000000000
deep sp2 l 0 010000000400000005000000000000
shallow r2.pb l 0 08000000FF00000002
deep r2.pb l 0 08000000FF00000002
copy p2 l 0 8 0500000000003412
copy p2 l 1 8 0500000000003412
copy sb l 0 9 010000000400000002
copy c l 0 6 00D80000
""".strip().split("\n")


# A kind and a sound archive of it, in the little order.
WHOLE = [
    ("st", "0200000004000000020000000C00000000000000060000004137"),
    ("p8", "08000000000000000102030405060708"),
    ("a3.2", "04000000010002000300"),
    ("s2", "020000000400000034127856"),
    ("t", "0300000004000000413742"),
    ("i5.", "030000004137420000000000"),
]


def one_byte_short(lines):
    """Each length of a sound archive, up to the whole of it."""
    for kind, whole in WHOLE:
        for n in range(0, len(whole) + 2, 2):
            lines.append(f"deep {kind} l 0 {whole[:n] or '-'}")
            lines.append(f"shallow {kind} l 0 {whole[:n] or '-'}")
            lines.append(f"get {kind} l 0 {whole[:n] or '-'}")
    sheet = "534C020000005458020000004137545800000000"
    for n in range(0, len(sheet) + 2, 2):
        lines.append(f"scan st {sheet[:n] or '-'}")


TEXTS = ["", "A7", "é", "plate", "日本", "a\u0000", "\U0001F6A2", "aé", "longer than five"]


def value(r, line):
    c, rest = line[0], line[1:]
    if c in "1248":
        return b"N" + c.encode() + r.randbytes(int(c)), rest
    if c == "b":
        return b"BO" + bytes([r.randrange(2)]), rest
    if c == "c":
        return b"CH" + r.choice([0x41, 0xE9, 0xD7FF, 0xE000, 0x10FFFF, 0]).to_bytes(4, "little"), rest
    if c in "ti":
        bs = r.choice(TEXTS).encode()
        return model.text_sheet(b"TX" if c == "t" else b"TI", bs), rest.split(".", 1)[1] if c == "i" else rest
    if c in "ra":
        n, inner = rest.split(".", 1)
        n, m = int(n), (b"AN" if c == "r" else b"AR")
    elif c == "p":
        n, inner, m = 1, rest, b"RP"
    else:
        n, inner = r.choice([0, 0, 1, 2, 3]), rest
        m = b"SL" + n.to_bytes(4, "little")
    items = [value(r, inner) for _ in range(max(n, 1))]
    return m + b"".join(v for v, _ in items[:n]), items[0][1]


def damaged(r, bs):
    bs = bytearray(bs)
    for _ in range(r.choice([1, 1, 2])):
        if bs:
            i = r.randrange(len(bs))
            bs[i] = r.choice([bs[i] ^ (1 << r.randrange(8)), 0, 0xFF, r.randrange(256)])
    return bytes(bs)


def life(r, lines):
    room = r.choice([0, 5, 20, 64, 200, 600])
    lines.append(f"new {room}")
    b = model.Builder(room)
    desk = model.Desk()
    desk.builder = b
    records = []
    for _ in range(r.randrange(1, 7)):
        kind, order = r.choice(KINDS), r.choice("lb")
        k = model.kind(kind, {"l": "little", "b": "big"}[order])
        sheet, _ = value(r, kind)
        if r.random() < 0.15:
            sheet = damaged(r, sheet)
        if r.random() < 0.05:
            sheet += b"\0"
        line = r.choice([
            f"align {r.choice([0, 1, 2, 3, 4, 8, 16, 64, 4096, 8192])}",
            f"reserve {kind} {order}",
            f"reserve_bytes {r.randrange(20)} {r.choice([0, 1, 2, 4, 8, 6])}",
            f"push_bytes {model.hexed(r.randbytes(r.randrange(6)))} {r.choice([0, 1, 2, 4, 8, 6])}",
            f"push {kind} {order} {model.hexed(r.randbytes(min(k.size, 40) if r.random() < 0.8 else r.randrange(9)))}",
            f"write {r.randrange(room + 2)} {model.hexed(r.randbytes(r.randrange(4)))}",
            f"build {kind} {order} {model.hexed(sheet)}",
            f"build {kind} {order} {model.hexed(sheet)}",
            f"build {kind} {order} {model.hexed(sheet)}",
            f"build {kind} {order} {model.hexed(sheet)}",
        ])
        if r.random() < 0.1:
            line = "short " + line
        lines.append(line)
        try:
            said = desk.answer(line.split())
            if line.startswith("build"):
                records.append((kind, order, said[0]))
        except model.Refused:
            pass
    lines.append("finish")
    archive = bytes(b.buffer[:b.used])
    for kind, order, place in records:
        looks(r, lines, kind, order, place, archive)
        looks(r, lines, kind, order, place, damaged(r, archive))
    lines.append(f"scan {r.choice(KINDS)} {model.hexed(damaged(r, value(r, r.choice(KINDS))[0]))}")


def looks(r, lines, kind, order, place, archive):
    a = model.hexed(archive)
    lines.append(f"deep {kind} {order} {place} {a}")
    lines.append(f"shallow {kind} {order} {place} {a}")
    lines.append(f"get {kind} {order} {place} {a}")
    lines.append(f"copy {kind} {order} {place} {r.choice([0, 10, 40, 200, 400])} {a}")


def main():
    count = int(sys.argv[1]) if len(sys.argv) > 1 else 60
    r = random.Random(int(sys.argv[2]) if len(sys.argv) > 2 else 1)
    lines = list(CHOSEN)
    one_byte_short(lines)
    for _ in range(count):
        life(r, lines)
    print("\n".join(lines))


main()
