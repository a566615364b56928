#!/usr/bin/env python3
"""Answers the lines of the program `replay` through the static library, and compares with the answers that the gate expects of `replay`.

    python3 c/lines.py LIBRARY LINES ANSWERS     # LIBRARY: a shared object that was made of libexports.a

A life is run anew for each of its calls, and its last answer is told. Lines that the library has no call for are left out.
"""
import ctypes
import mmap
import sys

OLD = b"\xee"
NO_KIND, NO_GET = 100, 102
NOT_OF_C = ("texts", "word", "worked", "tell")
CALLS = {name: n + 1 for n, name in enumerate(["align", "reserve", "reserve_bytes", "write", "push", "push_bytes", "build", "finish"])}


class Answer(ctypes.Structure):
    _fields_ = [(name, ctypes.c_uint64) for name in ("refusal", "place", "depth", "value", "count")]


def sized(data):
    """Bytes as they cross: a pointer and a length."""
    return (data, ctypes.c_size_t(len(data)))


def hexed(data):
    return bytes(data).hex().upper() or "-"


def unhexed(word):
    return b"" if word == "-" else bytes.fromhex(word)


def words_of(answer, good):
    if answer.refusal == NO_KIND:
        return "not a call: no such kind in the catalogue"
    if answer.refusal == NO_GET:
        return "not a call: this kind has no get"
    if answer.refusal:
        return f"refused {answer.refusal} {answer.place} {answer.depth}"
    return "ok " + good


def encoded(line):
    """A call of a life: which, order, kind, number, alignment, bytes."""
    call, *rest = line
    kind, order, number, alignment, data = b"", b"l", 0, 0, b""
    if call == "align":
        alignment = int(rest[0])
    elif call == "reserve_bytes":
        number, alignment = int(rest[0]), int(rest[1])
    elif call == "write":
        number, data = int(rest[0]), unhexed(rest[1])
    elif call == "push_bytes":
        data, alignment = unhexed(rest[0]), int(rest[1])
    elif call != "finish":
        kind, order = rest[0].encode(), rest[1].encode()
        data = unhexed(rest[2]) if len(rest) > 2 else b""
    numbers = number.to_bytes(8, "little") + alignment.to_bytes(8, "little") + len(data).to_bytes(8, "little")
    return bytes([CALLS[call]]) + order + bytes([len(kind)]) + kind + numbers + data


class Desk:
    def __init__(self, library):
        self.library = library
        self.room = None
        self.calls = []

    def life(self, line):
        if line[0] == "short":
            if self.room is None or self.room > 0:
                return None
            line = line[1:]
        if self.room is None:
            return None
        self.calls.append(encoded(line))
        calls = b"".join(self.calls)
        buffer = ctypes.create_string_buffer(OLD * self.room, self.room)
        answers = (Answer * len(self.calls))()
        course = self.library.gachullpi_life(*sized(calls), buffer, ctypes.c_size_t(self.room), answers, ctypes.c_size_t(len(answers)))
        assert (course.refusal, course.value, course.count) == (0, len(self.calls), len(calls)), line
        answer = answers[-1]
        if line[0] != "finish":
            return words_of(answer, str(answer.value))
        self.room = None
        return words_of(answer, f"{answer.value} {answer.count} {hexed(buffer.raw[:answer.value])}")

    def answer(self, line):
        call, *rest = line
        if call in NOT_OF_C:
            return None
        if call == "new":
            self.room, self.calls = int(rest[0]), []
            return "ok"
        if call == "text":
            return "ok text" if self.library.gachullpi_is_text(*sized(unhexed(rest[0]))) else "ok no text"
        if call == "scan":
            answer = self.library.gachullpi_scan(*sized(rest[0].encode()), *sized(unhexed(rest[1])))
            return words_of(answer, str(answer.value))
        if call not in ("shallow", "deep", "get", "copy"):
            return self.life(line)
        archive = unhexed(rest[-1])
        asked = (*sized(rest[0].encode()), ctypes.c_uint8(ord(rest[1])), *sized(archive), ctypes.c_size_t(int(rest[2])))
        if call == "copy":
            room = int(rest[3])
            output = ctypes.create_string_buffer(OLD * room, room)
            answer = self.library.gachullpi_copy_out(*asked, output, ctypes.c_size_t(room))
            if answer.refusal:
                assert output.raw == OLD * room, line
            return words_of(answer, f"{answer.value} {hexed(output.raw)}")
        if call == "get":
            answer = self.library.gachullpi_get(*asked)
            return words_of(answer, found(rest[0], archive, answer))
        name = "gachullpi_is_valid" if call == "shallow" else "gachullpi_is_valid_deep"
        answer = getattr(self.library, name)(*asked)
        return words_of(answer, str(answer.value))


def found(kind, archive, answer):
    """What `replay` tells of a step: a place; for a slice its count too; for a text its bytes too."""
    if kind[0] in "ti":
        return f"{answer.value} {hexed(archive[answer.value : answer.value + answer.count])}"
    return f"{answer.value} {answer.count}" if kind[0] == "s" else str(answer.value)


def course(library, calls, room, answers):
    """A life, as numbers: what it answers, and the answers of its calls."""
    buffer = ctypes.create_string_buffer(OLD * room, room)
    told = (Answer * answers)()
    ends = library.gachullpi_life(*sized(calls), buffer, ctypes.c_size_t(room), told, ctypes.c_size_t(answers))
    return numbers(ends), [numbers(answer) for answer in told]


def numbers(answer):
    return tuple(getattr(answer, name) for name, _ in Answer._fields_)


def edges(library):
    """What no line of `replay` can say."""
    number = encoded(["build", "1", "l", "4E3107"])
    finish = encoded(["finish"])
    unknown = encoded(["reserve", "q", "l"]) + encoded(["reserve", "1", "q"])
    nothing = (0, 0, 0, 0, 0)
    seen = [
        # No call, and a life that is not ended.
        (course(library, b"", 4, 1), ((0, 0, 0, 0, 0), [nothing])),
        (course(library, number, 4, 1), ((0, 0, 0, 1, len(number)), [(0, 0, 0, 0, 0)])),
        # What stands behind the end is not read.
        (course(library, finish + b"\xff", 4, 2), ((0, 0, 0, 1, len(finish)), [(0, 0, 0, 0, 1), nothing])),
        # No room for an answer.
        (course(library, number + number, 4, 1), ((104, len(number), 0, 1, len(number)), [nothing])),
        # An unknown kind and an unknown order are answered, and the next call is made.
        (course(library, unknown + finish, 4, 3)[1], [(100, 0, 0, 0, 0), (101, 0, 0, 0, 0), (0, 0, 0, 0, 1)]),
        # Neither the name of a kind nor its order has to be text.
        (numbers(library.gachullpi_scan(*sized(b"\xff"), *sized(b"N1\7"))), (100, 0, 0, 0, 0)),
        (numbers(library.gachullpi_get(*sized(b"1"), ctypes.c_uint8(0), *sized(b"\7"), ctypes.c_size_t(0))), (101, 0, 0, 0, 0)),
        (numbers(library.gachullpi_get(*sized(b"1"), ctypes.c_uint8(108), *sized(b"\7"), ctypes.c_size_t(0))), (102, 0, 0, 0, 0)),
        # Text, and no text.
        (library.gachullpi_is_text(*sized("Å7".encode())), True),
        (library.gachullpi_is_text(*sized(b"\xc3")), False),
        # The largest numbers.
        (course(library, number[:6] + b"\xff" * 24, 4, 1)[0], (103, 0, 0, 0, 0)),
        (course(library, encoded(["reserve_bytes", str(2**64 - 1), "1"]), 4, 1)[1], [(4, 0, 0, 0, 0)]),
    ]
    # A call that is cut, or has no number of a call.
    seen += [(course(library, finish[:cut], 4, 1)[0], (103, 0, 0, 0, 0)) for cut in range(1, len(finish))]
    seen += [(course(library, bytes([call]) + finish[1:], 4, 1)[0], (103, 0, 0, 0, 0)) for call in (0, 9, 255)]
    wrong = [(n, got, wanted) for n, (got, wanted) in enumerate(seen) if got != wanted]
    for n, got, wanted in wrong:
        print(f"edge {n}: expected {wanted}, answered {got}")
    return len(seen), not wrong


def zeros(front, count):
    """Bytes, and so many zeros behind them: memory that the system makes only where it is touched."""
    room = mmap.mmap(-1, len(front) + count, mmap.MAP_PRIVATE | mmap.MAP_ANONYMOUS | getattr(mmap, "MAP_NORESERVE", 0x4000))
    room[: len(front)] = front
    return room


def led(room, length):
    """The first bytes of such memory as they cross."""
    return (ctypes.c_void_p(ctypes.addressof(ctypes.c_char.from_buffer(room))), ctypes.c_size_t(length))


def limits(library):
    """Archives, buffers and sheets at the limit of 2^31 - 1 bytes, and one byte longer."""
    limit = 2**31 - 1
    number, text = (*sized(b"8"), ctypes.c_uint8(108)), (*sized(b"t"), ctypes.c_uint8(108))
    room = zeros(b"", limit + 1)
    whole, over = led(room, limit), led(room, limit + 1)
    refused, sound = (1, 0, 0, 0, 0), lambda value: (0, 0, 0, value, 0)
    output = ctypes.create_string_buffer(OLD * 10, 10)

    def at(place):
        return ctypes.c_size_t(place)

    def life(buffer, calls):
        told = (Answer * 2)()
        ends = library.gachullpi_life(*calls, *buffer, told, ctypes.c_size_t(2))
        return numbers(ends), numbers(told[0])

    grows = encoded(["reserve_bytes", str(limit + 1), "1"])
    front = encoded(["build", "8", "l", "-"])[:-8] + (limit + 1).to_bytes(8, "little")
    long_sheet = zeros(front, limit + 1)
    seen = [
        (numbers(library.gachullpi_is_valid(*number, *over, at(0))), refused),
        (numbers(library.gachullpi_is_valid(*number, *whole, at(limit - 15))), sound(limit - 15)),
        (numbers(library.gachullpi_is_valid(*number, *whole, at(limit - 7))), (21, limit - 7, 0, 0, 0)),
        (numbers(library.gachullpi_is_valid_deep(*text, *over, at(0))), refused),
        (numbers(library.gachullpi_is_valid_deep(*text, *whole, at(0))), sound(0)),
        (numbers(library.gachullpi_get(*text, *over, at(0))), refused),
        (numbers(library.gachullpi_get(*text, *whole, at(limit - 15))), sound(limit - 11)),
        (numbers(library.gachullpi_copy_out(*text, *over, at(0), output, ctypes.c_size_t(10))), refused),
        (output.raw, OLD * 10),
        (numbers(library.gachullpi_copy_out(*text, *whole, at(0), output, ctypes.c_size_t(10))), sound(6)),
        (output.raw, b"TX" + bytes(4) + OLD * 4),
        (life(over, sized(grows)), (refused, (0, 0, 0, 0, 0))),
        (life(whole, sized(grows)), ((0, 0, 0, 1, len(grows)), (4, 0, 0, 0, 0))),
        (life(led(room, 64), led(long_sheet, len(front) + limit + 1)), ((0, 0, 0, 1, len(front) + limit + 1), refused)),
    ]
    wrong = [(n, got, wanted) for n, (got, wanted) in enumerate(seen) if got != wanted]
    for n, got, wanted in wrong:
        print(f"limit {n}: expected {wanted}, answered {got}")
    return len(seen), not wrong


def main():
    library = ctypes.CDLL(sys.argv[1])
    for name in ("scan", "is_valid", "is_valid_deep", "get", "copy_out", "life"):
        getattr(library, "gachullpi_" + name).restype = Answer
    library.gachullpi_is_text.restype = ctypes.c_bool
    tried, right = edges(library)
    at_limit, kept = limits(library)
    if not (right and kept):
        return 1
    desk = Desk(library)
    answered = left_out = 0
    with open(sys.argv[2]) as lines, open(sys.argv[3]) as answers:
        for line, expected in zip(lines, answers, strict=True):
            said = desk.answer(line.split())
            if said is None:
                left_out += 1
            elif said != expected.rstrip("\n"):
                print(f"{line}expected {expected}answered {said}")
                return 1
            else:
                answered += 1
    print(f"{answered} lines answered as by replay, {left_out} that the library has no call for; {tried} edges as the header has them, and {at_limit} at the limit")
    return 0


sys.exit(main())
