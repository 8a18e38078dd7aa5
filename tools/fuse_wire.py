"""Cuts streams of FUSE frames, and reads and writes frames by their layouts. What is broken is refused by its place."""
import struct
from typing import NamedTuple

from fuse_layouts import (
    BY_OPCODE, DIRENT_FIELDS, LEAST_REQUEST, MOST_REQUEST, NUMBERS, REPLY_FIELDS, REPLY_HEAD, REQUEST_HEAD, UNSERVED,
)


class Broken(Exception):
    """A frame that is none, and the number of bytes before what is wrong."""

    def __init__(self, place, why):
        super().__init__(f"byte {place}: {why}")
        self.place, self.why = place, why


class Head(NamedTuple):
    """The head of a request."""

    length: int
    opcode: int
    unique: int
    node: int
    uid: int
    gid: int
    pid: int


class Cursor:
    """The rest of a frame, which stands in `data` from `at` on."""

    def __init__(self, data, at):
        self.data, self.at = data, at

    def take(self, count, what):
        """The next bytes, so many."""
        if self.at + count > len(self.data):
            raise Broken(self.at, f"the frame ends within `{what}`")
        self.at += count
        return self.data[self.at - count:self.at]

    def number(self, size, what):
        """The next number of so many bytes."""
        return int.from_bytes(self.take(size, what), "little")

    def name(self, what):
        """The bytes up to the next zero byte, and past it."""
        end = self.data.find(b"\0", self.at)
        if end < 0:
            raise Broken(self.at, f"no zero byte behind `{what}`")
        found = self.data[self.at:end]
        self.at = end + 1
        return found

    def rest(self):
        """All that is left."""
        return self.take(len(self.data) - self.at, "rest")

    def pairs(self, count):
        """So many pairs of a node and its look-ups, which fill the rest."""
        if len(self.data) - self.at != 16 * count:
            raise Broken(self.at, f"{len(self.data) - self.at} bytes where {count} pairs are told")
        return [struct.unpack("<QQ", self.take(16, "pairs")) for _ in range(count)]

    def dirents(self):
        """The entries of a directory, which fill the rest."""
        while self.at < len(self.data):
            values = self.fields(DIRENT_FIELDS)
            self.take(-len(values["name"]) % 8, "padding")
            yield values

    def fields(self, layout):
        """The values of a layout's fields by their names."""
        values, length = {}, 0
        for name, kind, _ in layout:
            if kind in NUMBERS:
                values[name] = self.number(NUMBERS[kind], "padding" if name == "-" else name)
                length = values[name] if kind == "len" else length
            elif kind == "name":
                values[name] = self.name(name)
            elif kind == "bytes":
                values[name] = self.take(length, name)
            elif kind == "pairs":
                values[name] = self.pairs(length)
            elif kind == "dirents":
                values[name] = list(self.dirents())
            else:
                values[name] = self.rest()
        return values

    def end(self):
        """Refuses a tail."""
        if self.at < len(self.data):
            raise Broken(self.at, f"{len(self.data) - self.at} bytes behind the last field")


def cut(stream, least, most):
    """The frames of a stream, each with the number of bytes before it."""
    place = 0
    while place < len(stream):
        length = int.from_bytes(stream[place:place + 4], "little")
        if place + 4 <= len(stream) and not least <= length <= most:
            raise Broken(place, f"a frame of {length} bytes, where {least} to {most} are allowed")
        if place + max(length, 4) > len(stream):
            raise Broken(place, f"the stream ends within a frame: {len(stream) - place} bytes are left")
        yield place, stream[place:place + length]
        place += length


def cut_requests(stream):
    """The request frames of a stream, each with its place."""
    return cut(stream, LEAST_REQUEST, MOST_REQUEST)


def cut_replies(stream):
    """The reply frames of a stream, each with its place."""
    return cut(stream, REPLY_HEAD.size, 2 ** 32 - 1)


def head_of(frame):
    """The head of a request frame, which has at least 40 bytes."""
    return Head(*REQUEST_HEAD.unpack_from(frame)[:7])


def unique_of(reply):
    """The number of the request that a reply is for."""
    return REPLY_HEAD.unpack_from(reply)[2]


def name_of(opcode):
    """The name of an opcode."""
    if opcode in BY_OPCODE:
        return BY_OPCODE[opcode].name
    return UNSERVED.get(opcode, f"OPCODE_{opcode}")


def is_silent(opcode):
    """Whether a request of this opcode never has a reply."""
    return opcode in BY_OPCODE and BY_OPCODE[opcode].reply == "silent"


def read_body(frame):
    """The values of the fields of a request's body; of a request that isn't served, none."""
    row = BY_OPCODE.get(head_of(frame).opcode)
    if row is None:
        return {}
    cursor = Cursor(frame, REQUEST_HEAD.size)
    values = cursor.fields(row.fields)
    cursor.end()
    return values


def read_reply(kind, frame):
    """The errno of a reply of this kind, and the values of the fields of its body."""
    _, error, _ = REPLY_HEAD.unpack_from(frame)
    cursor = Cursor(frame, REPLY_HEAD.size)
    if not -512 < error <= 0:
        raise Broken(4, f"an error of {error}")
    values = cursor.fields([] if error else REPLY_FIELDS[kind])
    cursor.end()
    return -error, values


def place_of(layout, wanted):
    """The place within its frame of a field before which numbers alone stand."""
    place = REQUEST_HEAD.size
    for name, kind, _ in layout:
        if name == wanted:
            return place
        place += NUMBERS[kind]
    raise KeyError(wanted)


def write_body(layout, values):
    """The bytes of a body. A field without a value has its default, and a `len` the length of the last field."""
    written = b""
    for name, kind, default in layout:
        value = values.get(name, len(values[layout[-1].name]) if kind == "len" else default)
        if kind in NUMBERS:
            written += value.to_bytes(NUMBERS[kind], "little")
        elif kind == "name":
            written += value + b"\0"
        elif kind == "pairs":
            written += b"".join(struct.pack("<QQ", *pair) for pair in value)
        else:
            written += value or b""
    return written


def write_request(opcode, unique, node, body, uid=0, gid=0, pid=0):
    """A request frame."""
    return REQUEST_HEAD.pack(REQUEST_HEAD.size + len(body), opcode, unique, node, uid, gid, pid, 0) + body
