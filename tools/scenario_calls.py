"""Builds the calls of a scenario: frames, and fixups for the nodes and handles that earlier calls give."""
from typing import NamedTuple

from fuse_layouts import MOST_REQUEST, NOW_BITS, NUMBERS, SET_BITS
from fuse_wire import place_of, write_body, write_request
from scenario_words import LineFault, Word, number

NODE_PLACE = 16
PAIR_BYTES = 16
HEAD_FIELDS = {"unique": 8, "node": 8, "uid": 4, "gid": 4, "pid": 4}


class Given(NamedTuple):
    """What a call gives: where the call stands, and whether its node or its handle is meant."""

    phase: int
    lane: int
    call: int
    take: str


class Names:
    """The nodes and handles that are bound to names. A handle knows the node that it was opened on."""

    def __init__(self):
        self.nodes, self.handles = {}, {}

    def find(self, table, what, text, here):
        """What a name is bound to, where the call that gives it stands before."""
        if text not in table:
            raise LineFault(f"no call before gives a {what} `{text}`")
        given = table[text] if what == "node" else table[text][1]
        if given.phase == here.phase and given.lane != here.lane:
            raise LineFault(f"`{text}` is given in another lane of this phase: it may not be there yet")
        return table[text]

    def node(self, text, here):
        """The node that a word names: a number, `root`, or one that a call gives."""
        if text.isdecimal() and text.isascii():
            return number(Word("", text, b""), 2 ** 64 - 1)
        return 1 if text == "root" else self.find(self.nodes, "node", text, here)

    def handle(self, text, here):
        """The node and the handle that a word names: a handle's name, or both with a colon between."""
        node, colon, handle = text.partition(":")
        if not colon:
            return self.find(self.handles, "handle", text, here)
        if handle.isdecimal() and handle.isascii():
            return self.node(node, here), number(Word("", handle, b""), 2 ** 64 - 1)
        return self.node(node, here), self.find(self.handles, "handle", handle, here)[1]


class Call:
    """One call as its line says it, to be written as a frame."""

    def __init__(self, row, names, here):
        self.row, self.names, self.here = row, names, here
        self.head = {"node": 0, "unique": here.call}
        self.values, self.fixes = {}, []
        self.on = 0
        self.kinds = {field.name: field.kind for field in row.fields}

    def usage(self):
        """The form of a line of this request."""
        return " ".join((self.row.name.lower(), *(word.upper() for word in self.row.operands)))

    def fixed(self, value, place):
        """A number as it is; of what a call gives 0, and a fixup that writes it to its place in the frame."""
        if isinstance(value, Given):
            self.fixes.append({"at": place, "lane": value.lane, "call": value.call, "take": value.take})
            return 0
        return value

    def read(self, words):
        """Reads the operands, and then the fields that are named."""
        plain, named = [word for word in words if not word.key], [word for word in words if word.key]
        for operand in self.row.operands:
            if operand == "pairs":
                self.values["pairs"] = [self.pair(at, word) for at, word in enumerate(named)]
                named = []
            elif operand != "set":
                if not plain:
                    raise LineFault(f"an operand is missing: {self.usage()}")
                self.operand(operand, plain.pop(0))
        if plain:
            raise LineFault(f"`{plain[0].text}` is one word too many: {self.usage()}")
        for word in named:
            self.named(word)

    def pair(self, at, word):
        """A node and how many look-ups of it are given back."""
        place = place_of(self.row.fields, "pairs") + PAIR_BYTES * at
        return self.fixed(self.names.node(word.key, self.here), place), number(word, 2 ** 64 - 1)

    def operand(self, operand, word):
        """Reads one operand."""
        if operand == "node":
            self.on = self.names.node(word.text, self.here)
            self.head["node"] = self.fixed(self.on, NODE_PLACE)
        elif operand == "handle":
            self.on, handle = self.names.handle(word.text, self.here)
            self.head["node"] = self.fixed(self.on, NODE_PLACE)
            self.values["fh"] = self.fixed(handle, place_of(self.row.fields, "fh"))
        else:
            self.values[operand] = self.value(operand, word)

    def value(self, name, word):
        """The value of a field of the body."""
        kind = self.kinds[name]
        if kind == "node":
            return self.fixed(self.names.node(word.text, self.here), place_of(self.row.fields, name))
        return number(word, 256 ** NUMBERS[kind] - 1) if kind in NUMBERS else word.data

    def named(self, word):
        """Reads a field that is named; of SETATTR it is also marked as set."""
        if word.key in HEAD_FIELDS:
            self.head[word.key] = number(word, 256 ** HEAD_FIELDS[word.key] - 1)
        elif word.key not in self.kinds or word.key == "-":
            known = " ".join(name for name in (*self.kinds, *HEAD_FIELDS) if name not in ("-", *self.row.operands))
            raise LineFault(f"{self.row.name.lower()} has no field `{word.key}` (fields: {known})")
        elif "set" in self.row.operands:
            self.set(word)
        else:
            self.values[word.key] = self.value(word.key, word)

    def set(self, word):
        """Reads a field of SETATTR: `size=5`, `mtime=5.25`, `mtime=now`."""
        name, bits = word.key, SET_BITS.get(word.key, 0)
        seconds, point, fraction = word.text.partition(".")
        if name in NOW_BITS and word.text == "now":
            bits |= NOW_BITS[name]
        elif name in NOW_BITS and point:
            self.values[name] = self.value(name, word._replace(text=seconds))
            nanoseconds = fraction.ljust(9, "0").lstrip("0") or "0"
            self.values[name + "nsec"] = number(word._replace(text=nanoseconds), 999_999_999)
        else:
            self.values[name] = self.value(name, word)
        if name != "valid":
            self.values["valid"] = self.values.get("valid", 0) | bits

    def written(self):
        """The call as the scenario has it: its frame, and its fixups."""
        frame = write_request(self.row.opcode, body=write_body(self.row.fields, self.values), **self.head)
        return call_of(frame, self.fixes)


def call_of(frame, fixes=()):
    """A call of a scenario, by its frame and its fixups."""
    if len(frame) > MOST_REQUEST:
        raise LineFault(f"the frame has {len(frame)} bytes, where {MOST_REQUEST} are allowed")
    return {"frame": frame.hex(), **({"fix": list(fixes)} if fixes else {})}
