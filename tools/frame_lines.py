"""Says recorded frames as lines that `tools/scenario` reads: nodes and handles by names, and only what is looked at."""
import re

from fuse_layouts import BY_OPCODE, UNSERVED
from fuse_text import in_base, quoted, set_fields
from fuse_wire import Broken, head_of, read_body, read_reply

PLAIN = re.compile(r"[A-Za-z_.][\w.-]*", re.ASCII)
RESERVED = {"root", "as", "nothing"}
LEAST_REPEATED = 16
NOTHING = "nothing"
LOOKED_AT = {"INIT": ("major", "minor", "readahead", "flags"), "MKNOD": ("mode",), "RENAME2": ("flags",)}
ROOT = {1: "root"}


def content_word(data):
    """Bytes as a word: a text in quotes, one letter repeated, or digits."""
    if len(data) >= LEAST_REPEATED and len(set(data)) == 1:
        return f"{quoted(data[:1])}*{len(data)}"
    text = quoted(data, len(data))
    return text if "\\x" not in text else f"hex:{data.hex()}"


def is_plain(name):
    """Whether a name may stand without quotes, and be no number."""
    return PLAIN.fullmatch(name) is not None and name not in RESERVED


class Lines:
    """The lines so far, by the names that nodes and handles have in them."""

    def __init__(self):
        self.nodes, self.handles = dict(ROOT), {}

    def line(self, frame, reply):
        """The line of a request; its reply says what is given a name. A broken request stands by its bytes."""
        head = head_of(frame)
        row = BY_OPCODE.get(head.opcode)
        if row is None:
            return f"{UNSERVED.get(head.opcode, f'opcode {head.opcode}').lower()} {self.node(head.node)}"
        try:
            values = read_body(frame)
        except Broken:
            return f"frame hex:{frame.hex()}"
        words = [row.name.lower(), *self.operands(row, head, values)]
        words += [f"{name}={in_base(name, values[name])}" for name in LOOKED_AT.get(row.name, ())]
        alias = self.bind(row, head, values, reply) if reply else None
        if row.name in ("RELEASE", "RELEASEDIR"):
            self.handles.pop(values["fh"], None)
        return " ".join(words + (["as", alias] if alias else []))

    def node(self, number):
        """A node by its name, or else by its number."""
        return self.nodes.get(number, str(number))

    def operands(self, row, head, values):
        """The operands of a request as words."""
        for operand in row.operands:
            if operand == "node":
                yield self.node(head.node)
            elif operand == "handle":
                yield self.handles.get(values["fh"]) or f"{self.node(head.node)}:{values['fh']}"
            elif operand == "set":
                yield from set_fields(values)
            elif operand == "pairs":
                yield from (f"{self.node(node)}={count}" for node, count in values["pairs"])
            elif operand == "newdir":
                yield self.node(values[operand])
            else:
                yield str(values[operand]) if isinstance(values[operand], int) else content_word(values[operand])

    def bind(self, row, head, values, reply):
        """Names what a reply gives; where that isn't the name that `tools/scenario` would give it, the other name."""
        if row.reply not in ("entry", "created", "opened"):
            return None
        usual = self.node(head.node) if row.reply == "opened" else values["name"].decode("utf-8", "replace")
        error, given = read_reply(row.reply, reply)
        if error:
            return NOTHING if usual in {*self.nodes.values(), *self.handles.values()} else None
        if row.reply == "opened":
            name = f"h{given['fh']}" if usual in self.handles.values() else usual
        else:
            name = self.nodes[given["node"]] = self.name_of(given["node"], usual)
        if row.reply != "entry":
            self.handles[given["fh"]] = name
        return name if name != usual else None

    def name_of(self, node, usual):
        """The name of a node: the one that it has, else its object's where no other node has that."""
        if node in self.nodes:
            return self.nodes[node]
        return usual if is_plain(usual) and usual not in self.nodes.values() else f"n{node}"
