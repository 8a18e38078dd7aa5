"""Shows request and reply frames as text, one line each, in the spirit of strace."""
import errno

from fuse_layouts import BY_OPCODE, INIT_FLAGS, NOW_BITS, SET_BITS
from fuse_wire import head_of, name_of, read_body, read_reply

MOST_SHOWN = 32
KINDS = {0o04: "directory", 0o10: "file", 0o12: "symlink"}
ESCAPES = {ord('"'): '\\"', ord("\\"): "\\\\", ord("\n"): "\\n", ord("\r"): "\\r", ord("\t"): "\\t"}


def quoted(data, most=MOST_SHOWN):
    """Bytes as a text in quotes; of long ones the first, and how many there are."""
    shown = data[:most].decode("utf-8", "surrogateescape").translate(SHOWN_CHARACTERS)
    return f'"{shown}"' if len(data) <= most else f'"{shown}".. {len(data)} bytes'


def shown_character(letter):
    """A character of a quoted text; a byte that is no UTF-8, and what can't be printed, by its digits."""
    if ord(letter) in ESCAPES:
        return ESCAPES[ord(letter)]
    if letter.isprintable():
        return letter
    return "".join(f"\\x{byte:02x}" for byte in letter.encode("utf-8", "surrogateescape"))


class ShownCharacters(dict):
    """How each character of a quoted text is shown, by its number; worked out when it is first met."""

    def __missing__(self, number):
        self[number] = shown_character(chr(number))
        return self[number]


SHOWN_CHARACTERS = ShownCharacters()


def moment(seconds, nanoseconds):
    """A time as seconds since 1970, with what is below a second."""
    return f"{seconds}.{nanoseconds:09}".rstrip("0").rstrip(".")


def kind_of(mode):
    """What a mode says that a node is."""
    return KINDS.get(mode >> 12, f"mode {mode:o}")


def operands(row, head, values):
    """The operands of a request, as texts."""
    for operand in row.operands:
        if operand == "node":
            yield str(head.node)
        elif operand == "handle":
            yield from (str(head.node), str(values["fh"]))
        elif operand == "set":
            yield from set_fields(values)
        elif operand == "pairs":
            yield from (f"{node}={count}" for node, count in values["pairs"])
        else:
            value = values[operand]
            yield str(value) if isinstance(value, int) else quoted(value)
    if row.name == "INIT":
        yield f"{values['major']}.{values['minor']}, {offer_text(values)}"


def offer_text(values):
    """What INIT and its reply both tell, behind the version."""
    return f"read-ahead {values['readahead']}, flags {values['flags']:#x}"


def set_fields(values):
    """What a SETATTR sets, as `field=value`."""
    for name, bit in SET_BITS.items():
        if values["valid"] & NOW_BITS.get(name, 0):
            yield f"{name}=now"
        elif values["valid"] & bit:
            parts = (values[name], values.get(name + "nsec", 0))
            yield f"{name}={in_base(name, parts[0]) if name == 'mode' else moment(*parts)}"


def request_text(frame):
    """A request as one line: its name, and its operands in brackets."""
    head = head_of(frame)
    row = BY_OPCODE.get(head.opcode)
    if row is None:
        return f"{name_of(head.opcode)}({head.node}, {head.length - 40} bytes)"
    return f"{row.name}({', '.join(operands(row, head, read_body(frame)))})"


def in_base(name, value):
    """A field's value: flags by hexadecimal digits, modes by octal ones, and all else as it is."""
    return f"{value:#x}" if "flags" in name else f"{value:#o}" if name in ("mode", "umask") else str(value)


def shown_fields(row):
    """The fields that are shown with every request of a row."""
    if row is None:
        return set()
    counts = {field.name for field in row.fields if field.kind == "len"}
    handle = {"fh"} if "handle" in row.operands else set()
    agreed = {"major", "minor", "readahead", "flags"} if row.name == "INIT" else set()
    return {*row.operands, *counts, *handle, *agreed}


def ignored_text(frame):
    """The fields of a request that aren't shown with it, and aren't 0."""
    head = head_of(frame)
    row = BY_OPCODE.get(head.opcode)
    rest = {**head._asdict(), **(read_body(frame) if row else {})}
    for name in ("length", "opcode", "node", "more", "-", *shown_fields(row)):
        rest.pop(name, None)
    return " ".join(f"{name}={in_base(name, value)}" for name, value in rest.items() if value)


def attributes(values):
    """What is told of a node."""
    kind = kind_of(values["mode"])
    yield kind
    if kind != "directory":
        yield f"{values['size']} byte{'' if values['size'] == 1 else 's'}"
    if values["mtime"] or values["mtimensec"]:
        yield f"mtime {moment(values['mtime'], values['mtimensec'])}"
    if values["nlink"] != 1:
        yield f"nlink {values['nlink']}"


def dirents_text(entries):
    """Entries of a directory, each with its kind, and the position behind the last."""
    shown = ", ".join(f"{kind_of(entry['type'] << 12)} {quoted(entry['name'], 255)}" for entry in entries)
    return f"[{shown}], next {entries[-1]['off']}" if entries else "[]"


def init_text(values):
    """What was agreed on at the beginning."""
    names = "|".join(name for bit, name in INIT_FLAGS.items() if values["flags"] & bit)
    return f"{values['major']}.{values['minor']}, {offer_text(values)} {names or 'none'}, writes of {values['write']}"


SHOWN = {
    "entry": lambda values: ", ".join((f"node {values['node']}", *attributes(values))),
    "attr": lambda values: ", ".join(attributes(values)),
    "created": lambda values: ", ".join((f"node {values['node']}", f"handle {values['fh']}", *attributes(values))),
    "opened": lambda values: f"handle {values['fh']}",
    "text": lambda values: quoted(values["text"]),
    "dirents": lambda values: dirents_text(values["entries"]),
    "written": lambda values: str(values["size"]),
    "statfs": lambda values: f"{values['bfree']} of {values['blocks']} blocks of {values['bsize']} bytes free",
    "init": init_text,
    "empty": lambda values: "0",
}


def reply_text(opcode, frame):
    """A reply to a request of this opcode as text: the error's name, or what it tells."""
    kind = BY_OPCODE[opcode].reply if opcode in BY_OPCODE else "empty"
    error, values = read_reply(kind, frame)
    return errno.errorcode.get(error, f"errno {error}") if error else SHOWN[kind](values)
