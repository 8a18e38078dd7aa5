"""Builds a scenario from its lines: each is a call, an operation of a remote writer, or a word about the whole."""
from fuse_layouts import BY_NAME, UNSERVED, Field, Request
from scenario_calls import Call, Given, Names, call_of
from scenario_words import LineFault, number, words_of

UNSERVED_OPCODES = {name.lower(): opcode for opcode, name in UNSERVED.items()}
META = "meta."
MOST = 2 ** 64 - 1


def rest_of(words, allowed):
    """Members that are named, as `stamp=5` and `meta.KEY=VALUE`."""
    members = {}
    for word in words:
        if word.key.startswith(META):
            members.setdefault("meta", {})[word.key[len(META):]] = word.text
        elif word.key in allowed:
            members[word.key] = number(word, MOST)
        else:
            raise LineFault(f"`{word.text}` is one word too many" if not word.key else f"`{word.key}` is no member here")
    return members


def split(words, least, most, form):
    """The words without a key, so many of them, and those with one."""
    plain, named = [word for word in words if not word.key], [word for word in words if word.key]
    if not least <= len(plain) <= most:
        raise LineFault(f"the form is: {form}")
    return plain, named


class Builder:
    """The scenario so far, and where the next line stands."""

    def __init__(self):
        self.config, self.objects, self.faults, self.phases = {}, [], [], []
        self.begins, self.kind = "phase", ""
        self.lanes = 0
        self.names = Names()

    def line(self, line):
        """Reads one line."""
        words = words_of(line)
        if not words:
            return
        first, rest = words[0].text, words[1:]
        if first in ("config", "object", "fault", "phase", "lane", "remote", "clock", "frame"):
            getattr(self, f"read_{first}")(rest)
        elif first in BY_NAME:
            self.read_call(BY_NAME[first], rest)
        elif first in UNSERVED_OPCODES or first == "opcode":
            self.read_unserved(first, rest)
        else:
            raise LineFault(f"no line begins with `{first}`")

    def items(self, kind):
        """The items of the lane in which a line of this kind stands."""
        if self.begins == "phase" or not self.begins and self.kind != kind:
            self.phases.append([])
        if self.begins or self.kind != kind:
            self.phases[-1].append({kind: []})
            self.lanes += 1
        self.begins, self.kind = "", kind
        return self.phases[-1][-1][kind]

    def read_phase(self, words):
        """What follows begins when all before has ended."""
        split(words, 0, 0, "phase")
        self.begins = "phase"

    def read_lane(self, words):
        """What follows runs beside the lanes of this phase."""
        split(words, 0, 0, "lane")
        self.begins = self.begins or "lane"

    def read_config(self, words):
        """Settings of the mount."""
        for word in split(words, 0, 0, "config NAME=NUMBER..")[1]:
            self.config[word.key] = word.text == "true" if word.text in ("true", "false") else number(word, MOST)

    def read_object(self, words):
        """An object that is in the bucket at the start."""
        plain, named = split(words, 1, 2, "object NAME [CONTENT] [updated=SECOND] [meta.KEY=VALUE]")
        content = {"hex": plain[1].data.hex()} if plain[1:] else {}
        self.objects.append({"name": plain[0].text, **content, **rest_of(named, ("updated",))})

    def read_fault(self, words):
        """A fault of the bucket at a moment."""
        plain, _ = split(words, 2, 2, "fault MOMENT failed|lost")
        self.faults.append({"moment": number(plain[0], MOST), "mode": plain[1].text})

    def read_remote(self, words):
        """An operation of a writer beside the mount."""
        form = "remote write|update|delete NAME [CONTENT] [only=GENERATION] [stamp=SECOND] [meta.KEY=VALUE]"
        plain, named = split(words, 2, 3, form)
        act, name, *content = plain
        if act.text not in ("write", "update", "delete") or content and act.text != "write":
            raise LineFault("a remote writer can `write NAME CONTENT`, `update NAME` and `delete NAME`")
        members = rest_of(named, ("only",) if act.text == "delete" else ("only", "stamp"))
        written = {"hex": content[0].data.hex()} if content else {}
        self.items("remote").append({"act": act.text, "name": name.text, **written, **members})

    def read_clock(self, words):
        """Seconds that pass for the mount."""
        plain, _ = split(words, 1, 1, "clock SECONDS")
        self.items("clock").append(number(plain[0], 1_000_000, 1))

    def read_frame(self, words):
        """A whole frame, by its bytes."""
        plain, _ = split(words, 1, 1, "frame hex:DIGITS")
        self.items("calls").append(call_of(plain[0].data))

    def read_call(self, row, words):
        """One call; `as NAME` at its end names what it gives."""
        calls = self.items("calls")
        alias = words.pop().text if len(words) > 2 and words[-2].text == "as" else None
        if alias:
            words.pop()
        here = Given(len(self.phases), self.lanes, len(calls) + 1, "node")
        call = Call(row, self.names, here)
        call.read(words)
        calls.append(call.written())
        self.bind(call, alias, [word.text for word in words if not word.key], here)

    def bind(self, call, alias, operands, here):
        """Binds what a call gives to its alias, or else to the name of what is made or found, or of what is opened."""
        kind = call.row.reply
        if kind in ("entry", "created"):
            self.names.nodes[alias or operands[1]] = here
        if kind in ("opened", "created"):
            name, on = (operands[1], here) if kind == "created" else (operands[0], call.on)
            self.names.handles[alias or name] = (on, here._replace(take="fh"))

    def read_unserved(self, first, words):
        """A request that is answered ENOSYS: `getxattr NODE [BODY]`, `opcode NUMBER NODE [BODY]`."""
        opcode = number(words.pop(0), 2 ** 32 - 1) if first == "opcode" and words else UNSERVED_OPCODES.get(first, 0)
        plain, _ = split(words, 1, 2, f"{first}{' NUMBER' if first == 'opcode' else ''} NODE [BODY]")
        operands = ["node", "body"][:len(plain)]
        self.read_call(Request(opcode, first, "empty", operands, [Field("body", "bytes", 0)]), words)

    def scenario(self):
        """The whole scenario."""
        parts = {"config": self.config, "objects": self.objects, "faults": self.faults}
        return {**{name: part for name, part in parts.items() if part}, "phases": self.phases}


def build(lines):
    """The scenario that lines make. Where no line is `init`, an INIT stands in front in a phase of its own."""
    builder = Builder()
    number_of_line = 0
    try:
        if not any(line.split()[:1] == ["init"] for line in lines):
            builder.line("init")
            builder.line("phase")
        for number_of_line, line in enumerate(lines, 1):
            builder.line(line)
    except LineFault as fault:
        raise LineFault(f"line {number_of_line}: {fault}") from None
    return builder.scenario()
