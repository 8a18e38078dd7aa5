"""A printed history as steps in time, each in the column of its lane, with the text that it is drawn by."""
import errno
from typing import NamedTuple

from fuse_text import quoted, reply_text, request_text
from fuse_wire import REPLY_HEAD, Broken, head_of, name_of

CALLS, WRITER, CLOCK = "calls", "remote", "clock"
HEADS = {CALLS: "calls", WRITER: "another writer"}


class Step(NamedTuple):
    """What happens at one moment. Kinds are `phase`, `take`, `operation`, `done`, `call` (take and done at once),
    `writer` (an operation beside the mount) and `tick`. Phases and dones have their number in order; a done whose reply
    is an error is marked so."""

    kind: str
    column: int
    text: str
    call: str = ""
    order: int = 0
    refused: bool = False


class Lanes:
    """Where lanes are drawn: in each phase those of calls first, and then those of other writers."""

    def __init__(self, phases):
        self.place, self.ticks = {}, []
        number, most = 0, [0, 0]
        for at, phase in enumerate(phases):
            counts = {CALLS: 0, WRITER: 0}
            for lane in phase:
                number += 1
                self.ticks += [at] * len(lane.get(CLOCK, ()))
                for kind in counts:
                    if kind in lane:
                        self.place[number] = (at, kind, counts[kind])
                        counts[kind] += 1
            most = [max(pair) for pair in zip(most, counts.values())]
        self.of_calls, self.columns = most[0], max(1, sum(most))

    def column(self, lane):
        """The column of a lane."""
        _, kind, position = self.place[lane]
        return position if kind == CALLS else self.of_calls + position

    def phase(self, lane):
        """The phase of a lane, from 0."""
        return self.place[lane][0]

    def head(self, phase):
        """What stands above each column in a phase."""
        texts = [""] * self.columns
        for lane, (at, kind, _) in self.place.items():
            if at == phase:
                texts[self.column(lane)] = f"lane {lane}: {HEADS[kind]}"
        return texts


def lanes_of(history):
    """Lanes as a history alone tells them: all in one phase."""
    calling = {int(call.split(".")[0]) for call in history.replies}
    most = max([*calling, *(entry.lane for entry in history.log)], default=0)
    return Lanes([[{CALLS if lane in calling else WRITER: []} for lane in range(1, most + 1)]])


def condition(only, what="generation"):
    """The precondition of an operation as text."""
    return "" if only == "*" else ", if none is live" if only == "0" else f", if {what} {only} is live"


def pairs_text(pairs):
    """Pairs of metadata as text."""
    if pairs == "-":
        return "nothing"
    halves = (pair.partition("=") for pair in pairs.split(","))
    return " ".join(f"{bytes.fromhex(key).decode()}={quoted(bytes.fromhex(value))}" for key, _, value in halves)


def count_of(digits):
    """How many bytes digits stand for, as text."""
    count = 0 if digits == "-" else len(digits) // 2
    return f"{count} byte{'' if count == 1 else 's'}"


def name_text(digits):
    """A name as text."""
    return quoted(b"" if digits == "-" else bytes.fromhex(digits), 80)


OPERATIONS = {
    "stat": lambda name: f"stat {name_text(name)}",
    "read": lambda name, generation, first, count:
        f"read {name_text(name)} generation {generation}, {count} bytes at {first}",
    "insert": lambda name, only, _, pairs, content: f"insert {name_text(name)} {count_of(content)}{condition(only)}",
    "update": lambda name, only, meta, _, pairs:
        f"update {name_text(name)} {pairs_text(pairs)}{condition(only)}{condition(meta, 'metageneration')}",
    "delete": lambda name, only: f"delete {name_text(name)}{condition(only)}",
    "copy": lambda name, generation, to, _: f"copy {name_text(name)} generation {generation} to {name_text(to)}",
    "list": lambda prefix, by, most, after:
        f"list {name_text(prefix)}{' by slash' if by == 'slash' else ''}, at most {most}"
        + (f", after {name_text(after)}" if after != "-" else ""),
}
MODES = {"done": "", "failed": "failed", "lost": "lost"}


def operation_text(entry, answer):
    """An entry of the log as text, with its answer where that is known."""
    word, *operands = entry.operation
    return f"log {entry.moment}: {OPERATIONS[word](*operands)}" + (f" \u2192 {answer}" if answer else "")


def uses_text(words):
    """How a done came, where that isn't plain, and which records it used."""
    records = [word[1:] for word in words if word.startswith("r")]
    notes = ["no memory"] if "nomemory" in words else []
    if records:
        notes.append(f"from the record{'s' if len(records) > 1 else ''} of log {', '.join(records)}")
    return f" ({'; '.join(notes)})" if notes else ""


class Timeline:
    """The steps of a history. Without a scenario calls are known by their numbers alone, and answers by faults alone."""

    def __init__(self, history, played, most):
        self.history, self.most = history, most
        self.requests = played.requests if played else {}
        self.answers = played.answers if played else [MODES[entry.mode] for entry in history.log]
        self.lanes = Lanes(played.phases) if played else lanes_of(history)
        self.steps, self.phase, self.dones, self.ticks = [], -1, 0, 0
        at = 0
        for turn in history.journal:
            for entry in history.log[at:turn.front]:
                self.operate(entry)
            at = max(at, turn.front)
            getattr(self, turn.kind)(turn)
        for entry in history.log[at:]:
            self.operate(entry)

    def enter(self, phase):
        """Begins a phase, where it hasn't begun."""
        if phase > self.phase:
            self.phase = phase
            self.steps.append(Step("phase", 0, f"phase {phase + 1}", order=phase))

    def operate(self, entry):
        """An operation on the bucket, of a call or of another writer."""
        self.enter(self.lanes.phase(entry.lane))
        kind = "operation" if self.lanes.place[entry.lane][1] == CALLS else "writer"
        text = operation_text(entry, self.answers[entry.moment - 1])
        self.steps.append(Step(kind, self.lanes.column(entry.lane), text))

    def take(self, turn):
        """A call begins."""
        lane = int(turn.call.split(".")[0])
        self.enter(self.lanes.phase(lane))
        text = f"{turn.call} {self.request(turn.call)}".rstrip()
        self.steps.append(Step("take", self.lanes.column(lane), text, turn.call))

    def done(self, turn):
        """A call ends; one that asked nothing, and beside which nothing happened, is one step where its text is short."""
        lane = int(turn.call.split(".")[0])
        self.dones += 1
        reply, refused = self.reply(turn.call)
        text = reply + uses_text(turn.words)
        step = Step("done", self.lanes.column(lane), text, turn.call, self.dones, refused)
        last = self.steps[-1]
        whole = f"{last.text} {text}"
        if last.kind == "take" and last.call == turn.call and len(whole) <= self.most:
            self.steps.pop()
            step = step._replace(kind="call", text=whole)
        self.steps.append(step)

    def tick(self, turn):
        """Seconds pass."""
        if self.ticks < len(self.lanes.ticks):
            self.enter(self.lanes.ticks[self.ticks])
        self.ticks += 1
        seconds = turn.words[0]
        self.steps.append(Step("tick", 0, f"{seconds} second{'' if seconds == '1' else 's'} pass"))

    def request(self, call):
        """A call's request as text."""
        if call not in self.requests:
            return ""
        try:
            return request_text(self.requests[call])
        except Broken:
            return f"{name_of(head_of(self.requests[call]).opcode)}(broken)"

    def short(self, call):
        """A call's number, and the name of its request."""
        request = self.requests.get(call)
        return f"{call} {name_of(head_of(request).opcode)}" if request else call

    def reply(self, call):
        """A call's reply as text, and whether it is an error."""
        frame = self.history.replies[call]
        if not frame:
            return "(no reply)", False
        error = -REPLY_HEAD.unpack_from(frame)[1]
        if error or call not in self.requests:
            return f"= {errno.errorcode.get(error, error) if error else 'ok'}", bool(error)
        text = reply_text(head_of(self.requests[call]).opcode, frame)
        return f"= {text.split(', flags')[0]}", False
