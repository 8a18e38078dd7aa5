"""Reads a printed history, and the scenario that was played, into what `tools/frames` and `tools/history` show."""
import json
from typing import NamedTuple

from bucket_answers import Answers
from fuse_layouts import BY_OPCODE
from fuse_wire import Broken, head_of, read_reply


class Fault(Exception):
    """What can't be read, and where."""


class Entry(NamedTuple):
    """One entry of the bucket's log."""

    moment: int
    lane: int
    mode: str
    operation: list


class Turn(NamedTuple):
    """One entry of the mount's journal: its kind, the call (of a tick: none), the front, and the words behind it."""

    kind: str
    call: str
    front: int
    words: list


class History:
    """A printed history: the replies by their calls, the live objects, the log and the journal."""

    def __init__(self, lines):
        self.replies, self.objects, self.log, self.journal = {}, {}, [], []
        for line in lines:
            getattr(self, f"read_{line[0]}")(*line[1:])

    def read_reply(self, call, digits):
        """A reply: its bytes, or none."""
        self.replies[call] = b"" if digits in ("none", "-") else bytes.fromhex(digits)

    def read_object(self, name, generation, *words):
        """A live object, by its name, with its generation and metageneration."""
        self.objects[name] = (int(generation), int(words[0]))

    def read_log(self, moment, lane, mode, *operation):
        """An entry of the log."""
        self.log.append(Entry(int(moment), int(lane), mode, list(operation)))

    def read_take(self, call, front):
        """A take."""
        self.journal.append(Turn("take", call, int(front), []))

    def read_done(self, call, front, *words):
        """A done, with how it came and its uses."""
        self.journal.append(Turn("done", call, int(front), list(words)))

    def read_tick(self, front, seconds):
        """A tick."""
        self.journal.append(Turn("tick", None, int(front), [seconds]))

    def read_end(self):
        """The end."""


def read_history(name):
    """The history that a file holds."""
    with open(name, encoding="ascii", errors="replace") as file:
        lines = [line.split() for line in file]
    for number, line in enumerate(lines, 1):
        try:
            History([line])
        except (AttributeError, IndexError, TypeError, ValueError):
            raise Fault(f"{name}: line {number} is none of a printed history") from None
    if not lines or lines[-1] != ["end"]:
        raise Fault(f"{name}: its last line isn't `end`")
    return History(lines)


def read_scenario(name):
    """The scenario that a file holds."""
    with open(name, encoding="utf-8") as file:
        try:
            scenario = json.load(file)
            return {"objects": [], **scenario, "phases": scenario["phases"]}
        except (ValueError, KeyError, TypeError):
            raise Fault(f"{name}: no scenario") from None


def number_given(fix, opcode, reply):
    """What a fixup takes of a reply: a node or a handle, and 0 where it has none."""
    try:
        _, values = read_reply(BY_OPCODE[opcode].reply, reply)
    except (Broken, KeyError):
        return 0
    return values.get("node" if fix["take"] == "node" else "fh", 0)


class Played:
    """A scenario and its history."""

    def __init__(self, scenario, history):
        self.history, self.phases = history, scenario["phases"]
        self.requests = {}
        lanes = (lane for phase in self.phases for lane in phase)
        for number, lane in enumerate(lanes, 1):
            for index, call in enumerate(lane.get("calls", ()), 1):
                self.requests[f"{number}.{index}"] = self.fixed(call)
        answers = Answers(scenario["objects"])
        self.answers = [answers.of(entry) for entry in history.log]
        self.fits = set(self.requests) == set(history.replies) and answers.live == history.objects

    def fixed(self, call):
        """The frame of a call as it was served, with its fixups."""
        frame = bytearray.fromhex(call["frame"])
        for fix in call.get("fix", ()):
            earlier = f"{fix['lane']}.{fix['call']}"
            opcode = head_of(self.requests[earlier]).opcode
            given = number_given(fix, opcode, self.history.replies[earlier])
            frame[fix["at"]:fix["at"] + 8] = given.to_bytes(8, "little")
        return bytes(frame)

    def exchanges(self):
        """Each call with its request and its reply, by lane and index."""
        for call, request in self.requests.items():
            yield call, request, self.history.replies[call]


def read_played(scenario, history):
    """The scenario and the history that two files hold, which must be of one another."""
    written, told = read_scenario(scenario), read_history(history)
    try:
        played = Played(written, told)
    except (AttributeError, KeyError, TypeError, ValueError):
        played = None
    if played is None or not played.fits:
        raise Fault(f"{history} isn't the history of {scenario}")
    return played
