#!/usr/bin/env python3
"""Reads a printed history: checks the form of each line, and what the lines say of one another.

Usage: bench/history.py [FILE]    (standard input where no file is named)
       bench/history.py --help

It prints how many lines of each kind there are, or the number of the first line that is at fault and why; its exit
status is 1 then. It shares nothing with the program: the format stands here a second time, as regular expressions.
"""
import re
import sys

NUMBER = r"(?:0|[1-9][0-9]*)"
DIGITS = r"(?:[0-9a-f]{2})+"
BYTES = rf"(?:-|{DIGITS})"
PAIR = rf"{DIGITS}=(?:{DIGITS})?"
PAIRS = rf"(?:-|{PAIR}(?:,{PAIR})*)"
ONLY = rf"(?:\*|{NUMBER})"
OPERATIONS = (
    rf"stat {DIGITS}",
    rf"read {DIGITS} {NUMBER} {NUMBER} {NUMBER}",
    rf"insert {DIGITS} {ONLY} {NUMBER} {PAIRS} {BYTES}",
    rf"update {DIGITS} {ONLY} {ONLY} {NUMBER} {PAIRS}",
    rf"delete {DIGITS} {ONLY}",
    rf"copy {DIGITS} {NUMBER} {DIGITS} {NUMBER}",
    rf"list {BYTES} (?:slash|flat) {NUMBER} {BYTES}",
)
USE = rf"(?:o{NUMBER}[kd]|r[1-9][0-9]*)"
CALL = rf"(?P<call>{NUMBER}\.{NUMBER})"
FRONT = rf"(?P<front>{NUMBER})"
LINES = {
    "reply": rf"reply {CALL} (?:none|{DIGITS})",
    "object": rf"object (?P<name>{DIGITS}) {NUMBER} {NUMBER} {NUMBER} (?P<size>{NUMBER}) (?P<content>{BYTES}) (?P<pairs>{PAIRS})",
    "log": rf"log (?P<moment>{NUMBER}) {NUMBER} (?:done|failed|lost) (?P<operation>{'|'.join(OPERATIONS)})",
    "take": rf"take {CALL} {FRONT}",
    "done": rf"done {CALL} {FRONT} (?:ok|nomemory)(?: {USE})*(?: fk| fn)?",
    "tick": rf"tick {FRONT} {NUMBER}",
    "end": "end",
}
FORMS = {kind: re.compile(form) for kind, form in LINES.items()}
PARTS = {"reply": 1, "object": 2, "log": 3, "take": 4, "done": 4, "tick": 4, "end": 5}


class Fault(Exception):
    pass


def need(holds, why):
    if not holds:
        raise Fault(why)


def place(call):
    return tuple(int(number) for number in call.split("."))


def rise(pairs):
    keys = [pair.split("=")[0] for pair in pairs.split(",")]
    return sorted(set(keys)) == keys


class History:
    """What was read so far: the calls with a reply, the last name, the moments, the open and the ended calls."""

    def __init__(self):
        self.counts = dict.fromkeys(LINES, 0)
        self.part, self.front, self.name = 1, 0, ""
        self.replies, self.open, self.ended = [], set(), set()

    def line(self, line):
        kind = line.split(" ", 1)[0]
        need(kind in LINES, "no line begins so")
        found = FORMS[kind].fullmatch(line)
        need(found, f"not of the form of a line `{kind}`")
        need(PARTS[kind] >= self.part, f"`{kind}` stands behind a later part")
        self.part = PARTS[kind]
        self.counts[kind] += 1
        getattr(self, kind)(**found.groupdict())

    def reply(self, call):
        need(not self.replies or place(self.replies[-1]) < place(call), "calls don't rise by lane and index")
        self.replies.append(call)

    def object(self, name, size, content, pairs):
        need(self.name < name, "names don't rise")
        need(int(size) == (0 if content == "-" else len(content) // 2), "the size isn't the content's")
        need(rise(pairs), "the keys of pairs don't rise")
        self.name = name

    def log(self, moment, operation):
        need(int(moment) == self.counts["log"], "moments don't count from 1")
        need(all(rise(word) for word in operation.split(" ") if "=" in word), "the keys of pairs don't rise")

    def at_front(self, front):
        need(self.front <= int(front) <= self.counts["log"], "the front falls, or passes the log")
        self.front = int(front)

    def take(self, call, front):
        self.at_front(front)
        need(call not in self.open | self.ended, "the call was taken before")
        self.open.add(call)

    def done(self, call, front):
        self.at_front(front)
        need(call in self.open, "the call isn't open")
        self.open.remove(call)
        self.ended.add(call)

    def tick(self, front):
        self.at_front(front)

    def end(self):
        need(not self.open, "a call is still open")
        need(self.ended == set(self.replies), "calls with a reply and calls in the journal differ")


def lines_of(words):
    """The lines of the file that the words name, or of standard input, with their line feeds."""
    with open(words[0], "rb") if words else sys.stdin.buffer as lines:
        for line in lines:
            yield line.decode("latin-1")


def main(words):
    if words == ["--help"]:
        print(__doc__.strip())
        return
    history, number = History(), 0
    try:
        for number, line in enumerate(lines_of(words), 1):
            need(history.part < PARTS["end"], "a line behind `end`")
            need(line.endswith("\n"), "no line feed at its end")
            history.line(line[:-1])
        number += 1
        need(history.part == PARTS["end"], "`end` is missing")
    except Fault as fault:
        sys.exit(f"line {number}: {fault}")
    print(", ".join(f"{kind} {count}" for kind, count in history.counts.items()))


if __name__ == "__main__":
    main(sys.argv[1:])
