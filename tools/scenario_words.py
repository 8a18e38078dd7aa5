"""Reads one line of a scenario into words: names, numbers, texts in quotes, and `key=value`."""
import re
from typing import NamedTuple

WORD = re.compile(
    r'(?:(?P<key>[^\s"=#]+)=)?'
    r'(?:"(?P<quoted>(?:[^"\\]|\\.)*)"|(?P<bare>[^\s"#*]+))'
    r"(?:\*(?P<times>[0-9]+))?(?=\s|$)"
)
BLANK = re.compile(r"\s*(#.*)?")
ESCAPE = re.compile(rb"\\(x[0-9a-fA-F]{2}|.)")
LETTERS = {b"n": b"\n", b"r": b"\r", b"t": b"\t", b"0": b"\0"}
HEX = "hex:"


class LineFault(ValueError):
    """What is at fault in a line."""


class Word(NamedTuple):
    """A word: its key or none, as it is written, and the bytes that it stands for."""

    key: str
    text: str
    data: bytes


def unescaped(found):
    """The bytes that an escape stands for."""
    letter = found.group(1)
    return bytes.fromhex(letter[1:].decode()) if len(letter) == 3 else LETTERS.get(letter, letter)


def word_of(found):
    """The word that was found in a line."""
    key, quoted, bare, times = found.group("key", "quoted", "bare", "times")
    if quoted is not None:
        data = ESCAPE.sub(unescaped, quoted.encode())
        text = data.decode("utf-8", "surrogateescape")
    elif bare.startswith(HEX):
        text = bare
        try:
            data = bytes.fromhex(bare[len(HEX):])
        except ValueError:
            raise LineFault(f"`{bare}` has other letters than pairs of hexadecimal digits") from None
    else:
        text, data = bare, bare.encode()
    return Word(key or "", text, data * int(times or 1))


def words_of(line):
    """The words of a line, up to its comment."""
    line = line.strip()
    words, at = [], BLANK.match(line).end()
    while at < len(line):
        found = WORD.match(line, at)
        if not found:
            raise LineFault(f"no word begins at `{line[at:at + 20].rstrip()}`")
        words.append(word_of(found))
        at = BLANK.match(line, found.end()).end()
    return words


def number(word, most, least=0):
    """The number that a word is, within its range."""
    try:
        value = int(word.text, 0)
    except ValueError:
        raise LineFault(f"`{word.text}` is no number") from None
    if not least <= value <= most:
        raise LineFault(f"{value} isn't {least} to {most}")
    return value
