#!/usr/bin/env python3
"""Times `gcsmount play` on scenarios of one lane, beside `gcsmount serve` on the same frames.

Usage: bench/play.py PROGRAM [RUNS]    (PROGRAM: the built program, as crates/gcsmount/out/gcsmount)

For each kind of work, and for half as many calls, it prints the least time of RUNS runs (default 5) of `play` and of
`serve`, their ratio, the ratio of the whole to the half, and the most memory that `play` held over the whole, beside the
length of the scenario's text. A scenario has at most 65,536 calls, and a text at most 64 MiB.
"""
import json
import os
import subprocess
import sys
import tempfile

from serve import create, directory_stream, flush, init, least, metadata_stream, rename_stream, write

CALLS = 60000


def small_file_stream(count):
    """Makes a file, writes 256 bytes into it and flushes it, again and again."""
    content = b"a" * 256
    files = (create(2, b"f%d" % n) + write(3, 2 + n, 1 + n, 0, content) + flush(4, 2 + n, 1 + n) for n in range(count // 3))
    return init() + b"".join(files)


def frames_of(stream):
    place = 0
    while place < len(stream):
        length = int.from_bytes(stream[place:place + 4], "little")
        yield stream[place:place + length]
        place += length


def scenario_of(stream):
    calls = [{"frame": frame.hex()} for frame in frames_of(stream)]
    return json.dumps({"phases": [[{"calls": calls}]]}, separators=(",", ":")).encode()


def main():
    if len(sys.argv) < 2:
        sys.exit(__doc__)
    program, runs = sys.argv[1], int(sys.argv[2]) if len(sys.argv) > 2 else 5
    kinds = (
        ("metadata", metadata_stream),
        ("create and rename", rename_stream),
        ("a directory's files", directory_stream),
        ("small files", small_file_stream),
    )
    for name, make in kinds:
        report(program, runs, name, make)


def timed(program, word, text, runs):
    """The least time of so many runs."""
    with tempfile.NamedTemporaryFile() as given:
        given.write(text)
        given.flush()
        return least([program, word], given.name, runs)


def most_memory(program, text):
    """The most memory that `play` held, in bytes."""
    with tempfile.TemporaryFile() as given:
        given.write(text)
        given.seek(0)
        played = subprocess.Popen([program, "play"], stdin=given, stdout=subprocess.DEVNULL)
        return os.wait4(played.pid, 0)[2].ru_maxrss * 1024


def report(program, runs, name, make):
    half, whole = make(CALLS // 2), make(CALLS)
    text = scenario_of(whole)
    played = timed(program, "play", text, runs)
    before = timed(program, "play", scenario_of(half), runs)
    served = timed(program, "serve", whole, runs)
    print(
        f"{name}: {CALLS} calls, play {played:.3f} s, serve {served:.3f} s, {played / served:.2f} times;"
        f" twice as many {played / before:.2f}; text {len(text) / 1e6:.1f} MB, memory {most_memory(program, text) / 1e6:.1f} MB"
    )


if __name__ == "__main__":
    main()
