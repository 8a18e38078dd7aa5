#!/usr/bin/env python3
"""Times `gcsmount serve` on streams of request frames, beside `cat` on the same bytes.

Usage: bench/serve.py PROGRAM [RUNS]    (PROGRAM: the built program, as crates/gcsmount/out/gcsmount)

For each stream, and for one of half as many frames, it prints the least time of RUNS runs (default 5), the frames a
second, and the ratio to `cat` of the same bytes into a file; then the ratio of the whole stream to the half, and the most
memory that the program held over the whole. Bytes are those of the stream, or of the replies where these are more. At
last it prints the most memory that the program held while one file was flushed few times and many times.
"""
import os
import struct
import subprocess
import sys
import tempfile
import time

LOOKUP, GETATTR, MKDIR, UNLINK, RMDIR, RENAME = 1, 3, 9, 10, 11, 12
OPEN, READ, WRITE, STATFS, RELEASE = 14, 15, 16, 17, 18
FLUSH, INIT, OPENDIR, READDIR, CREATE = 25, 26, 27, 28, 35
LONGEST_WRITE = 131072
LONGEST_READ = 1048576
LAST = 0x4C415354


def frame(opcode, unique, node, body=b""):
    return struct.pack("<IIQQIIII", 40 + len(body), opcode, unique, node, 0, 0, 0, 0) + body


def init():
    return frame(INIT, 1, 0, struct.pack("<IIII", 7, 31, 131072, 0xFFFFFFFF))


def statfs_stream(count):
    return init() + b"".join(frame(STATFS, 2 + n, 1) for n in range(count))


def create(unique, name, directory=1):
    return frame(CREATE, unique, directory, struct.pack("<IIII", 0, 0o100644, 0, 0) + name + b"\0")


def mkdir(unique, name):
    return frame(MKDIR, unique, 1, struct.pack("<II", 0o755, 0) + name + b"\0")


def unlink(unique, name, directory=1):
    return frame(UNLINK, unique, directory, name + b"\0")


def rename(unique, name, newname, directory=1):
    return frame(RENAME, unique, directory, struct.pack("<Q", directory) + name + b"\0" + newname + b"\0")


def create_stream(count):
    return init() + b"".join(create(2 + n, b"f%d" % n) for n in range(count))


def lookup_stream(count):
    return init() + create(2, b"f") + b"".join(frame(LOOKUP, 3 + n, 1, b"f\0") for n in range(count))


def getattr_stream(count):
    return init() + create(2, b"f") + b"".join(frame(GETATTR, 3 + n, 2, bytes(16)) for n in range(count))


def open_stream(count):
    """Opens a file and releases the handle, so many times."""
    opened = struct.pack("<II", 0, 0)
    pairs = (
        frame(OPEN, 3 + 2 * n, 2, opened) + frame(RELEASE, 4 + 2 * n, 2, struct.pack("<QIIQ", 2 + n, 0, 0, 0))
        for n in range(count // 2)
    )
    return init() + create(2, b"f") + b"".join(pairs)


def metadata_stream(count):
    """Makes a file, looks it up, asks for its attributes and removes it, again and again."""
    files = (
        create(2, b"f") + frame(LOOKUP, 3, 1, b"f\0") + frame(GETATTR, 4, 2 + n, bytes(16)) + unlink(5, b"f")
        for n in range(count // 4)
    )
    return init() + b"".join(files)


def rename_stream(count):
    """Makes so many files, and then renames each."""
    names = [b"%d" % n for n in range(count // 2)]
    return init() + b"".join(create(2, b"f" + n) for n in names) + b"".join(rename(3, b"f" + n, b"g" + n) for n in names)


def directory_stream(count):
    """Makes a directory, makes, renames and removes files in it, and removes it."""
    names = [b"%d" % n for n in range(count // 3)]
    made = b"".join(create(3, b"f" + n, 2) for n in names)
    renamed = b"".join(rename(4, b"f" + n, b"g" + n, 2) for n in names)
    removed = b"".join(unlink(5, b"g" + n, 2) for n in names)
    return init() + mkdir(2, b"d") + made + renamed + removed + frame(RMDIR, 6, 1, b"d\0")


def listing_stream(count):
    """Makes so many files, opens their directory and reads it whole, 4,096 bytes at a time (128 entries)."""
    opened = frame(OPENDIR, 2 + count, 1, struct.pack("<II", 0, 0))
    places = (struct.pack("<QQIIQII", 1 + count, place, 4096, 0, 0, 0, 0) for place in range(0, count, 128))
    return create_stream(count) + opened + b"".join(frame(READDIR, 3 + count + n, 1, at) for n, at in enumerate(places))


def read(unique, node, handle, first, size):
    return frame(READ, unique, node, struct.pack("<QQIIQII", handle, first, size, 0, 0, 0, 0))


def write(unique, node, handle, first, content):
    return frame(WRITE, unique, node, struct.pack("<QQIIQII", handle, first, len(content), 0, 0, 0, 0) + content)


def flush(unique, node, handle):
    return frame(FLUSH, unique, node, struct.pack("<QIIQ", handle, 0, 0, 0))


def filled(node, handle, size):
    """Writes so many bytes, one frame behind the other, and flushes them."""
    content = b"a" * LONGEST_WRITE
    places = range(0, size, LONGEST_WRITE)
    return b"".join(write(2, node, handle, place, content) for place in places) + flush(3, node, handle)


def write_stream(count):
    """Writes files of 15 MiB, each flushed when it is whole."""
    files = range(count // 120)
    return init() + b"".join(create(2, b"f%d" % n) + filled(2 + n, 1 + n, 15 << 20) for n in files)


def read_stream(count, size=LONGEST_READ):
    """Reads one file of 16 MiB, so many bytes at a time, over and over."""
    places = (n * size % (1 << 24) for n in range(count))
    reads = (read(4, 2, 1, place, size) for place in places)
    return init() + create(2, b"f") + filled(2, 1, 1 << 24) + b"".join(reads)


def small_read_stream(count):
    """Reads one file of 16 MiB, 4 KiB at a time, over and over."""
    return read_stream(count, 4096)


def small_file_stream(count):
    """Makes so many files, and writes 4 KiB into each and flushes it."""
    content = b"a" * 4096
    files = (create(2, b"f%d" % n) + write(3, 2 + n, 1 + n, 0, content) + flush(4, 2 + n, 1 + n) for n in range(count))
    return init() + b"".join(files)


def flush_stream(count):
    """Writes one byte of a file of 1 MiB and flushes it, so many times."""
    pairs = (write(4, 2, 1, n, b"b") + flush(5, 2, 1) for n in range(count))
    return init() + create(2, b"f") + filled(2, 1, 1 << 20) + b"".join(pairs)


def least(words, path, runs):
    best = None
    for _ in range(runs):
        with open(path, "rb") as stream, tempfile.TemporaryFile() as out:
            start = time.perf_counter()
            subprocess.run(words, stdin=stream, stdout=out, check=True)
            spent = time.perf_counter() - start
        best = spent if best is None or spent < best else best
    return best


def copied(stream, program, runs):
    """The time that `cat` takes for the stream, or for its replies where these are more."""
    with tempfile.NamedTemporaryFile() as replies:
        with open(stream, "rb") as frames:
            subprocess.run([program, "serve"], stdin=frames, stdout=replies, check=True)
        longer = max(stream, replies.name, key=os.path.getsize)
        return least(["cat"], longer, runs)


def frames_in(stream):
    """How many frames a stream has."""
    place, frames = 0, 0
    while place < len(stream):
        place += struct.unpack_from("<I", stream, place)[0]
        frames += 1
    return frames


def measure(name, make, count, program, runs):
    times = []
    for number in (count // 2, count):
        made = make(number)
        with tempfile.NamedTemporaryFile() as stream:
            stream.write(made)
            stream.flush()
            served = least([program, "serve"], stream.name, runs)
            ratio = served / copied(stream.name, program, runs)
        times.append(served)
        print(f"{name}, {number}: {served:.3f} s, {frames_in(made) / served:,.0f} frames a second, {ratio:.1f} times cat")
    print(f"{name}: twice as many take {times[1] / times[0]:.2f} times as long")
    most_memory(name, make, count, program)


def held(pid):
    """The most memory that a process has held so far, in kB."""
    with open(f"/proc/{pid}/status") as status:
        return next(int(line.split()[1]) for line in status if line.startswith("VmHWM:"))


def most_memory(name, make, count, program):
    """Prints the most memory that the program held over a stream, read once its last reply is there."""
    with tempfile.TemporaryFile() as replies:
        served = subprocess.Popen([program, "serve"], stdin=subprocess.PIPE, stdout=replies)
        served.stdin.write(make(count) + frame(STATFS, LAST, 1))
        served.stdin.flush()
        while struct.pack("<Q", LAST) not in os.pread(replies.fileno(), 96, max(0, os.fstat(replies.fileno()).st_size - 96)):
            time.sleep(0.01)
        print(f"{name}, {count}: {held(served.pid)} kB at most")
        served.communicate()


def main():
    program = sys.argv[1]
    runs = int(sys.argv[2]) if len(sys.argv) > 2 else 5
    measure("STATFS", statfs_stream, 500_000, program, runs)
    measure("WRITE of 128 KiB, a FLUSH each 15 MiB", write_stream, 480, program, runs)
    measure("READ of 1 MiB", read_stream, 1024, program, runs)
    measure("READ of 4 KiB", small_read_stream, 50_000, program, runs)
    measure("CREATE, WRITE of 4 KiB and FLUSH", small_file_stream, 15_000, program, runs)
    measure("LOOKUP", lookup_stream, 200_000, program, runs)
    measure("GETATTR", getattr_stream, 200_000, program, runs)
    measure("OPEN and RELEASE", open_stream, 200_000, program, runs)
    measure("CREATE", create_stream, 200_000, program, runs)
    measure("CREATE, LOOKUP, GETATTR and UNLINK", metadata_stream, 200_000, program, runs)
    measure("CREATE, then RENAME", rename_stream, 200_000, program, runs)
    measure("MKDIR, then CREATE, RENAME and UNLINK in it, then RMDIR", directory_stream, 150_000, program, runs)
    measure("CREATE, OPENDIR and READDIR", listing_stream, 20_000, program, runs)
    for flushes in (10, 10_000):
        most_memory("FLUSH of 1 MiB", flush_stream, flushes, program)


if __name__ == "__main__":
    main()
