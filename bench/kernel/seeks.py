"""Seeks, truncates, syncs and maps files of the current folder, and prints what it then reads."""
import mmap
import os
import tempfile
import zlib


def main():
    """Does each in turn."""
    with open("seeks", "w+b") as file:
        file.seek(300000)
        file.write(b"end")
        file.seek(65530)
        file.write(b"across a block")
        file.truncate(200000)
        file.seek(0, os.SEEK_END)
        print("length", file.tell())
        file.write(b"tail")
        file.flush()
        os.fsync(file.fileno())
        file.seek(0)
        print("sum", zlib.crc32(file.read()))
        file.truncate(65536)
        file.truncate(65600)
        print("behind a cut", os.pread(file.fileno(), 80, 65525))
    with open("seeks", "r+b") as file, mmap.mmap(file.fileno(), 0) as mapped:
        mapped[10:16] = b"mapped"
        mapped.flush()
        print("mapped", mapped[:20])
    with open("seeks", "rb") as file:
        print("read", file.read(20), os.fstat(file.fileno()).st_size)
    with open("seeks", "ab", buffering=0) as first, open("seeks", "ab", buffering=0) as second:
        for turn in range(4):
            (first, second)[turn % 2].write(b"%d" % turn)
    print("appended", os.stat("seeks").st_size, open("seeks", "rb").read()[-4:])
    with tempfile.NamedTemporaryFile(dir=".", delete=False) as file:
        file.write(b"whole")
    os.replace(file.name, "seeks")
    print("replaced", open("seeks", "rb").read(), os.listdir().count("seeks"))
    os.unlink("seeks")
    for name, flags in (("seeks", os.O_RDONLY), ("seeks", os.O_CREAT | os.O_EXCL), ("seeks", os.O_CREAT | os.O_EXCL)):
        try:
            os.close(os.open(name, flags))
            print("opened")
        except OSError as fault:
            print(fault.strerror)
    os.unlink("seeks")


if __name__ == "__main__":
    main()
