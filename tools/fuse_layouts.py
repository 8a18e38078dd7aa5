"""The layouts of the Linux FUSE protocol 7.31 that `gcsmount serve` reads and writes, after include/uapi/linux/fuse.h.

A row of REQUESTS has the opcode, the name, the kind of the reply, the operands of a call as they are written and shown,
and the fields of the body. A field is `name:kind` or `name:kind=default`; `-` is padding. Kinds of fields:

  u16 u32 u64   a number, little-endian          node fh   a u64 that names a node or a handle
  len           a u32, how long the last field is          name      bytes, and a zero byte behind them
  bytes         so many bytes as `len` says                pairs     so many times a node and a u64
  text          all bytes that are left                    more      bytes of later versions, which nobody looks at
  dirents       entries of a directory, up to the end

Operands beside fields: `node`, the node of the head; `handle`, the node of the head and the field `fh`; `set`, the fields
that `valid` names.
"""
import struct
from typing import NamedTuple

REQUEST_HEAD = struct.Struct("<IIQQIIII")
REPLY_HEAD = struct.Struct("<IiQ")
LEAST_REQUEST, MOST_REQUEST = 40, 135168

READING = "fh:fh offset:u64 size:u32 read_flags:u32 lock_owner:u64 flags:u32 -:u32"
RELEASING = "fh:fh flags:u32 release_flags:u32 lock_owner:u64"
SYNCING = "fh:fh flags:u32 -:u32"
OFFERING = "major:u32=7 minor:u32=31 readahead:u32=131072 flags:u32=0xffffffff"
SETTING = (
    "valid:u32 -:u32 fh:fh size:u64 lock_owner:u64 atime:u64 mtime:u64 ctime:u64 "
    "atimensec:u32 mtimensec:u32 ctimensec:u32 mode:u32 -:u32 owner:u32 group:u32 -:u32"
)
REQUESTS = f"""
 1 LOOKUP       entry    node name             | name:name
 2 FORGET       silent   node count            | count:u64
 3 GETATTR      attr     node                  | flags:u32 -:u32 fh:fh
 4 SETATTR      attr     node set              | {SETTING}
 5 READLINK     text     node                  |
 6 SYMLINK      entry    node name target      | name:name target:name
 8 MKNOD        entry    node name             | mode:u32 rdev:u32 umask:u32 -:u32 name:name
 9 MKDIR        entry    node name             | mode:u32 umask:u32 name:name
10 UNLINK       empty    node name             | name:name
11 RMDIR        empty    node name             | name:name
12 RENAME       empty    node name newdir new  | newdir:node name:name new:name
14 OPEN         opened   node                  | flags:u32 -:u32
15 READ         text     handle offset size    | {READING}
16 WRITE        written  handle offset content | {READING.replace("size:u32", "size:len")} content:bytes
17 STATFS       statfs                         |
18 RELEASE      empty    handle                | {RELEASING}
20 FSYNC        empty    handle                | {SYNCING}
25 FLUSH        empty    handle                | fh:fh -:u32 -:u32 lock_owner:u64
26 INIT         init                           | {OFFERING} more:more
27 OPENDIR      opened   node                  | flags:u32 -:u32
28 READDIR      dirents  handle offset size    | {READING}
29 RELEASEDIR   empty    handle                | {RELEASING}
30 FSYNCDIR     empty    handle                | {SYNCING}
35 CREATE       created  node name             | flags:u32 mode:u32 umask:u32 -:u32 name:name
36 INTERRUPT    silent   asked                 | asked:u64
38 DESTROY      empty                          |
42 BATCH_FORGET silent   pairs                 | count:len -:u32 pairs:pairs
45 RENAME2      empty    node name newdir new  | newdir:node flags:u32 -:u32 name:name new:name
"""

# Requests that are answered ENOSYS, by their names.
UNSERVED = {
    13: "LINK", 21: "SETXATTR", 22: "GETXATTR", 23: "LISTXATTR", 24: "REMOVEXATTR", 31: "GETLK", 32: "SETLK",
    33: "SETLKW", 34: "ACCESS", 37: "BMAP", 39: "IOCTL", 40: "POLL", 41: "NOTIFY_REPLY", 43: "FALLOCATE",
    44: "READDIRPLUS", 46: "LSEEK", 47: "COPY_FILE_RANGE", 50: "SYNCFS", 51: "TMPFILE", 52: "STATX",
    53: "COPY_FILE_RANGE_64",
}

ATTR = (
    "ino:u64 size:u64 blocks:u64 atime:u64 mtime:u64 ctime:u64 atimensec:u32 mtimensec:u32 ctimensec:u32 "
    "mode:u32 nlink:u32 uid:u32 gid:u32 rdev:u32 blksize:u32 -:u32"
)
ENTRY = f"node:node generation:u64 entry_valid:u64 attr_valid:u64 entry_nsec:u32 attr_nsec:u32 {ATTR}"
OPENED = "fh:fh open_flags:u32 -:u32"
AGREED = "major:u32 minor:u32 readahead:u32 flags:u32 background:u16 congestion:u16 write:u32 gran:u32 pages:u16 map:u16"
REPLIES = f"""
entry   | {ENTRY}
attr    | attr_valid:u64 attr_nsec:u32 -:u32 {ATTR}
created | {ENTRY} {OPENED}
opened  | {OPENED}
text    | text:text
dirents | entries:dirents
written | size:u32 -:u32
statfs  | blocks:u64 bfree:u64 bavail:u64 files:u64 ffree:u64 bsize:u32 namelen:u32 frsize:u32 {"-:u32 " * 7}
init    | {AGREED} {"-:u32 " * 8}
empty   |
"""
DIRENT = "ino:u64 off:u64 size:len type:u32 name:bytes"

# What SETATTR sets, by the bits of `valid`; the two last take the moment of the call in place of a field's.
SET_BITS = {"mode": 1, "owner": 2, "group": 4, "size": 8, "atime": 16, "mtime": 32, "ctime": 1024}
NOW_BITS = {"atime": 128, "mtime": 256}
INIT_FLAGS = {1: "ASYNC_READ", 0x20: "BIG_WRITES", 0x40000: "PARALLEL_DIROPS"}
NUMBERS = {"u16": 2, "u32": 4, "len": 4, "u64": 8, "node": 8, "fh": 8}


class Field(NamedTuple):
    """One field of a layout, and the number that it has where nobody says one."""

    name: str
    kind: str
    default: int


class Request(NamedTuple):
    """One row of the table of requests."""

    opcode: int
    name: str
    reply: str
    operands: list
    fields: list


def fields_of(text):
    """The fields that a layout's text lists."""
    fields = []
    for word in text.split():
        name, kind = word.split(":")
        kind, _, default = kind.partition("=")
        fields.append(Field(name, kind, int(default or "0", 0)))
    return fields


def request_of(line):
    """The row that a line of the table of requests is."""
    front, body = line.split("|")
    opcode, name, reply, *operands = front.split()
    return Request(int(opcode), name, reply, operands, fields_of(body))


BY_OPCODE = {row.opcode: row for row in map(request_of, REQUESTS.strip().splitlines())}
BY_NAME = {row.name.lower(): row for row in BY_OPCODE.values()}
REPLY_FIELDS = {kind.strip(): fields_of(body) for kind, body in (row.split("|") for row in REPLIES.strip().splitlines())}
DIRENT_FIELDS = fields_of(DIRENT)
