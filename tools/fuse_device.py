"""Mounts a directory by /dev/fuse, as root by mount(2) and else by fusermount3, and takes the mount off again."""
import ctypes
import os
import shutil
import signal
import socket
import subprocess

DEVICE = "/dev/fuse"
NAME = "gcsmount"
NO_SET_UID, NO_DEVICES = 2, 4           # MS_NOSUID and MS_NODEV of sys/mount.h
DETACH, NO_FOLLOW = 2, 8                # MNT_DETACH and UMOUNT_NOFOLLOW
ROOT_MODE = "40000"                     # a directory, in octal digits
LIBRARY = ctypes.CDLL(None, use_errno=True)


class Unmountable(Exception):
    """Why nothing can be mounted here."""


def by_kernel(directory):
    """Mounts by mount(2), for all users; gives the device's descriptor."""
    device = os.open(DEVICE, os.O_RDWR)
    options = f"fd={device},rootmode={ROOT_MODE},user_id={os.getuid()},group_id={os.getgid()},allow_other"
    words = (NAME.encode(), os.fsencode(directory), f"fuse.{NAME}".encode())
    if LIBRARY.mount(*words, ctypes.c_ulong(NO_SET_UID | NO_DEVICES), options.encode()):
        raise Unmountable(f"mount(2) of {directory}: {os.strerror(ctypes.get_errno())}")
    return device


def by_helper(directory):
    """Mounts by fusermount3, which hands the device's descriptor over a socket, for this user alone."""
    ours, theirs = socket.socketpair()
    words = ["fusermount3", "-o", f"fsname={NAME},subtype={NAME}", "--", directory]
    with ours, theirs:
        told = {**os.environ, "_FUSE_COMMFD": str(theirs.fileno())}
        if subprocess.run(words, env=told, pass_fds=[theirs.fileno()]).returncode:
            raise Unmountable("fusermount3 refused")
        return socket.recv_fds(ours, 1, 1)[1][0]


def is_root():
    """Whether this process may call mount(2) itself."""
    return os.geteuid() == 0


def mount(directory):
    """Mounts a directory; gives the descriptor from which requests are read and to which replies are written."""
    return by_kernel(directory) if is_root() else by_helper(directory)


def take_off(directory):
    """Takes the mount off, also where files on it are open still; says nothing where there is none."""
    if is_root():
        LIBRARY.umount2(os.fsencode(directory), DETACH | NO_FOLLOW)
    else:
        subprocess.run(["fusermount3", "-u", "-z", "-q", "--", directory], stderr=subprocess.DEVNULL)


def need_fuse():
    """Refuses a machine on which nothing can be mounted."""
    if not os.path.exists(DEVICE):
        raise Unmountable(f"this machine has no {DEVICE} (try: modprobe fuse)")
    if not is_root() and shutil.which("fusermount3") is None:
        raise Unmountable("mounting needs root, or the program fusermount3 of the package fuse3")


class Keeper:
    """A process of its own that takes the mount off when it is told to, and when the process that mounted is gone."""

    MOUNTED, GONE = b"m", b"g"

    def __init__(self, directory):
        heard, self.told = os.pipe()
        self.process = os.fork()
        if self.process == 0:
            os.close(self.told)
            self.keep(heard, directory)
            os._exit(0)
        os.close(heard)

    def keep(self, heard, directory):
        """What the process does: it hears whether there is a mount, and then waits for word of its end."""
        os.setsid()
        for number in (signal.SIGINT, signal.SIGTERM, signal.SIGHUP):
            signal.signal(number, signal.SIG_IGN)
        if os.read(heard, 1) == self.MOUNTED and os.read(heard, 1) != self.GONE:
            take_off(directory)

    def tell(self, word):
        """Tells that the mount stands, or that it is gone already."""
        os.write(self.told, word)

    def start(self):
        """Lets the keeper take the mount off; it may need replies for that."""
        if self.told is not None:
            os.close(self.told)
            self.told = None

    def wait(self):
        """Waits until the mount is off."""
        self.start()
        os.waitpid(self.process, 0)
