#!/usr/bin/env python3
"""Does on a real kernel what a shell does, on a mount of `gcsmount serve` and in a local folder, and compares the two.

Usage: bench/kernel.py PROGRAM [FOLDER]    (PROGRAM: the built program; root, Linux and /dev/fuse are needed)

1. Each step of bench/kernel/steps is done in both folders, and must print the same and end with the same status, but for
   those that tell what a mount prints in place.
2. Shells beside one another: each must find what it wrote, and the folders must be equal at the end.
3. The mount comes off at an interrupt. What was recorded is served anew and played as a scenario: the replies must be
   equal, frame by frame.
4. The mount must come off, and no process stay, at each other end: other signals, umount, either program killed, a file
   held open, and 64 MiB of requests.

The record is kept in FOLDER, where one is told. Each fault is a line; the status is 1 where there is one.
"""
import os
import random
import shutil
import signal
import subprocess
import sys
import tempfile
import time
from pathlib import Path

REPOSITORY = Path(__file__).resolve().parent.parent
TOOLS, PROGRAMS = REPOSITORY / "tools", REPOSITORY / "bench" / "kernel"
PATIENCE = 60
SHELLS = (
    "for n in $(seq 60); do echo $n >> appended; done; wc -l < appended",
    "for n in $(seq 40); do echo $n > one && cat one && mv one moved$n; done",
    "for n in $(seq 40); do ls > listing && test -s listing || echo nothing; done",
    "for n in $(seq 30); do echo a >> shared; done",
    "for n in $(seq 30); do echo b >> shared; done",
)


class Mounted:
    """`tools/mount` on a folder, with the program that it started."""

    def __init__(self, folder, program, *words):
        command = [TOOLS / "mount", folder, "--program", program, *words]
        self.folder = folder
        self.tool = subprocess.Popen(command, stdout=subprocess.PIPE, stderr=subprocess.STDOUT, text=True)
        while not self.is_on():
            if self.tool.poll() is not None:
                sys.exit(self.tool.stdout.read())
            time.sleep(0.05)
        self.children = [int(number) for number in self.listed()]

    def listed(self):
        """The processes that the tool started: the program, and the keeper of the mount."""
        return Path(f"/proc/{self.tool.pid}/task/{self.tool.pid}/children").read_text(encoding="ascii").split()

    def is_on(self):
        """Whether the folder is mounted."""
        return any(line.split()[1] == str(self.folder) for line in open("/proc/mounts", encoding="ascii"))

    def program(self):
        """The process of the program."""
        return next(child for child in self.children if Path(f"/proc/{child}/comm").read_text() == "gcsmount\n")

    def left(self):
        """What is left of the mount in the end, in words; nothing where it is off and each process has ended."""
        until = time.monotonic() + PATIENCE
        while time.monotonic() < until:
            if self.tool.poll() is not None and not self.is_on() and not any(map(is_running, self.children)):
                return ""
            time.sleep(0.05)
        return f"status {self.tool.poll()}, mounted {self.is_on()}, running {list(filter(is_running, self.children))}"

    def end(self, number):
        """Ends the tool by a signal."""
        self.tool.send_signal(number)
        return self.left()


def is_running(process):
    """Whether a process runs still; one that nobody waited for has ended."""
    try:
        return Path(f"/proc/{process}/stat").read_text(encoding="utf-8").rsplit(")", 1)[1].split()[0] != "Z"
    except FileNotFoundError:
        return False


def read_steps():
    """Each step with what a mount prints in place, or none."""
    steps = []
    for line in (PROGRAMS / "steps").read_text(encoding="utf-8").splitlines():
        if line.startswith("$ "):
            steps.append((line[2:], None))
        elif line.startswith("! "):
            step, told = steps[-1]
            steps[-1] = (step, [*(told or ()), line[2:]])
    return steps


def run(step, folder, told):
    """What a step prints in a folder, by lines, and its status behind them."""
    command = ["bash", "-c", step]
    done = subprocess.run(command, cwd=folder, env=told, stdout=subprocess.PIPE, stderr=subprocess.STDOUT, check=False)
    return [*done.stdout.decode(errors="replace").splitlines(), str(done.returncode)]


def surroundings(base, elsewhere):
    """The variables that a step may name."""
    (base / elsewhere).mkdir()
    named = {"SOURCE": base, "REPOSITORY": REPOSITORY, "PROGRAMS": PROGRAMS, "ELSEWHERE": base / elsewhere}
    return {"PATH": os.environ["PATH"], "HOME": "/nowhere", "LC_ALL": "C.UTF-8", "TZ": "UTC", **named}


def compare(base, mount, local):
    """Does each step in both folders; gives the faults."""
    here, there = surroundings(base, "from_mount"), surroundings(base, "from_local")
    for step, told in read_steps():
        wanted = run(step, local, there)
        got = run(step, mount, here)
        if got != (told or wanted):
            yield f"$ {step}\n  wanted {told or wanted}\n  got    {got}"
        if told == wanted:
            yield f"$ {step}\n  is told to differ, and doesn't"


def beside(mount, local):
    """Runs the shells beside one another in each folder; gives the faults."""
    for folder in (local, mount):
        shells = [subprocess.Popen(["bash", "-c", shell], cwd=folder, stdout=subprocess.PIPE) for shell in SHELLS]
        printed = [shell.communicate(timeout=PATIENCE)[0] for shell in shells]
        wanted = [b"60\n", "".join(f"{n}\n" for n in range(1, 41)).encode(), b"", b"", b""]
        if printed != wanted or any(shell.returncode for shell in shells):
            yield f"shells in {folder}: {printed}, {[shell.returncode for shell in shells]}"
    (mount / "listing").unlink()
    (local / "listing").unlink()
    for name in sorted({*os.listdir(mount), *os.listdir(local)}):
        left, right = (sorted((folder / name).read_bytes().splitlines()) for folder in (mount, local))
        if left != right:
            yield f"shells: {name} differs"


def again(program, record):
    """Serves and plays what was recorded; gives the faults."""
    replies = Path(f"{record}.replies").read_bytes()
    with open(record, "rb") as requests:
        served = subprocess.run([program, "serve"], stdin=requests, stdout=subprocess.PIPE, check=True).stdout
    if served != replies:
        yield "the record, served anew, has other replies"
    scenario, history = f"{record}.json", f"{record}.history"
    for name, command, given in (
        (scenario, [TOOLS / "scenario", "--from-frames", record], os.devnull), (history, [program, "play"], scenario),
    ):
        with open(name, "wb") as made, open(given, "rb") as read:
            subprocess.run(command, stdin=read, stdout=made, check=True)
    with open(history, encoding="ascii") as lines:
        digits = [line.split()[2] for line in lines if line.startswith("reply ")]
    played = b"".join(bytes.fromhex(each) for each in digits if each != "none")
    if played != replies:
        yield "the record, played, has other replies"
    print(f"record: {len(digits)} requests, {os.path.getsize(record)} bytes, {len(replies)} bytes of replies")


def ends(program, mount):
    """Ends a mount in each way; gives the faults."""
    for number in (signal.SIGINT, signal.SIGTERM, signal.SIGHUP, signal.SIGKILL):
        yield signal.Signals(number).name, Mounted(mount, program).end(number)
    mounted = Mounted(mount, program)
    os.kill(mounted.program(), signal.SIGKILL)
    yield "the program is killed", mounted.left() or (mounted.tool.returncode != 1 and "the status isn't 1")
    mounted = Mounted(mount, program)
    subprocess.run(["umount", mount], check=True)
    yield "umount", mounted.left()
    mounted = Mounted(mount, program)
    with open(mount / "held", "wb", buffering=0) as held:
        held.write(b"held")
        yield "SIGINT, with a file held open", mounted.end(signal.SIGINT)
        try:
            held.write(b"more")
            yield "a held file", "is written still"
        except OSError:
            pass
        try:
            held.close()
        except OSError:
            pass
    mounted = Mounted(mount, program)
    try:
        for number in range(5):
            (mount / str(number)).write_bytes(bytes(16000000))
        yield "64 MiB", "are passed"
    except OSError:
        pass
    yield "64 MiB", mounted.left() or (mounted.tool.returncode != 1 and "the status isn't 1")


def main():
    """Does all, and tells the faults."""
    if len(sys.argv) not in (2, 3):
        sys.exit(__doc__)
    program, faults = Path(sys.argv[1]).resolve(), []
    with tempfile.TemporaryDirectory() as name:
        base = Path(name).resolve()
        mount, local, record = base / "mount", base / "local", base / "record"
        mount.mkdir()
        local.mkdir()
        (base / "ten").write_bytes(random.Random(0).randbytes(10 << 20))
        mounted = Mounted(mount, program, "--record", record)
        try:
            faults += compare(base, mount, local)
            faults += beside(mount, local)
        finally:
            left = mounted.end(signal.SIGINT)
        faults += [f"SIGINT: {left}"] if left else []
        faults += again(program, record)
        if len(sys.argv) == 3:
            for kept in base.glob("record*"):
                shutil.copy(kept, sys.argv[2])
        faults += [f"{how}: {what}" for how, what in ends(program, mount) if what]
    print(*faults, sep="\n")
    print(f"{len(read_steps())} steps, {len(faults)} faults")
    return 1 if faults else 0


if __name__ == "__main__":
    sys.exit(main())
