#!/usr/bin/env python3
"""Measures staged content, and tries it against plain lists.

Usage: bench/staging.py times [ROUNDS]    bytes a second of staged writes, beside plain copies of the same bytes
       bench/staging.py memory            resident memory before and after a pool of 1,024 blocks is made and written
       bench/staging.py random [SEED]     random operations on three files, by `rt try`, against plain lists

The programs' sources stand in bench/staging/, each with `.txt` behind its name. They are copied with the crates that they
use into a folder of their own, FOLDER in the environment or a new one, where `times` and `memory` prove and build one. It
stays there for the next call.
"""
import os
import shutil
import subprocess
import sys
import tempfile
from pathlib import Path

TOP = Path(__file__).resolve().parent.parent
SOURCES = TOP / "bench" / "staging"
LINES = """io_ports:
staging_spec:
block_pool: io_ports staging_spec
staged_file: io_ports staging_spec block_pool
staging_bench: io_ports staging_spec block_pool staged_file
"""
CONTENT = 16 << 20


def folder():
    """A repository of the crates that are measured, and of the program."""
    top = Path(os.environ.get("FOLDER") or tempfile.mkdtemp(prefix="staging-"))
    top.mkdir(parents=True, exist_ok=True)
    if not (top / "crates.txt").exists():
        subprocess.run(["git", "init", "-q"], cwd=top, check=True)
        (top / "crates.txt").write_text(LINES)
        shutil.copy(TOP / "HANDLES", top / "HANDLES")
    for line in LINES.splitlines():
        name = line.split(":")[0]
        if name != "staging_bench":
            for part in ("src", "specs", "proofs"):
                copy(TOP / "crates" / name / part, top / "crates" / name / part, "")
    for part in ("src", "specs", "proofs"):
        copy(SOURCES / part, top / "crates" / "staging_bench" / part, ".txt")
    return top


def copy(source, target, ending):
    """Copies a folder's files, without an ending of their names; those that are the same stay as they are."""
    for path in sorted(p for p in source.rglob("*") if p.is_file()):
        to = target / str(path.relative_to(source)).removesuffix(ending)
        to.parent.mkdir(parents=True, exist_ok=True)
        if not to.exists() or to.read_bytes() != path.read_bytes():
            shutil.copy(path, to)


def program():
    top = folder()
    crate = top / "crates" / "staging_bench"
    print(f"in {crate}", file=sys.stderr)
    subprocess.run(["rt", "run", "--jobs", "1", "--", "copied", "1"], cwd=crate, check=True, stdout=subprocess.DEVNULL)
    return crate / "out" / "staging_bench"


def nanoseconds(built, way, rounds):
    """The time of one run, which moves a content so often."""
    out = subprocess.run([built, way, str(rounds)], capture_output=True, text=True, check=True).stdout
    spent, last = out.split(None, 1)
    if last.strip() != "Some(97)":
        sys.exit(f"{way}: {out}")
    return int(spent)


def times(rounds):
    """Runs each way in turn, nine times, and prints the least time of each."""
    built = program()
    pairs = {"fresh": "grown", "written": "copied", "rewritten": "copied"}
    ways = ["grown", "fresh", "copied", "written", "rewritten"]
    runs = [{way: nanoseconds(built, way, rounds) for way in ways} for _ in range(9)]
    took = {way: min(run[way] for run in runs) / rounds / 1e9 for way in ways}
    for way, spent in took.items():
        times_plain = f", {spent / took[pairs[way]]:.2f} times {pairs[way]}" if way in pairs else ""
        print(f"{way}: {CONTENT / spent / 1e9:.2f} GB a second{times_plain}")


def memory():
    built = program()
    for words in (["pool", "1024", "0"], ["pool", "1024", "1024"]):
        print(" ".join(words))
        print(subprocess.run([built, *words], capture_output=True, text=True, check=True).stdout)


def random(seed):
    top = folder()
    crate = top / "crates" / "staged_file"
    text = (SOURCES / "random.rt.txt").read_text().replace("SEED", seed)
    (crate / "src" / "tests.rt").write_text(text)
    done = subprocess.run(["rt", "try", "--test", "--seconds", "1500"], cwd=crate, capture_output=True, text=True)
    shutil.copy(TOP / "crates" / "staged_file" / "src" / "tests.rt", crate / "src" / "tests.rt")
    print(done.stdout + done.stderr)


def main():
    words = sys.argv[1:]
    if words[:1] == ["times"]:
        times(int(words[1]) if words[1:] else 50)
    elif words == ["memory"]:
        memory()
    elif words[:1] == ["random"]:
        random(words[1] if words[1:] else "1")
    else:
        sys.exit(__doc__)


main()
