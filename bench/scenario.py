#!/usr/bin/env python3
"""Times `Scenario::read` on long scenarios, beside Python's `json.loads` on the same texts.

Usage: bench/scenario.py CLONE [RUNS]    (CLONE: a copy of this repository in which `scenario` is proved)

It adds the small program below to the copy as a crate of its own, builds it with `rt run`, and gives it scenarios of
16 and 32 MiB of several shapes. For each it prints the least processor time of RUNS runs (default 5), the ratio to
`json.loads`, the most memory that the process held as a ratio to the text, and the ratio of the whole text to the half.
The program's time is that of its whole process, so taking the file is in it. For objects with a name alone it prints also
what their bucket holds by itself, made without any JSON, and what the JSON value of their text holds.
"""
import json
import os
import struct
import subprocess
import sys
import tempfile
import time

PROGRAM = '''//! Reads the scenarios in the files that are named, and prints of each what reading told.
#![tactic(auto)]

use scenario::{Scenario, ScenarioFault};
use std::{env, fs, io};

fn main(rt: HostRuntime) -> io::Result<()> {
    for path in env::args(&rt)?.skip(1) {
        tell(&rt, path.as_str())?;
    }
    Ok(())
}

/// Reads one file.
fn tell(rt: &HostRuntime, path: &str) -> io::Result<()> {
    let bytes = fs::read(rt, path)?;
    match Scenario::read(rt.alloc(), bytes.as_slice()) {
        Ok(_) => println!(rt; "read"),
        Err(ScenarioFault::NoMemory) => println!(rt; "memory"),
        Err(ScenarioFault::Bad { number, place }) => {
            let place = place.as_str();
            println!(rt; "{number} {place}")
        }
    }
}
'''

HOLDING = '''//! Holds what a number or a path stands for: a bucket's objects with a name alone, so many; the JSON value of a file.
#![tactic(auto)]

use bucket_api::{Meta, Object};
use io_ports::{Bytes, NoMemory, Row, Text};
use serde_json::Value;
use std::alloc::Global;
use std::collections::BTreeMap;
use std::{env, fs, io};

fn main(rt: HostRuntime) -> io::Result<()> {
    for word in env::args(&rt)?.skip(1) {
        hold(&rt, word.as_str())?;
    }
    Ok(())
}

/// Holds what the word stands for, and tells whether there was memory for it.
fn hold(rt: &HostRuntime, word: &str) -> io::Result<()> {
    if let Ok(count) = word.parse::<u64>() {
        let objects = objects(rt.alloc(), count);
        return println!(rt; "{}", objects.is_ok());
    }
    let bytes = fs::read(rt, word)?;
    let value = Value::from_slice(rt.alloc(), bytes.as_slice());
    println!(rt; "{}", value.is_ok())
}

/// So many objects by their names.
fn objects(alloc: Global, count: u64) -> Result<BTreeMap<Text, Object>, NoMemory> {
    let mut objects = BTreeMap::new(alloc);
    for number in 0..count {
        let name = name(alloc, number)?;
        let object = object(alloc, &name, number)?;
        objects.insert(name, object)?;
    }
    Ok(objects)
}

/// A name.
fn name(alloc: Global, number: u64) -> Result<Text, NoMemory> {
    let name = format!(in alloc; "object {number:06}")?;
    Text::of(alloc, name.as_str())
}

/// An object with this name alone.
fn object(alloc: Global, name: &Text, number: u64) -> Result<Object, NoMemory> {
    let meta = Meta {
        name: name.copy(alloc)?,
        generation: number,
        metageneration: 1,
        size: 0,
        updated: 0,
        pairs: Row::new(alloc),
    };
    Ok(Object {
        meta,
        content: Bytes::from_vec(Vec::new(alloc)),
    })
}
'''

MIB = 1 << 20


def write_frame(content):
    size = 80 + len(content)
    body = struct.pack("<QQIIQII", 1, 0, len(content), 0, 0, 0, 0)
    return struct.pack("<IIQQIIII", size, 16, 1, 2, 0, 0, 0, 0) + body + content


def scenario_of_frames(count, size):
    frame = json.dumps({"frame": write_frame(b"a" * (size - 80)).hex()})
    return '{"phases":[[{"calls":[' + ",".join([frame] * count) + "]}]]}"


def few_frames(size):
    return scenario_of_frames(size // 270400, 135168)


def many_frames(size):
    return scenario_of_frames(65536, (size // 65536 - 15) // 2)


def contents(size):
    one = "ab" * (size // 4)
    return '{"objects":[{"name":"a","hex":"' + one + '"},{"name":"b","hex":"' + one + '"}],"phases":[]}'


def metadata(size):
    pairs = json.dumps({"key %02d" % n: "v" * 500 for n in range(64)})
    one = '{"name":"object %06d","meta":' + pairs + "}"
    return '{"objects":[' + ",".join(one % n for n in range(size // len(one))) + '],"phases":[]}'


def names(size):
    one = '{"name":"object %06d"}'
    return '{"objects":[' + ",".join(one % n for n in range(size // 25)) + '],"phases":[]}'


SHAPES = [
    ("65,536 calls", many_frames),
    ("calls with the longest frames", few_frames),
    ("two objects with contents", contents),
    ("objects with 64 pairs each", metadata),
    ("objects with a name alone", names),
]


def build(clone, name, program, libraries):
    """A program, added to the copy as a crate of its own and built there."""
    folder = os.path.join(clone, "crates", name)
    os.makedirs(os.path.join(folder, "src"), exist_ok=True)
    with open(os.path.join(folder, "src", "main.rt"), "w") as it:
        it.write(program)
    listing = os.path.join(clone, "crates.txt")
    with open(listing) as it:
        text = it.read()
    if "\n%s:" % name not in text:
        with open(listing, "a") as it:
            it.write("%s: %s\n" % (name, libraries))
    subprocess.run(["rt", "run"], cwd=folder, check=True, stdout=subprocess.DEVNULL)
    return os.path.join(folder, "out", name)


def launch(program, path):
    """Runs the program once and prints its seconds, the most KiB that it held, and what it told. It is run from a fresh
    Python, since a process begins with what the one that started it held."""
    child = subprocess.Popen([program, path], stdout=subprocess.PIPE)
    answer = child.stdout.read().decode().strip()
    _, status, usage = os.wait4(child.pid, 0)
    child.returncode = status
    if status:
        sys.exit("%s ended with status %d" % (program, status))
    print(usage.ru_utime + usage.ru_stime, usage.ru_maxrss, answer)


def told(program, path, runs):
    """The least seconds of so many runs, what was told, and the most KiB that a process held."""
    best, answer, most = None, None, 0
    for _ in range(runs):
        words = [sys.executable, __file__, "--launch", program, path]
        line = subprocess.run(words, check=True, stdout=subprocess.PIPE).stdout.decode()
        took, held, answer = line.strip().split(" ", 2)
        best = float(took) if best is None else min(best, float(took))
        most = max(most, int(held))
    return best, answer, most


def loads(text, runs):
    best = None
    for _ in range(runs):
        start = time.process_time()
        json.loads(text)
        took = time.process_time() - start
        best = took if best is None else min(best, took)
    return best


def parts(clone):
    """Prints what holding the parts of a scenario of objects with a name alone takes, as ratios to its text."""
    text = names(32 * MIB)
    program = build(clone, "hold_parts", HOLDING, "bucket_api io_ports serde_json")
    with tempfile.NamedTemporaryFile("w", suffix=".json") as it:
        it.write(text)
        it.flush()
        for part, word in (("their text and its JSON value", it.name), ("their bucket", str(text.count("name")))):
            _, answer, most = told(program, word, 1)
            if answer != "true":
                sys.exit("%s: %s" % (part, answer))
            print("%-32s %8.1f %8s %10s %8.1f" % (part, len(text) / MIB, "", "", most * 1024 / len(text)))


def main(clone, runs=5):
    program = build(clone, "read_scenario", PROGRAM, "scenario io_ports")
    print("%-32s %8s %8s %10s %8s %8s" % ("scenario", "MiB", "seconds", "x loads", "x memory", "x half"))
    for name, make in SHAPES:
        half = None
        for size in (16 * MIB, 32 * MIB):
            text = make(size)
            with tempfile.NamedTemporaryFile("w", suffix=".json") as it:
                it.write(text)
                it.flush()
                took, answer, most = told(program, it.name, runs)
            if answer != "read":
                sys.exit("%s: %s" % (name, answer))
            row = (name, len(text) / MIB, took, took / loads(text, runs), most * 1024 / len(text))
            print("%-32s %8.1f %8.3f %10.1f %8.1f" % row + ("" if half is None else " %8.2f" % (took / half)))
            half = took
    parts(clone)


if __name__ == "__main__":
    if sys.argv[1] == "--launch":
        launch(*sys.argv[2:])
    else:
        main(sys.argv[1], *map(int, sys.argv[2:3]))
