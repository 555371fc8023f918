#!/usr/bin/env python3
"""Measures a built hydra: syncs an entry, bytes written a byte of data, and lines a second.

One run prints all numbers. It makes and removes folders of its own, and changes nothing else.
"""
import argparse
import os
import re
import shutil
import statistics
import subprocess
import sys
import tempfile
import time

LINES = 60
SYNCS = ("fsync", "fdatasync", "sync_file_range", "syncfs")
WRITES = ("write", "pwrite64", "writev", "pwritev", "pwritev2")
# A call on a file whose name strace tells: fsync(5</tmp/x/peer0.side0>) = 0
CALL = re.compile(r"\b(\w+)\((\d+)(?:<([^>]*)>)?.*\)\s+=\s+(-?\d+)")


def script(data_bytes, writes):
    """One session, and then so many writes of blocks that differ, of so many bytes each: each waits for its settle."""
    lines = ["open a"]
    for number in range(writes):
        data = number.to_bytes(4, "big") * (data_bytes // 4)
        lines += ["write a " + data.hex(), "settle"]
    return ("\n".join(lines) + "\n").encode()


def run(program, folder, text, shape, before=()):
    """Runs the program on a folder of so many shards and copies, and gives its seconds."""
    words = [*before, program, "script", folder, *map(str, shape)]
    start = time.perf_counter()
    done = subprocess.run(words, input=text, capture_output=True, check=False)
    seconds = time.perf_counter() - start
    if done.returncode != 0:
        sys.exit(f"{program} ended with {done.returncode}: {done.stderr.decode()}")
    answers = done.stdout.decode().splitlines()
    new = sum(1 for answer in answers if " new " in answer)
    writes = text.count(b"settle\n")
    if len(answers) != writes + 1 or new != writes:
        sys.exit(f"{len(answers)} answers and {new} new blocks, where {writes + 1} and {writes} were wanted")
    return seconds


def traced(program, parent, text, shape):
    """The syncs and written bytes of a run on the files of a new folder, and the bytes they hold."""
    with tempfile.TemporaryDirectory(dir=parent) as top:
        folder = os.path.join(top, "store")
        log = os.path.join(top, "trace")
        calls = "trace=" + ",".join(SYNCS + WRITES)
        # Each thread has a trace of its own, so that no call stands in two pieces.
        run(program, folder, text, shape, ["strace", "-ff", "-y", "-qq", "-s", "0", "-e", calls, "-o", log])
        syncs = written = 0
        for call in side_calls(top, folder):
            if call.group(1) in SYNCS:
                syncs += 1
            else:
                written += int(call.group(4))
        held = sum(os.path.getsize(os.path.join(folder, name)) for name in sides(folder))
        return syncs, written, held


def side_calls(top, folder):
    """The calls on a side of the folder that succeeded."""
    for name in os.listdir(top):
        if not name.startswith("trace."):
            continue
        with open(os.path.join(top, name), encoding="utf-8", errors="replace") as lines:
            for call in map(CALL.search, lines):
                if call and is_side(call.group(3), folder) and int(call.group(4)) >= 0:
                    yield call


def is_side(path, folder):
    """Whether a path is a side of the folder."""
    return path is not None and os.path.dirname(path) == os.path.realpath(folder) and ".side" in path


def sides(folder):
    return [name for name in os.listdir(folder) if ".side" in name] if os.path.isdir(folder) else []


def speed(program, parent, text, shape, rounds):
    """The median of the lines a second, each run on a new folder."""
    rates = []
    for _ in range(rounds):
        with tempfile.TemporaryDirectory(dir=parent) as top:
            rates.append(LINES / run(program, os.path.join(top, "store"), text, shape))
    return statistics.median(rates)


def ratio(part, whole):
    return f"{part / whole:.3f}" if whole else "none"


def main():
    here = os.path.dirname(os.path.abspath(__file__))
    words = argparse.ArgumentParser(description=__doc__)
    words.add_argument("--program", default=os.path.join(here, "..", "crates", "hydra", "out", "hydra"))
    words.add_argument("--files", default=here, help="a folder on a real disk")
    words.add_argument("--memory", default="/dev/shm", help="a folder in memory")
    words.add_argument("--shards", type=int, default=1)
    words.add_argument("--copies", type=int, default=1)
    words.add_argument("--rounds", type=int, default=5)
    asked = words.parse_args()
    shape = (asked.shards, asked.copies)
    program = os.path.abspath(asked.program)
    if not os.access(program, os.X_OK):
        sys.exit(f"{program} is not built: bin/hydra --version builds it")
    print(f"script: {LINES} lines that are answered, one open and {LINES - 1} writes of blocks that differ, each with its settle")
    for data_bytes in (16, 1024, 65536):
        text = script(data_bytes, LINES - 1)
        data = data_bytes * (LINES - 1)
        print(f"blocks of {data_bytes} bytes, {data} in all:")
        if shutil.which("strace"):
            opening = traced(program, asked.files, script(data_bytes, 0), shape)[0]
            syncs, written, held = traced(program, asked.files, text, shape)
            print(f"  syncs {syncs}, to make and open the store {opening}, an entry {ratio(syncs - opening, LINES - 1)}")
            print(f"  bytes written {written}, a byte of data {ratio(written, data)}")
            print(f"  bytes in the files {held}, a byte of data {ratio(held, data)}")
        else:
            print("  syncs and bytes: not measured, there is no strace")
        files = speed(program, asked.files, text, shape, asked.rounds)
        memory = speed(program, asked.memory, text, shape, asked.rounds)
        print(f"  lines a second: on files {files:.0f}, in memory {memory:.0f}, files to memory {ratio(files, memory)}")


if __name__ == "__main__":
    main()
