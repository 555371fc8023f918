#!/usr/bin/env python3
"""Counts what a built hydra executes, beside the plain program bench/plain.rs: instructions, and calls of the system.

Instructions are counted by valgrind's callgrind, in user space alone: about the same on each run of one program, whatever
else the machine does. It makes and removes folders of its own.
"""
import argparse
import os
import re
import shutil
import subprocess
import sys
import tempfile

SIZES = (65536, 4096, 64)
BLOCKS = 16_000
COLLECTED = re.compile(r"Collected\s*:\s*(\d+)")
# A line of strace -c: share, seconds, microseconds a call, calls, errors if any, name.
CALLS = re.compile(r"^\s*[\d.]+\s+[\d.]+\s+\d+\s+(\d+)\s+(?:\d+\s+)?(\w+)$", re.M)


def data(size, number):
    return (number.to_bytes(4, "big") * (size // 4)).hex()


def settled(lines):
    """Lines that wait for the disk, each with its settle."""
    return [part for line in lines for part in (line, "settle")]


def writes(size, count):
    """One session, and then writes of blocks that differ."""
    return ["open a", *settled(f"write a {data(size, number)}" for number in range(count))]


def reads(size, count):
    """One block, and then as many reads of it."""
    return [*writes(size, 1), *settled(["read a h0"] * count)]


def stats(size, count):
    return [*writes(size, 1), *["stat"] * count]


def run(program, folder, script, before=()):
    """What a run printed, and what the tool before it told."""
    text = ("\n".join(script) + "\n").encode()
    words = [*before, program, "script", folder, "1", "1"]
    done = subprocess.run(words, input=text, capture_output=True, check=False)
    if done.returncode != 0 or done.stdout.count(b"\n") != len(script) - script.count("settle"):
        sys.exit(f"{program} ended with {done.returncode}: {done.stderr.decode(errors='replace')[-500:]}")
    return done.stdout, done.stderr.decode(errors="replace")


def counted(program, parent, script):
    """The instructions of a run on a new folder, what it printed, and what its first file has then."""
    with tempfile.TemporaryDirectory(dir=parent) as top:
        folder = os.path.join(top, "store")
        tool = ["valgrind", "--tool=callgrind", f"--callgrind-out-file={os.path.join(top, 'calls')}"]
        printed, told = run(program, folder, script, tool)
        with open(os.path.join(folder, "peer0.side0"), "rb") as side:
            return int(COLLECTED.search(told).group(1)), printed, side.read()


def compare(programs, parent, name, make, count):
    """Prints what many lines of one kind take in each program, and in the first one beside each other one."""
    few, many = make(0), make(count)
    totals, nets, seen = [], [], []
    for program in programs:
        none, all_lines = counted(program, parent, few), counted(program, parent, many)
        totals.append(all_lines[0])
        nets.append((all_lines[0] - none[0]) / count)
        seen.append(all_lines[1:])
    if any(one != seen[0] for one in seen):
        sys.exit(f"{name}: the programs print or write different bytes")
    print(f"{count} {name}: {beside(totals)}; a line, without start and opening: {beside(nets)}")


def beside(numbers):
    ours, *others = numbers
    return f"{ours:,.0f}, " + ", ".join(f"{ours / other:.2f} of {other:,.0f}" for other in others)


def calls_of(program, parent, folder):
    """The calls of the system of a run that opens the folder and does nothing more."""
    log = os.path.join(parent, "trace")
    run(program, folder, ["stat"], ["strace", "-f", "-c", "-o", log])
    with open(log, encoding="utf-8") as lines:
        return {name: int(count) for count, name in CALLS.findall(lines.read()) if name != "total"}


def opening(program, parent):
    """Prints how many calls opening takes."""
    with tempfile.TemporaryDirectory(dir=parent) as top:
        empty, full = os.path.join(top, "empty"), os.path.join(top, "full")
        run(program, empty, ["stat"])
        run(program, full, [f"open s{number}" for number in range(4)]
            + settled(f"write s{number // 4096} {data(64, number)}" for number in range(BLOCKS)))
        few, many = calls_of(program, top, empty), calls_of(program, top, full)
    more = sum(many.values()) - sum(few.values())
    kinds = ", ".join(f"{name} {many[name] - few.get(name, 0)}" for name in sorted(many) if many[name] != few.get(name, 0))
    print(f"opening {BLOCKS} blocks of 64 bytes: {more} calls of the system more than opening none ({kinds})")


def main():
    here = os.path.dirname(os.path.abspath(__file__))
    words = argparse.ArgumentParser(description=__doc__)
    words.add_argument("--program", default=os.path.join(here, "..", "crates", "hydra", "out", "hydra"))
    words.add_argument("--memory", default="/dev/shm", help="a folder in memory")
    words.add_argument("--lines", type=int, default=60)
    asked = words.parse_args()
    ours = os.path.abspath(asked.program)
    if not os.access(ours, os.X_OK):
        sys.exit(f"{ours} is not built: bin/hydra --version builds it")
    if not shutil.which("valgrind"):
        sys.exit("there is no valgrind on the path")
    if not shutil.which("rustc"):
        sys.exit("there is no rustc on the path, which makes the plain program")
    with tempfile.TemporaryDirectory(dir=asked.memory) as top:
        programs = [ours]
        for name, how in (("plain", []), ("loops", ["--cfg", "loops"])):
            programs.append(os.path.join(top, name))
            words = ["rustc", "-O", *how, "--edition", "2021", "-o", programs[-1], os.path.join(here, "plain.rs")]
            subprocess.run(words, check=True)
        print("instructions of hydra, of the plain program, and of the plain program with SHA-256 in loops:")
        for size in SIZES:
            compare(programs, top, f"writes of {size} bytes", lambda count: writes(size, count), asked.lines)
        for size in (65536, 64):
            compare(programs, top, f"reads of {size} bytes", lambda count: reads(size, count), asked.lines)
        compare(programs, top, "lines of stat", lambda count: stats(64, count), asked.lines)
        if shutil.which("strace"):
            opening(ours, top)
        else:
            print("calls of the system: not counted, there is no strace")


main()
