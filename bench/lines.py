#!/usr/bin/env python3
"""Measures a built hydra at 1,000 and at 16,000 blocks: the processor time of a line, its instructions, and opening.

Of several rounds the median time is told, and the least. The folder lies on a file system in memory, so that the disk takes no part. The
program that is timed has a processor of its own, where the machine has two. It makes and removes folders of its own.
"""
import argparse
import os
import re
import resource
import shutil
import statistics
import subprocess
import sys
import tempfile

from trees import settled

# As many handles as a session holds.
HANDLES = 4096
FEW, MANY, PART = 1000, 16_000, 300
SIZES = (4000, 8000, 16_000)
PEAK = re.compile(r"VmHWM:\s+(\d+) kB")
PROCESSORS = sorted(os.sched_getaffinity(0))
COUNTED = re.compile(r"I\s+refs:\s+([\d,]+)")


def writes(session, start, end):
    """Writes of 64 bytes, each with its settle."""
    return settled(f"write {session} {number.to_bytes(4, 'big').hex() * 16}" for number in range(start, end))


def stored(blocks):
    lines = []
    for start in range(0, blocks, HANDLES):
        lines += [f"open s{start}", *writes(f"s{start}", start, min(start + HANDLES, blocks))]
    return lines


# What is measured in a store of so many blocks: its name, the lines before it, and its own lines.
KINDS = (
    ("a new write", lambda blocks: ["open a"], lambda blocks: writes("a", blocks, blocks + PART)),
    ("a write of a present block", lambda blocks: ["open a"], lambda blocks: writes("a", blocks - PART, blocks)),
    ("a read", lambda blocks: ["open a", *writes("a", blocks - PART, blocks)],
     lambda blocks: settled(f"read a h{number}" for number in range(PART))),
    ("stat", lambda blocks: ["open a"], lambda blocks: ["stat"] * PART),
)


def answered(lines):
    """How many answers these lines have."""
    return sum(not line.startswith(("settle", "turn")) for line in lines)


def text_of(lines):
    return "".join(line + "\n" for line in lines).encode()


def words(program, folder, shards):
    return [program, "script", folder, str(shards), "1"]


def run(before, lines):
    done = subprocess.run(before, input=text_of(lines), capture_output=True, check=False)
    if done.returncode != 0 or done.stdout.count(b"\n") != answered(lines) or b" no " in done.stdout:
        sys.exit(f"{before} ended with {done.returncode}: {done.stderr.decode(errors='replace')[-500:]}")
    return done.stderr.decode(errors="replace")


def copied(planted, folder):
    shutil.rmtree(folder, ignore_errors=True)
    shutil.copytree(planted, folder)
    return folder


def processor_time(process):
    """The seconds for which the threads of a process had a processor: other work on the machine counts little there."""
    spent = 0
    for thread in os.listdir(f"/proc/{process}/task"):
        with open(f"/proc/{process}/task/{thread}/schedstat", encoding="utf-8") as told:
            spent += int(told.read().split()[0])
    return spent / 1e9


def children_time():
    """The same of all runs that have ended."""
    used = resource.getrusage(resource.RUSAGE_CHILDREN)
    return used.ru_utime + used.ru_stime


def alone():
    """Has the calling process run on one processor, which the others leave to it where there are two."""
    os.sched_setaffinity(0, PROCESSORS[-1:])


def apart():
    os.sched_setaffinity(0, PROCESSORS[:-1] or PROCESSORS)


def timed(before, first, lines):
    """The seconds of processor time of these lines behind the first ones, and the greatest memory of the run in kB."""
    child = subprocess.Popen(before, stdin=subprocess.PIPE, stdout=subprocess.PIPE, preexec_fn=alone)

    def give(part):
        child.stdin.write(text_of(part))
        child.stdin.flush()
        for _ in range(answered(part)):
            child.stdout.readline()

    give(first)
    start = processor_time(child.pid)
    give(lines)
    seconds = processor_time(child.pid) - start
    with open(f"/proc/{child.pid}/status", encoding="utf-8") as status:
        peak = int(PEAK.search(status.read()).group(1))
    child.communicate()
    if child.returncode != 0:
        sys.exit(f"{before} ended with {child.returncode}")
    return seconds, peak


def instructions(program, folder, shards, lines):
    """The instructions of a run in user space, by cachegrind."""
    tool = ["valgrind", "--tool=cachegrind", "--cache-sim=no", "--cachegrind-out-file=/dev/null"]
    told = run([*tool, *words(program, folder, shards)], lines)
    return int(COUNTED.search(told).group(1).replace(",", ""))


def ratio(name, few, many):
    return f"{name} {few * 1e6:.1f} us and {many * 1e6:.1f} us, {many / few:.2f} of it"


def line(program, top, shards, rounds, counts):
    most, run_in = 0, os.path.join(top, "run")
    for blocks in (FEW, MANY):
        run(words(program, os.path.join(top, f"stored{blocks}"), shards), stored(blocks))
    for name, before, make in KINDS:
        times, numbers = {FEW: [], MANY: []}, []
        # A round has one run of each store, so that what slows the machine for a while slows both.
        for _ in range(rounds):
            for blocks, seen in times.items():
                planted = os.path.join(top, f"stored{blocks}")
                seconds, peak = timed(words(program, copied(planted, run_in), shards), before(blocks), make(blocks))
                seen.append(seconds / PART)
                most = max(most, peak)
        told = ratio("the least", *(min(seen) for seen in times.values())) + "; " \
            + ratio("the median", *(statistics.median(seen) for seen in times.values()))
        if counts:
            for blocks in times:
                planted, first = os.path.join(top, f"stored{blocks}"), before(blocks)
                without, whole = (instructions(program, copied(planted, run_in), shards, part) for part in (first, first + make(blocks)))
                numbers.append((whole - without) / PART)
            told += f"; {numbers[0]:,.0f} and {numbers[1]:,.0f} instructions, {numbers[1] / numbers[0]:.2f} of it"
        print(f"{name} at {FEW} and at {MANY} blocks: {told}", flush=True)
    print(f"greatest memory of a run: {most / 1024:.0f} MiB")


def opening(program, top, shards, rounds, counts):
    seen = []
    for blocks in (0, *SIZES):
        folder = os.path.join(top, f"opened{blocks}")
        run(words(program, folder, shards), stored(blocks) if blocks else ["stat"])
        times = []
        for _ in range(rounds):
            start = children_time()
            run(words(program, folder, shards), ["stat"])
            times.append(children_time() - start)
        number = instructions(program, folder, shards, ["stat"]) if counts else None
        seen.append((blocks, min(times), number))
    print(f"opening none: {seen[0][1] * 1e3:.1f} ms")
    for blocks, seconds, number in seen[1:]:
        told = f"{seconds * 1e3:.1f} ms, of a block {(seconds - seen[0][1]) / blocks * 1e6:.2f} us"
        if counts:
            told += f"; {number:,} instructions, of a block {(number - seen[0][2]) / blocks:,.0f}"
        print(f"opening {blocks} blocks: {told}", flush=True)


def main():
    here = os.path.dirname(os.path.abspath(__file__))
    asked = argparse.ArgumentParser(description=__doc__)
    asked.add_argument("--program", default=os.path.join(here, "..", "crates", "hydra", "out", "hydra"))
    asked.add_argument("--memory", default="/dev/shm", help="a folder in memory")
    asked.add_argument("--shards", type=int, default=1)
    asked.add_argument("--rounds", type=int, default=25)
    asked = asked.parse_args()
    program = os.path.abspath(asked.program)
    if not os.access(program, os.X_OK):
        sys.exit(f"{program} is not built: bin/hydra --version builds it")
    apart()
    counts = shutil.which("valgrind") is not None
    if not counts:
        print("instructions: not counted, there is no valgrind")
    with tempfile.TemporaryDirectory(dir=asked.memory) as top:
        opening(program, top, asked.shards, asked.rounds, counts)
        line(program, top, asked.shards, asked.rounds, counts)


if __name__ == "__main__":
    main()
