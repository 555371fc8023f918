#!/usr/bin/env python3
"""Measures one shard's catalogue in memory: processor time of an entry, memory, and what deletion runs cost.

It runs the program of crates/hs_shard_bench, which fills a catalogue and does deletion runs, and takes one run from
another: what a step costs is what a run with it costs more than one without. Instructions are counted by valgrind's
callgrind, in user space alone. It makes no file but in a folder of its own.
"""
import argparse
import os
import re
import shutil
import statistics
import subprocess
import sys
import tempfile

GROUP = 64
POINTERS = 64
ADDRESS = 32
# What the catalogue keeps of a block by the rules, beside its pointers: address, number, birth, mark, two flags, count.
FACTS = 32 + 8 + 8 + 8 + 1 + 1 + 4
COLLECTED = re.compile(r"Collected\s*:\s*(\d+)")
TOLD = re.compile(r"(\d+) blocks, (\d+) roots, epoch (\d+), swept (\d+), (\d+) blocks removed")


class Counts:
    """A run of the program: what it printed, its seconds of a processor, its greatest memory, its instructions if they were counted.

    The greatest memory is that of the whole process. The system counts what this script had when it began it, too, so
    that a smaller number than this script's own is not seen.
    """

    def __init__(self, program, blocks, dropped, steps, before=()):
        words = [*before, program, str(blocks), str(dropped), str(steps)]
        done = subprocess.Popen(words, stdout=subprocess.PIPE, stderr=subprocess.PIPE)
        printed, told = done.stdout.read(), done.stderr.read()
        _, status, usage = os.wait4(done.pid, 0)
        self.seconds = usage.ru_utime + usage.ru_stime
        self.printed = printed.decode()
        self.bytes = usage.ru_maxrss * 1024
        if status != 0:
            sys.exit(f"{' '.join(words)} ended with {status}: {self.printed}{told.decode(errors='replace')[-500:]}")
        found = COLLECTED.search(told.decode(errors="replace"))
        self.instructions = int(found.group(1)) if found else None
        parts = TOLD.search(self.printed)
        self.present, self.removed = (int(parts.group(1)), int(parts.group(5))) if parts else (None, None)


def median(program, blocks, dropped, steps, rounds):
    return statistics.median(Counts(program, blocks, dropped, steps).seconds for _ in range(rounds))


def groups_of(blocks):
    """The groups of the plan: three quarters of the blocks."""
    return (blocks - blocks // 4 // GROUP * GROUP) // GROUP


def time_and_memory(program, blocks, rounds):
    """Prints the processor time of an entry and the memory of the filled catalogue, also behind deletion runs."""
    entries = blocks + groups_of(blocks) + 1
    made = median(program, blocks, 0, 0, rounds)
    filled = median(program, blocks, 0, 1, rounds)
    print(f"{entries} entries applied: {(filled - made) / entries * 1e6:.1f} us each, "
          f"{filled / entries * 1e6:.1f} us with making them and the start of the program")
    rules = blocks * (POINTERS * ADDRESS + FACTS)
    for name, dropped, steps in (
        ("filled", 0, 1),
        ("after the run in which all blocks become counted", 0, 2),
        ("after a run that removes half of them", blocks // 2 // GROUP, 4),
    ):
        most = Counts(program, blocks, dropped, steps).bytes
        print(f"greatest memory, {name}: {most / 1e6:.1f} MB, {most / rules:.2f} of the {rules / 1e6:.1f} MB by the rules")


def counted(program, top, blocks, dropped, steps):
    return Counts(program, blocks, dropped, steps,
                  ["valgrind", "--tool=callgrind", f"--callgrind-out-file={os.path.join(top, 'calls')}"])


def runs(program, top, blocks, shares):
    """Prints what deletion runs cost, in instructions."""
    filled = counted(program, top, blocks, 0, 1)
    all_count = counted(program, top, blocks, 0, 2)
    cost = all_count.instructions - filled.instructions
    print(f"run in which {blocks} blocks become counted: {cost:,} instructions, {cost / blocks:,.0f} a block")
    idle = counted(program, top, blocks, 0, 3)
    cost = idle.instructions - all_count.instructions
    print(f"run in which none becomes counted or zero: {cost:,} instructions")
    for share in shares:
        dropped = max(1, round(blocks * share / 100 / GROUP))
        before = counted(program, top, blocks, dropped, 3)
        after = counted(program, top, blocks, dropped, 4)
        if after.removed != dropped * GROUP:
            sys.exit(f"{after.removed} blocks are gone, where {dropped * GROUP} had to go")
        cost = after.instructions - before.instructions
        print(f"run that removes {after.removed} of {blocks} blocks ({share} % were wanted): {cost:,} instructions, "
              f"{cost / after.removed:,.0f} a removed block")


def main():
    here = os.path.dirname(os.path.abspath(__file__))
    words = argparse.ArgumentParser(description=__doc__)
    words.add_argument("--program", default=os.path.join(here, "..", "crates", "hs_shard_bench", "out", "hs_shard_bench"))
    words.add_argument("--blocks", type=int, default=16384)
    words.add_argument("--rounds", type=int, default=9, help="runs of which the median is taken")
    words.add_argument("--shares", type=int, nargs="*", default=[1, 10, 50], help="removed blocks in percent")
    asked = words.parse_args()
    program = os.path.abspath(asked.program)
    if not os.access(program, os.X_OK):
        sys.exit(f"{program} is not built: `rt run` in crates/hs_shard_bench builds it")
    time_and_memory(program, asked.blocks, asked.rounds)
    if not shutil.which("valgrind"):
        print("deletion runs: not counted, there is no valgrind")
        return
    with tempfile.TemporaryDirectory() as top:
        runs(program, top, asked.blocks, asked.shares)


main()
