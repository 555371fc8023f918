#!/usr/bin/env python3
"""Measures the deletion runs of a built hydra: their time, their entries and syncs, and writes while one is in progress.

Of several rounds the least time counts, and of writes the median too. The folder lies on a file system in memory. It
makes and removes folders of its own.
"""
import argparse
import os
import re
import shutil
import statistics
import subprocess
import sys
import tempfile
import time

from lines import instructions, processor_time, text_of, words
from trees import BLOCKS, entries_of, giving_up, left_of, planting, settled, shard_of

DELETE = ["delete", "settle"]
SYNCS = re.compile(r"^\s*[\d.]+\s+[\d.]+\s+\d+\s+(\d+)\s+(?:\d+\s+)?(?:fsync|fdatasync)$", re.M)
WRITES = 300


class Run:
    """A run that is given lines part by part."""

    def __init__(self, before):
        self.child = subprocess.Popen(before, stdin=subprocess.PIPE, stdout=subprocess.PIPE, text=True)

    def give(self, lines, last):
        """The seconds until an answer to these lines holds the last text, those of processor time, and the answers."""
        start, used = time.perf_counter(), processor_time(self.child.pid)
        self.child.stdin.write("".join(line + "\n" for line in lines))
        self.child.stdin.flush()
        answers = []
        while not answers or last not in answers[-1]:
            answers.append(self.child.stdout.readline())
            if not answers[-1]:
                sys.exit(f"the run ended with {self.child.wait()}, and {last} was wanted: {answers[-3:]}")
        return time.perf_counter() - start, processor_time(self.child.pid) - used, answers

    def end(self):
        self.child.communicate()
        if self.child.returncode != 0:
            sys.exit(f"a run ended with {self.child.returncode}")


def plant(program, folder, shards, trees):
    """A store of which half is given up; the first deletion run, which counts it, is still to come."""
    before = words(program, folder, shards)
    done = subprocess.run(before, input=text_of([*planting(trees), *giving_up(trees)]), capture_output=True, check=False)
    if done.returncode != 0 or b" no " in done.stdout:
        sys.exit(f"{before} ended with {done.returncode}: {done.stderr.decode()}")


def copy(planted, folder):
    shutil.rmtree(folder, ignore_errors=True)
    shutil.copytree(planted, folder)


def changed(old, new):
    """The entries of a run by kind, how many they are, and the bytes that were written for them: a gate is written once more."""
    kinds = {kind: new[kind][0] - old[kind][0] for kind in new if new[kind][0] != old[kind][0]}
    count = sum(kinds.values())
    return kinds, count, sum(new[kind][1] - old[kind][1] for kind in new) + count


def traced(before, folder, lines):
    """The syncs of a run."""
    log = folder + ".trace"
    subprocess.run(["strace", "-f", "-c", "-o", log, *before], input=text_of(lines), capture_output=True, check=True)
    with open(log, encoding="utf-8") as told:
        return sum(map(int, SYNCS.findall(told.read())))


def deletions(program, top, planted, shards, trees, rounds):
    """Prints what the two runs take: the first counts all blocks, and the second removes those that were given up."""
    folder = os.path.join(top, "run")
    before = words(program, folder, shards)
    for number in range(2):
        epoch = number + 2
        times, used, swept, syncs = [], [], 0, "not counted"
        for _ in range(rounds):
            copy(planted, folder)
            old = entries_of(folder)
            run = Run(before)
            # Opening is not counted.
            run.give(["stat"], "stat blocks")
            seconds, own, answers = run.give(DELETE, f"done e{epoch}")
            run.end()
            times.append(seconds)
            used.append(own)
            swept = sum(int(answer.split()[-1]) for answer in answers if answer.startswith("- sweep"))
        kinds, count, size = changed(old, entries_of(folder))
        if swept != number * (trees * BLOCKS - left_of(trees)):
            sys.exit(f"run {epoch} removed {swept} blocks")
        if shutil.which("strace"):
            copy(planted, folder)
            alone = traced(before, folder, ["stat"])
            copy(planted, folder)
            syncs = traced(before, folder, DELETE) - alone
        print(f"  run {epoch} over {trees * BLOCKS} blocks removes {swept}: {min(used) * 1e3:.1f} ms of "
              f"processor time, {min(times) * 1e3:.1f} ms in all; messages "
              f"{kinds.get('Got', 0)}; entries {count} with the views ({kinds}), {size} bytes written; syncs behind opening "
              f"{syncs} for {count - kinds['View']} entries", flush=True)
        copy(planted, folder)
        run = Run(before)
        run.give(DELETE, f"done e{epoch}")
        run.end()
        if number == 0:
            # The second run begins where the first one has ended.
            copy(folder, planted)


def writing(shards, first):
    """New writes, each with the two turns that keep it: of the peer of its shard."""
    lines = []
    for number in range(first, first + WRITES):
        data = "ee" + number.to_bytes(7, "big").hex() * 9
        shard = shard_of(data, shards)
        lines += [f"write w {data}", f"turn {shard}", f"turn {shard}"]
    return lines


def beside(program, top, planted, shards, rounds, counts):
    """Prints what writes take while a run is in progress, beside the same lines where none is: with the same disk work."""
    folder = os.path.join(top, "run")
    before = words(program, folder, shards)
    opening = {"without": ["open w"], "with": ["open w", "delete", "turn 0", "turn 0"]}
    times = {name: [] for name in opening}
    numbers, work = {}, {}
    for _ in range(rounds):
        for name, first in opening.items():
            copy(planted, folder)
            run = Run(before)
            run.give(first, "run e" if name == "with" else "ok")
            old = entries_of(folder)
            number = len(first)
            lines = writing(shards, 0)
            seconds, answers = run.give(lines, f"{number + len(lines) - 2} new")[1:]
            work[name] = changed(old, entries_of(folder))
            run.end()
            if any(" new " not in answer for answer in answers):
                sys.exit(f"{name}: {answers}")
            times[name].append(seconds)
    if work["with"] != work["without"]:
        sys.exit(f"the disk work differs: {work}")
    if counts:
        for name, first in opening.items():
            ends = []
            for lines in (first, first + writing(shards, 0)):
                copy(planted, folder)
                ends.append(instructions(program, folder, shards, lines))
            numbers[name] = (ends[1] - ends[0]) / WRITES
    told = f"  {WRITES} writes while a run is in progress: "
    for named, of in (("the most", min), ("the median", statistics.median)):
        rate = {name: 3 * WRITES / of(times[name]) for name in times}
        told += f"{named} {rate['with']:.0f} lines a second of processor time, without one {rate['without']:.0f}, " \
                f"{rate['with'] / rate['without']:.2f} of it; "
    if counts:
        told += f"instructions a write {numbers['with']:,.0f} and {numbers['without']:,.0f}, " \
                f"{numbers['with'] / numbers['without']:.3f} of it; "
    print(f"{told}the same {work['with'][1]} entries and {work['with'][2]} bytes")


def main():
    here = os.path.dirname(os.path.abspath(__file__))
    asked = argparse.ArgumentParser(description=__doc__)
    asked.add_argument("--program", default=os.path.join(here, "..", "crates", "hydra", "out", "hydra"))
    asked.add_argument("--memory", default="/dev/shm", help="a folder in memory, or one of a real disk")
    asked.add_argument("--shards", type=int, nargs="+", default=[1, 2, 4, 8])
    asked.add_argument("--blocks", type=int, default=16_000)
    asked.add_argument("--rounds", type=int, default=25)
    asked = asked.parse_args()
    program = os.path.abspath(asked.program)
    if not os.access(program, os.X_OK):
        sys.exit(f"{program} is not built: bin/hydra --version builds it")
    # Trees come in pairs.
    trees = asked.blocks // BLOCKS // 2 * 2
    for shards in asked.shards:
        print(f"{shards} shards:", flush=True)
        with tempfile.TemporaryDirectory(dir=asked.memory) as top:
            planted = os.path.join(top, "planted")
            plant(program, planted, shards, trees)
            deletions(program, top, planted, shards, trees, asked.rounds)
            # Here one run counted everything, and the one in progress is that which removes.
            beside(program, top, planted, shards, asked.rounds, shutil.which("valgrind") is not None)


if __name__ == "__main__":
    main()
