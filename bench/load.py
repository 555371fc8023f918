#!/usr/bin/env python3
"""Measures loads of a built hydra: operations a second by writers and by shards, and the processor time of one.

A load writes, roots and drops files by threads, with deletions beside. Of several rounds the median counts. Where a C
compiler is there, a small library stands before the C library's fsync and fdatasync and has each sync last a while, as
on a disk where syncs dominate. It makes and removes folders of its own.
"""
import argparse
import os
import resource
import shutil
import statistics
import subprocess
import sys
import tempfile
import time

SEED = 7
COUNTS = (1, 2, 4, 8)
MASK = (1 << 64) - 1
DELETIONS = 6
SLOW = r"""
#define _GNU_SOURCE
#include <dlfcn.h>
#include <stdlib.h>
#include <time.h>

static void wait_a_while(void) {
    long nanos = strtol(getenv("SYNC_NANOS"), 0, 10);
    struct timespec left = {nanos / 1000000000, nanos % 1000000000};
    while (nanosleep(&left, &left)) {}
}

static int call(const char *name, int file) {
    int (*real)(int) = (int (*)(int))dlsym(RTLD_NEXT, name);
    wait_a_while();
    return real(file);
}

int fsync(int file) { return call("fsync", file); }
int fdatasync(int file) { return call("fdatasync", file); }
"""


def words_of(seed):
    """The generator of a load: xoshiro256++, its state from splitmix64."""
    state = []
    for _ in range(4):
        seed = (seed + 0x9E3779B97F4A7C15) & MASK
        word = ((seed ^ (seed >> 30)) * 0xBF58476D1CE4E5B9) & MASK
        word = ((word ^ (word >> 27)) * 0x94D049BB133111EB) & MASK
        state.append(word ^ (word >> 31))

    def turned(word, by):
        return ((word << by) | (word >> (64 - by))) & MASK

    while True:
        yield (turned((state[0] + state[3]) & MASK, 23) + state[0]) & MASK
        aside = (state[1] << 17) & MASK
        state[2] ^= state[0]
        state[3] ^= state[1]
        state[1] ^= state[2]
        state[0] ^= state[3]
        state[2] ^= aside
        state[3] = turned(state[3], 45)


def operations(writers, files):
    """How many operations a load asks for: an open for each writer; for each file a write of each leaf and one of the block
    that points to them, a root, and of every fourth a drop; and the deletions."""
    blocks = sum(4 + next(words_of(SEED ^ (writer << 32 | file))) % 10 for writer in range(writers) for file in range(files))
    return writers + blocks + writers * files + writers * (files // 4) + DELETIONS


def load(program, parent, shards, copies, writers, files, env):
    """The seconds of a load on a new folder, and those of its processor time."""
    with tempfile.TemporaryDirectory(dir=parent) as top:
        words = [program, "load", os.path.join(top, "store"), str(shards), str(copies), "--seed", str(SEED)]
        words += ["--writers", str(writers), "--files", str(files)]
        used, start = resource.getrusage(resource.RUSAGE_CHILDREN), time.perf_counter()
        done = subprocess.run(words, capture_output=True, text=True, check=False, env=env)
        seconds = time.perf_counter() - start
        now = resource.getrusage(resource.RUSAGE_CHILDREN)
        kept = files - files // 4
        wanted = [f"writer {writer} files {files} kept {kept}" for writer in range(writers)]
        if done.returncode != 0 or done.stdout.splitlines()[:-1] != [*wanted, f"roots {writers * kept}"]:
            sys.exit(f"{words} ended with {done.returncode}: {done.stderr}{done.stdout}")
        return seconds, now.ru_utime + now.ru_stime - used.ru_utime - used.ru_stime


def rate(asked, parent, shards, copies, writers, env):
    """The operations a second of a load, and the processor time of an operation in seconds: medians."""
    rounds = [load(asked.program, parent, shards, copies, writers, asked.files, env) for _ in range(asked.rounds)]
    count = operations(writers, asked.files)
    return count / statistics.median(seconds for seconds, _ in rounds), statistics.median(used for _, used in rounds) / count


def table(asked, parent, env):
    for copies in (1, 2):
        for what, runs in (("writers", [(4, writers) for writers in COUNTS]), ("shards", [(shards, 8) for shards in COUNTS])):
            rates = [rate(asked, parent, shards, copies, writers, env) for shards, writers in runs]
            beside = "4 shards" if what == "writers" else "8 writers"
            print(f"  {copies} copies, {beside}, {what} 1, 2, 4, 8: operations a second", ", ".join(f"{many:.0f}" for many, _ in rates),
                  f"(the third by the first {rates[2][0] / rates[0][0]:.2f});", "processor time of one in us",
                  ", ".join(f"{used * 1e6:.0f}" for _, used in rates), flush=True)


def slow_syncs(top, millis):
    """The environment in which each sync lasts so long, or none where there is no compiler."""
    if not shutil.which("cc"):
        return None
    source, library = os.path.join(top, "slow.c"), os.path.join(top, "slow.so")
    with open(source, "w", encoding="utf-8") as text:
        text.write(SLOW)
    subprocess.run(["cc", "-O2", "-shared", "-fPIC", "-o", library, source, "-ldl"], check=True)
    return {**os.environ, "LD_PRELOAD": library, "SYNC_NANOS": str(int(millis * 1_000_000))}


def main():
    here = os.path.dirname(os.path.abspath(__file__))
    words = argparse.ArgumentParser(description=__doc__)
    words.add_argument("--program", default=os.path.join(here, "..", "crates", "hydra", "out", "hydra"))
    words.add_argument("--folder", default=here, help="a folder on a real disk")
    words.add_argument("--memory", default="/dev/shm", help="a folder in memory")
    words.add_argument("--files", type=int, default=20, help="of each writer")
    words.add_argument("--rounds", type=int, default=3)
    words.add_argument("--sync", type=float, default=2, help="the milliseconds of a slow sync")
    asked = words.parse_args()
    asked.program = os.path.abspath(asked.program)
    if not os.access(asked.program, os.X_OK):
        sys.exit(f"{asked.program} is not built: bin/hydra --version builds it")
    print(f"loads of {asked.files} files a writer, in memory:")
    table(asked, asked.memory, None)
    print("on files:")
    table(asked, asked.folder, None)
    with tempfile.TemporaryDirectory() as top:
        env = slow_syncs(top, asked.sync)
        if env is None:
            print("slow syncs: not measured, there is no C compiler")
            return
        print(f"in memory, where each sync lasts {asked.sync:g} ms:")
        table(asked, asked.memory, env)


if __name__ == "__main__":
    main()
