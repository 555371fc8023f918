#!/usr/bin/env python3
"""Measures files kept in a built hydra, beside restic and borg where these are on the path.

It makes files of random bytes, and prints for each program the wall and the processor seconds of three runs, each the
median of some: they are stored, stored once more (all is there already), and given back. Then the bytes on disk; what was
given back is compared. It makes and removes folders of its own, and changes nothing else.
"""
import argparse
import os
import random
import resource
import shutil
import statistics
import subprocess
import sys
import tempfile
import time

# The most bytes of one file that hydra stores, and how many a file of the measure has.
MOST_FILE = 67_108_864
PASSWORD = {"RESTIC_PASSWORD": "a", "BORG_PASSPHRASE": "a", "BORG_RELOCATED_REPO_ACCESS_IS_OK": "yes",
            "BORG_UNKNOWN_UNENCRYPTED_REPO_ACCESS_IS_OK": "yes"}


def run(words, env, cwd=None, source=None, sink=None):
    """Runs a program to its end, and gives the wall seconds and the processor seconds."""
    before = resource.getrusage(resource.RUSAGE_CHILDREN)
    start = time.perf_counter()
    with open(source or os.devnull, "rb") as given, open(sink or os.devnull, "wb") as taken:
        done = subprocess.run(words, stdin=given, stdout=taken, stderr=subprocess.PIPE, cwd=cwd, env=env, check=False)
    wall = time.perf_counter() - start
    after = resource.getrusage(resource.RUSAGE_CHILDREN)
    if done.returncode != 0:
        sys.exit(f"{words[0]} ended with {done.returncode}: {done.stderr.decode()}")
    return wall, after.ru_utime + after.ru_stime - before.ru_utime - before.ru_stime


def both(parts):
    """The sums of some runs behind one another."""
    return sum(part[0] for part in parts), sum(part[1] for part in parts)


def bytes_in(folder):
    """The bytes that the files of a folder take on disk."""
    return sum(os.lstat(os.path.join(root, name)).st_blocks * 512 for root, _, names in os.walk(folder) for name in names)


def same(one, other):
    with open(one, "rb") as a, open(other, "rb") as b:
        return a.read() == b.read()


class Hydra:
    """Each file is one of the store, under its name as a key."""

    def __init__(self, program, top, shards):
        self.program, self.shards = program, str(shards)
        self.store, self.back = os.path.join(top, "hydra"), os.path.join(top, "hydra.back")

    def begin(self, env):
        os.mkdir(self.back)

    def keep(self, folder, env):
        return both([run([self.program, "store", self.store, self.shards, "1", name], env,
                         source=os.path.join(folder, name)) for name in sorted(os.listdir(folder))])

    def again(self, folder, env):
        return self.keep(folder, env)

    def give(self, folder, env):
        return both([run([self.program, "fetch", self.store, self.shards, "1", name], env,
                         sink=os.path.join(self.back, name)) for name in sorted(os.listdir(folder))])

    def given(self, folder):
        return self.back


class Restic:
    def __init__(self, program, top):
        self.program, self.store, self.back = program, os.path.join(top, "restic"), os.path.join(top, "restic.back")

    def words(self, *words):
        return [self.program, "--quiet", "--no-cache", "--repo", self.store, *words]

    def begin(self, env):
        run(self.words("init"), env)

    def keep(self, folder, env):
        return run(self.words("backup", "."), env, cwd=folder)

    def again(self, folder, env):
        # Without a parent it reads each byte again, as the other two do.
        return run(self.words("backup", "--force", "."), env, cwd=folder)

    def give(self, folder, env):
        shutil.rmtree(self.back, ignore_errors=True)
        return run(self.words("restore", "latest", "--target", self.back), env)

    def given(self, folder):
        return self.back if os.path.isdir(os.path.join(self.back)) and os.listdir(folder)[0] in os.listdir(self.back) \
            else os.path.join(self.back, folder.lstrip("/"))


class Borg:
    def __init__(self, program, top, wanted):
        self.program, self.wanted, self.number = program, wanted, 0
        self.store, self.back = os.path.join(top, "borg"), os.path.join(top, "borg.back")

    def begin(self, env):
        run([self.program, "init", "--encryption", self.wanted, self.store], env)

    def keep(self, folder, env):
        self.number += 1
        return run([self.program, "create", "--compression", "none", "--files-cache", "disabled",
                    f"{self.store}::{self.number}", "."], env, cwd=folder)

    def again(self, folder, env):
        return self.keep(folder, env)

    def give(self, folder, env):
        shutil.rmtree(self.back, ignore_errors=True)
        os.mkdir(self.back)
        return run([self.program, "extract", f"{self.store}::{self.number}"], env, cwd=self.back)

    def given(self, folder):
        return self.back


def fill(folder, files, size, seed):
    """Files of random bytes."""
    chance = random.Random(seed)
    os.mkdir(folder)
    for number in range(files):
        with open(os.path.join(folder, f"f{number}"), "wb") as file:
            file.write(chance.randbytes(size))


def measure(kind, folder, env, rounds):
    """Stores, stores again and gives back: the seconds of each, and the bytes on disk."""
    kind.begin(env)
    rows = [[kind.keep(folder, env)], [], []]
    for _ in range(rounds):
        rows[1].append(kind.again(folder, env))
        rows[2].append(kind.give(folder, env))
    for name in os.listdir(folder):
        if not same(os.path.join(folder, name), os.path.join(kind.given(folder), name)):
            sys.exit(f"{name} differs")
    return [tuple(statistics.median(part[k] for part in row) for k in (0, 1)) for row in rows], bytes_in(kind.store)


def main():
    parser = argparse.ArgumentParser(description=__doc__.splitlines()[0])
    here = os.path.dirname(os.path.dirname(os.path.abspath(__file__)))
    parser.add_argument("--program", default=os.path.join(here, "crates", "hydra", "out", "hydra"))
    parser.add_argument("--folder", default=here + "/bench", help="where the folders are made")
    parser.add_argument("--shards", type=int, default=1)
    parser.add_argument("--files", type=int, default=8)
    parser.add_argument("--bytes", type=int, default=67_108_864, help="of all files together")
    parser.add_argument("--rounds", type=int, default=3)
    parser.add_argument("--seed", type=int, default=1)
    asked = parser.parse_args()
    size = asked.bytes // asked.files
    if size > MOST_FILE:
        sys.exit(f"a file has at most {MOST_FILE} bytes")
    env = dict(os.environ, **PASSWORD)
    with tempfile.TemporaryDirectory(dir=asked.folder) as top:
        env["BORG_BASE_DIR"] = os.path.join(top, "home")
        folder = os.path.join(top, "files")
        fill(folder, asked.files, size, asked.seed)
        kinds = [("hydra", Hydra(asked.program, top, asked.shards))]
        if shutil.which("restic"):
            kinds.append(("restic", Restic(shutil.which("restic"), top)))
        if shutil.which("borg"):
            kinds.append(("borg", Borg(shutil.which("borg"), top, "none")))
        print(f"{asked.files} files of {size} bytes; seconds: wall, processor")
        for name, kind in kinds:
            rows, held = measure(kind, folder, env, asked.rounds)
            told = ", ".join(f"{what} {row[0]:.2f} {row[1]:.2f}" for what, row in zip(("stored", "again", "given back"), rows))
            print(f"{name}: {told}; {held} bytes on disk", flush=True)


if __name__ == "__main__":
    main()
