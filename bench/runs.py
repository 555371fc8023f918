"""Runs of a built hydra over one folder, disturbed or not: for bench/trials.py."""
import os
import shutil
import subprocess
import sys
import tempfile
import time

DISK_CALLS = ("pwrite64", "fsync")


def wrong(text):
    sys.exit(f"wrong: {text}")


class Store:
    """A program and a folder of so many shards, each with as many copies as the trials are of."""

    copies = 1

    def __init__(self, program, folder, shards):
        self.folder = folder
        self.words = [program, "script", folder, str(shards), str(self.copies)]

    def start(self, **streams):
        return subprocess.Popen(self.words, stdin=subprocess.PIPE, stdout=subprocess.PIPE, text=True, **streams)

    def plant(self, other):
        """The folder becomes a copy of another one."""
        shutil.rmtree(self.folder, ignore_errors=True)
        shutil.copytree(other, self.folder)

    def run(self, lines):
        """A run that is not disturbed: the answers by their lines, the text and the seconds."""
        begun = time.perf_counter()
        child = self.start(stderr=subprocess.PIPE)
        out, errors = child.communicate(text_of(lines))
        seconds = time.perf_counter() - begun
        if child.returncode != 0 or beside_made(errors):
            wrong(f"status {child.returncode}: {errors}{out}")
        return answers_of(out), out, seconds

    def killed(self, lines, seconds, behind=b""):
        """A run that is killed so long after it began, or after it printed such a text: what it answered until then, and whether
        it had ended."""
        with tempfile.TemporaryFile(mode="w+") as given, tempfile.TemporaryFile(mode="w+") as out:
            given.write(text_of(lines))
            given.seek(0)
            child = subprocess.Popen(self.words, stdin=given, stdout=out, stderr=subprocess.PIPE)
            while behind not in os.pread(out.fileno(), 65536, 0) and child.poll() is None:
                time.sleep(0.0002)
            time.sleep(seconds)
            child.kill()
            child.communicate()
            out.seek(0)
            return answers_of(out.read()), child.returncode == 0

    def calls(self, lines):
        """How many calls of the disk a run makes, by their names."""
        with tempfile.NamedTemporaryFile(mode="r") as told:
            tool = ["strace", "-f", "-c", "-o", told.name, "-e", "trace=" + ",".join(DISK_CALLS)]
            subprocess.run([*tool, *self.words], input=text_of(lines), text=True, stdout=subprocess.DEVNULL, check=True)
            rows = [row.split() for row in told.read().splitlines()]
        return {row[-1]: int(row[3]) for row in rows if row and row[-1] in DISK_CALLS}

    def killed_at(self, lines, call, number):
        """A run that is killed at so many a call of the disk of this name: what it answered until then, and whether it had
        ended."""
        tool = ["strace", "-f", "-qq", "-o", os.devnull, "-e", f"trace={call}", "-e", f"inject={call}:signal=KILL:when={number}"]
        done = subprocess.run([*tool, *self.words], input=text_of(lines), text=True, stdout=subprocess.PIPE,
                              stderr=subprocess.DEVNULL, check=False)
        return answers_of(done.stdout), done.returncode == 0


def beside_made(errors):
    """What standard error has beside the line that a folder was made."""
    return "".join(line for line in errors.splitlines(True) if not (line.startswith("hydra: the folder ") and line.endswith(" was made\n")))


def text_of(lines):
    return "".join(line + "\n" for line in lines)


def answers_of(out):
    """The whole lines of a text by their numbers: a line that was cut off is none."""
    whole = out[: out.rfind("\n") + 1]
    parts = (line.split(" ", 1) for line in whole.splitlines())
    return {int(number): text for number, text in parts if number != "-"}
