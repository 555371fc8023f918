#!/usr/bin/env python3
"""Counts which bytes a built hydra copies, for writes and for reads of blocks of 64 KiB.

A small library stands before the C library's memcpy and memmove, and counts their calls by the place that called: of a
write those of at least 16 KiB, of a read those of at least 2 KiB. What realloc moves, and what the system copies, is not
counted. It makes and removes folders of its own.
"""
import argparse
import bisect
import os
import subprocess
import sys
import tempfile

SIZE = 65_536
COUNTER = r"""
#define _GNU_SOURCE
#include <dlfcn.h>
#include <stddef.h>
#include <stdio.h>
#include <stdlib.h>

static struct { void *at; unsigned long calls, bytes; } places[256];
static size_t least = (size_t)-1;

__attribute__((constructor)) static void begin(void) {
    least = strtoul(getenv("LEAST"), 0, 10);
}

static void count(void *at, size_t n) {
    if (n < least) return;
    for (int i = 0; i < 256; i++) {
        if (places[i].at && places[i].at != at) continue;
        places[i].at = at, places[i].calls++, places[i].bytes += n;
        return;
    }
}

static void move(char *to, const char *from, size_t n) {
    if (to <= from || to >= from + n) {
        __asm__ volatile("rep movsb" : "+D"(to), "+S"(from), "+c"(n) : : "memory");
    } else {
        while (n--) to[n] = from[n];
    }
}

void *memcpy(void *to, const void *from, size_t n) {
    count(__builtin_return_address(0), n), move(to, from, n);
    return to;
}

void *memmove(void *to, const void *from, size_t n) {
    count(__builtin_return_address(0), n), move(to, from, n);
    return to;
}

__attribute__((destructor)) static void tell(void) {
    for (int i = 0; i < 256 && places[i].at; i++) {
        Dl_info info = {0};
        dladdr(places[i].at, &info);
        fprintf(stderr, "copied %lu %lu %lu\n", (unsigned long)((char *)places[i].at - (char *)info.dli_fbase),
                places[i].calls, places[i].bytes);
    }
}
"""


def functions(program):
    """The functions of the program, by their address."""
    told = subprocess.run(["nm", "-n", program], capture_output=True, text=True, check=True).stdout
    lines = [line.split(" ", 2) for line in told.splitlines()]
    return [(int(at, 16), name) for at, kind, name in lines if at and kind in "tT"]


def copied(program, counter, script, least):
    """The calls and the bytes that a run of a script copies, of at least so many bytes a call, by the address of the place."""
    with tempfile.TemporaryDirectory() as top:
        run = [program, "script", os.path.join(top, "store"), "1", "1"]
        done = subprocess.run(run, input=("\n".join(script) + "\n").encode(), capture_output=True, check=False,
                              env={**os.environ, "LD_PRELOAD": counter, "LEAST": str(least)})
    if done.returncode != 0:
        sys.exit(f"{program} ended with {done.returncode}: {done.stderr.decode(errors='replace')[-500:]}")
    told = [map(int, line.split()[1:]) for line in done.stderr.decode().splitlines() if line.startswith("copied ")]
    return {at: (calls, size) for at, calls, size in told}


def main():
    here = os.path.dirname(os.path.abspath(__file__))
    words = argparse.ArgumentParser(description=__doc__)
    words.add_argument("--program", default=os.path.join(here, "..", "crates", "hydra", "out", "hydra"))
    words.add_argument("--lines", type=int, default=60)
    asked = words.parse_args()
    program = os.path.abspath(asked.program)
    writes, reads = ["open a"], []
    for number in range(asked.lines):
        writes += [f"write a {(number.to_bytes(4, 'big') * (SIZE // 4)).hex()}", "settle"]
        reads += [f"read a h{number}", "settle"]
    with tempfile.TemporaryDirectory() as top:
        source, counter = os.path.join(top, "counter.c"), os.path.join(top, "counter.so")
        with open(source, "w", encoding="utf-8") as file:
            file.write(COUNTER)
        how = ["-O1", "-fno-builtin", "-fno-tree-loop-distribute-patterns", "-shared", "-fPIC"]
        subprocess.run(["cc", *how, "-o", counter, source, "-ldl"], check=True)
        written = copied(program, counter, writes, 16_384)
        without = copied(program, counter, writes, 2_048)
        both = copied(program, counter, writes + reads, 2_048)
    none = (0, 0)
    read = {at: (calls - without.get(at, none)[0], size - without.get(at, none)[1]) for at, (calls, size) in both.items()}
    names = functions(program)
    for what, places in (("write", written), ("read", read)):
        for at, (calls, size) in places.items():
            if calls:
                name = names[bisect.bisect_right(names, (at, "")) - 1][1]
                print(f"{size / asked.lines / SIZE:.2f} of a block's bytes in each {what}, {calls} calls, by {name}")


main()
