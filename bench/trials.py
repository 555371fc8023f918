#!/usr/bin/env python3
"""Tries a built hydra as a user would: later runs, kills at random instants of writes, roots, drops and deletions, kills of
deletion runs over many blocks, and two runs at once.

It makes and removes folders of its own, and ends with status 1 at the first thing that is wrong.
"""
import argparse
import os
import random
import subprocess
import sys
import tempfile
import time

from deletion_kills import deletion_kills
from gifts import DELETING, KEPT_BY, Tree, after_kill, check_found, finding, gifts, swept_of
from runs import Store, beside_made, wrong

# How many trees a run that is killed writes, and how many are kept all the time.
TREES = 12
STANDING = 6


def writing(trees):
    """Lines that write trees, of which two thirds get a root and half of these are dropped again; that delete now and then,
    and then write a tree without a root again. And what each line asks."""
    lines, asks, handles = ["open a"], [], 0

    def ask(kind, tree, line):
        lines.append(line)
        asks.append((len(lines), kind, tree))
        lines.append("settle")

    def write(tree):
        nonlocal handles
        ask("leaf", tree, f"write a {tree.leaf}")
        ask("node", tree, f"write a {tree.node} h{handles}")
        handles += 2

    for place, tree in enumerate(trees):
        write(tree)
        if place % 3 == 2:
            ask("drop", trees[place - 1], f"drop {trees[place - 1].key}")
        else:
            ask("root", tree, f"root a {tree.key} h{handles - 1}")
        if place % 4 == 3:
            ask("delete", tree, "delete")
            # It was given in the epoch before, so it has to be there.
            write(trees[place // 3 * 3 - 1])
    return lines, asks


def reading(trees, first):
    """These lines, and then lines that read trees back through their roots, each in a session of its own."""
    lines, places = [*first], {}
    for number, tree in enumerate(trees):
        session = f"s{number}"
        places[tree.key] = len(lines) + 2
        lines += [f"open {session}", f"look {session} {tree.key}", f"read {session} h0", "settle", f"read {session} h1",
                  "settle", f"close {session}"]
    return lines, places


def check(answers, place, tree, kept):
    """Whether a tree was read back whole from these lines on, or its key is free; kept: which of them has to be."""
    found = answers.get(place, "")
    if found.startswith("held h0 "):
        if answers.get(place + 1) != f"bytes {tree.node} h1" or answers.get(place + 3) != f"bytes {tree.leaf}":
            wrong(f"{tree.key} is kept, and is not read back whole: {answers.get(place + 1)} {answers.get(place + 3)}")
    elif found != f"no key {tree.key}":
        wrong(f"{tree.key}: {found}")
    if kept is not None and found.startswith("held") != kept:
        wrong(f"{tree.key}: kept is {kept}, and there is {found}")


def known(asks, answers):
    """By key, whether a tree has to be kept after these answers: None where its last line was not answered."""
    state, written = {}, set()
    for line, kind, tree in asks:
        answer = answers.get(line)
        if kind in ("root", "drop"):
            if answer is not None and answer != "ok":
                wrong(f"line {line}: {answer}")
            state[tree.key] = None if answer is None else kind == "root"
        elif kind in KEPT_BY and answer is not None:
            if not answer.startswith("dup " if (tree.key, kind) in written else "new "):
                wrong(f"line {line}: {answer}")
            written.add((tree.key, kind))
        if answer is None:
            break
    return state


def later_run(program, top, shards):
    store = Store(program, os.path.join(top, "later"), shards)
    first = store.run(["open a", "write a 6162", "settle"])[1]
    second = store.run(["open a", "write a 6162", "settle", "read a h0", "settle"])[1]
    if first != "1 ok\n2 new h0 e1\n" or second != "1 ok\n2 dup h0 e1\n4 bytes 6162\n":
        wrong(f"{first}{second}")
    print("a later run finds what the first one left")


def kills(program, top, shards, count, seed):
    chance = random.Random(seed)
    store = Store(program, os.path.join(top, "killed"), shards)
    standing = [Tree(number) for number in range(STANDING)]
    first = ["open a"]
    for place, tree in enumerate(standing):
        first += [f"write a {tree.leaf}", "settle", f"write a {tree.node} h{2 * place}", "settle",
                  f"root a {tree.key} h{2 * place + 1}", "settle"]
    store.run(first)
    # A whole run takes about so long.
    seconds = Store(program, os.path.join(top, "whole"), shards).run(writing([Tree(n) for n in range(TREES)])[0])[2]
    number = cut = roots = drops = blocks = share = 0
    while cut < count:
        number += 1
        trees = [Tree(number * 1000 + place) for place in range(TREES)]
        lines, asks = writing(trees)
        # Every second one is killed behind the answer of some line.
        behind, most = chance.choice(((b"", seconds), (b"\n%d " % chance.choice(asks)[0], seconds / len(asks))))
        told, ended = store.killed(lines, chance.uniform(0, most), behind)
        cut += not ended
        state = known(asks, told)
        roots += sum(kept is True for kept in state.values())
        drops += sum(kept is False for kept in state.values())
        answers, found, last = look_back(store, standing, trees, state, after_kill(chance))
        blocks += check_found(trees, found[1], answers, gifts(asks, told), swept_of(answers[found[0]]))
        # As fast as the machine is now.
        share = share or seconds / last
        seconds = (seconds + last * share) / 2
        give_up(store, trees, number)
    print(f"{number} runs over {shards} shards, {cut} of them killed on their way: {roots} roots, {drops} drops and {blocks} "
          f"blocks that were answered were found again, each kept tree was read back whole, and all other blocks went",
          flush=True)


def look_back(store, standing, trees, state, first):
    """A run, behind these lines, that reads trees back through their roots, and writes those that were written again: its
    answers, the number of the line of its `stat` with the lines of those writes by key, and its seconds."""
    lines, places = reading(standing + trees, first)
    again, found = finding(trees, len(lines) + 2)
    answers, _, last = store.run([*lines, "stat", *again])
    for tree in standing:
        check(answers, places[tree.key], tree, True)
    for tree in trees:
        check(answers, places[tree.key], tree, state.get(tree.key, False))
    return answers, (len(lines) + 1, found), last


def give_up(store, trees, number):
    """All trees of a run are given up, and their space comes back."""
    lines = [line for tree in trees for line in (f"drop {tree.key}", "settle")]
    lines += [*DELETING, "stat"]
    told = store.run(lines)[0][len(lines)]
    if told.split()[:5] != ["stat", "blocks", str(2 * STANDING), "roots", str(STANDING)]:
        wrong(f"after the deletions of run {number}: {told}")


def two_at_once(program, top, shards):
    store = Store(program, os.path.join(top, "both"), shards)
    first = store.start()
    first.stdin.write("open a\nwrite a 61\nsettle\n")
    first.stdin.flush()
    if first.stdout.readline() != "1 ok\n" or first.stdout.readline() != "2 new h0 e1\n":
        wrong("the first of two runs")
    second = store.start(stderr=subprocess.PIPE)
    out, errors = second.communicate("open a\nwrite a 62\nsettle\n")
    lines = "hydra: another run has the folder\nhydra: shard 0 has no good peer\n"
    downs = "".join(f"- down {peer}\n" for peer in range(shards * Store.copies))
    if (out, errors, second.returncode) != (downs, lines, 4):
        wrong(f"the second of two runs: {second.returncode} {out}{errors}")
    out, _ = first.communicate("write a 62\nsettle\n")
    if (out, first.returncode) != ("4 new h1 e1\n", 0):
        wrong(f"the first of two runs goes on: {first.returncode} {out}")
    answers = store.run(["open a", "write a 61", "settle", "write a 62", "settle", "stat"])[0]
    if (answers[2], answers[4]) != ("dup h0 e1", "dup h1 e1") or not answers[6].startswith("stat blocks 2 "):
        wrong("two runs mixed")
    print("of two runs at once the second is told so, and the first goes on")


def loads(program, top, count):
    text = "".join(f"writer {number} files 20 kept 15\n" for number in range(4)) + "roots 60\nblocks 462\n"
    for number in range(count):
        folder = os.path.join(top, f"loaded{number}")
        words = [program, "load", folder, "4", "2", "--seed", "7", "--writers", "4"]
        first = subprocess.run(words, capture_output=True, text=True, check=False)
        if (first.stdout, beside_made(first.stderr), first.returncode) != (text, "", 0):
            wrong(f"a load: {first.returncode} {first.stdout}{first.stderr}")
        told = subprocess.run([program, "audit", folder, "4", "2"], capture_output=True, text=True, check=False)
        if told.returncode != 0 or told.stdout.count(" garbage 0\n") != 4 or not told.stdout.endswith("audit ok\n"):
            wrong(f"an audit of a load: {told.returncode} {told.stdout}{told.stderr}")
        second = subprocess.run(words, capture_output=True, text=True, check=False)
        if (second.stdout, second.stderr, second.returncode) != ("", "hydra: the store is not empty\n", 12):
            wrong(f"a second load: {second.returncode} {second.stdout}{second.stderr}")
    print(f"{count} loads print the same, leave nothing to sweep, and are not loaded again")


def main():
    here = os.path.dirname(os.path.abspath(__file__))
    words = argparse.ArgumentParser(description=__doc__)
    words.add_argument("--program", default=os.path.join(here, "..", "crates", "hydra", "out", "hydra"))
    words.add_argument("--folder", default=here, help="a folder on a real disk")
    words.add_argument("--shards", type=int, default=4)
    words.add_argument("--copies", type=int, default=1, help="of each shard")
    words.add_argument("--kills", type=int, default=200, help="how many runs are killed on their way")
    words.add_argument("--deletions", type=int, default=200, help="how many deletion runs are killed")
    words.add_argument("--loads", type=int, default=10, help="how many loads there are")
    words.add_argument("--blocks", type=int, default=16_000, help="of the store whose deletion runs are killed")
    words.add_argument("--seed", type=int, default=int(time.time()))
    asked = words.parse_args()
    program = os.path.abspath(asked.program)
    if not os.access(program, os.X_OK):
        sys.exit(f"{program} is not built: bin/hydra --version builds it")
    Store.copies = asked.copies
    print(f"seed {asked.seed}")
    with tempfile.TemporaryDirectory(dir=asked.folder) as top:
        later_run(program, top, asked.shards)
        two_at_once(program, top, asked.shards)
        loads(program, top, asked.loads)
        if asked.kills:
            kills(program, top, asked.shards, asked.kills, asked.seed)
        if asked.deletions:
            deletion_kills(program, top, asked.shards, asked.blocks, asked.deletions, asked.seed)


if __name__ == "__main__":
    main()
