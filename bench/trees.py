"""Stores of many trees, and what their logs have: for bench/trials.py and bench/deletions.py."""
import hashlib
import os

# A node and its leaves; a kept tree's node points to one leaf of the tree behind it too.
LEAVES = 63
BLOCKS = LEAVES + 1
KINDS = {1: "View", 2: "Block", 3: "Mark", 4: "Root", 5: "Drop", 6: "Enter", 7: "Got"}
OPEN = 0xA5
FIRST_FRAME = 17


def leaf(tree, place):
    return (tree.to_bytes(4, "big") + place.to_bytes(4, "big")).hex() * 8


def node(tree):
    return "ff" + tree.to_bytes(7, "big").hex()


def shard_of(data, shards):
    """The shard of a block of these data and no pointers: that of the last byte of its address."""
    size = len(data) // 2
    spelling = bytes((1, 0, 0)) + size.to_bytes(4, "big") + bytes.fromhex(data)
    return hashlib.sha256(spelling).digest()[-1] % shards


def settled(lines):
    return [part for line in lines for part in (line, "settle")]


def planting(trees):
    """Lines that write and root so many trees, two in a session; each second one is meant to be given up."""
    lines = []
    for first in range(0, trees, 2):
        name = f"s{first}"
        lines.append(f"open {name}")
        for place, tree in enumerate((first + 1, first)):
            at = place * BLOCKS
            own = [f"h{at + number}" for number in range(LEAVES)]
            shared = [] if place == 0 else ["h0"]
            wait = [f"write {name} {leaf(tree, number)}" for number in range(LEAVES)]
            wait.append(" ".join((f"write {name} {node(tree)}", *own, *shared)))
            wait.append(f"root {name} k{tree} h{at + LEAVES}")
            lines += settled(wait)
        lines.append(f"close {name}")
    return lines


def giving_up(trees):
    return settled(f"drop k{tree}" for tree in range(1, trees, 2))


def reading(trees):
    """Lines that read every kept tree back whole through its root, and what they have to answer, by line; any epoch will do."""
    lines, wanted = [], {}

    def ask(line, answer, waits=True):
        lines.append(line)
        wanted[len(lines)] = answer
        if waits:
            lines.append("settle")

    for tree in range(0, trees, 2):
        name = f"r{tree}"
        ask(f"open {name}", "ok", False)
        ask(f"look {name} k{tree}", "held h0", False)
        handles = " ".join(f"h{number + 1}" for number in range(LEAVES + 1))
        ask(f"read {name} h0", f"bytes {node(tree)} {handles}")
        for number in range(LEAVES):
            ask(f"read {name} h{number + 1}", f"bytes {leaf(tree, number)}")
        ask(f"read {name} h{LEAVES + 1}", f"bytes {leaf(tree + 1, 0)}")
        ask(f"close {name}", "ok", False)
    return lines, wanted


def left_of(trees):
    """How many blocks the kept trees reach."""
    return (trees + 1) // 2 * (BLOCKS + 1)


def entries_of(folder):
    """The entries in the logs of a folder, by kind: how many, and their bytes with those of their frames."""
    counts = {kind: [0, 0] for kind in KINDS.values()}
    for name in sorted(os.listdir(folder)):
        with open(os.path.join(folder, name), "rb") as file:
            side = file.read()
        if len(side) <= FIRST_FRAME or side[0] != OPEN:
            continue
        at = FIRST_FRAME
        while side[at] == OPEN:
            size = int.from_bytes(side[at + 1 : at + 5], "big")
            kind = counts[KINDS[side[at + 5]]]
            kind[0] += 1
            kind[1] += 5 + size
            at += 5 + size
    return counts
