"""Which blocks a run was given by its writes, and which of them a later run has to find: for bench/trials.py.

An ask is the number of a line, what it asks for (a leaf, a node, a root, a drop or a delete), and of which tree.
"""
from runs import wrong

# Two deletions leave nothing of what is given up before them.
DELETING = ("delete", "settle", "delete", "settle")

# A tree's blocks, and the blocks that keep each of them.
KEPT_BY = {"leaf": ("leaf", "node"), "node": ("node",)}


class Tree:
    """A node that points to one leaf, and a key for it."""

    def __init__(self, number, leaf=None):
        self.key = f"k{number}"
        self.leaf = leaf or number.to_bytes(8, "big").hex() * 32
        self.node = "ff" + number.to_bytes(8, "big").hex() * 8


def gifts(asks, answers):
    """By a tree's key and the kind of its block, the epoch in which a write was last given the block. A write may be refused
    where its session is busy, and else not."""
    given = {}
    for line, kind, tree in asks:
        if kind not in KEPT_BY or line not in answers:
            continue
        told = answers[line].split()
        if told[0] in ("new", "dup"):
            given[tree.key, kind] = int(told[2].removeprefix("e"))
        elif told[:2] != ["no", "busy"]:
            wrong(f"line {line}: {answers[line]}")
    return given


def is_kept(tree, kind, given, swept):
    """Whether no sweep up to this epoch may have removed a block: it, or what points to it, was given in the epoch before or
    later."""
    return any(given.get((tree.key, each), -1) + 1 >= swept for each in KEPT_BY[kind])


def finding(trees, first):
    """Lines that write trees again, the first of which has this number; and by key the number of its leaf's line. That of its
    node is two greater."""
    lines, places = ["open again"], {}
    for number, tree in enumerate(trees):
        places[tree.key] = first + len(lines)
        lines += [f"write again {tree.leaf}", "settle", f"write again {tree.node} h{2 * number}", "settle"]
    return lines, places


def check_found(trees, places, answers, given, swept):
    """Each block that can't have been removed has to be there. How many these were."""
    count = 0
    for tree in trees:
        for kind, place in (("leaf", places[tree.key]), ("node", places[tree.key] + 2)):
            kept = is_kept(tree, kind, given, swept)
            if not answers.get(place, "").startswith("dup " if kept else ("dup ", "new ")):
                epochs = {each: given.get((tree.key, each)) for each in KEPT_BY}
                wrong(f"the {kind} of {tree.key}, of epochs {epochs}, where {swept} is swept: {answers.get(place)}")
            count += kept
    return count


def swept_of(told):
    """The epoch that all shards have swept, by the answer of a `stat` behind a `settle`."""
    words = told.split()
    epochs = set(words[8].split(",") + words[10].split(",")) if len(words) == 11 else ()
    if words[:1] != ["stat"] or len(epochs) != 1:
        wrong(f"the shards are not level: {told}")
    return int(epochs.pop())


def after_kill(chance):
    """What a run does first after a kill: it ends what was begun, and every second time it deletes once more, so that what
    was given in the last epoch shows whether it is kept."""
    return chance.choice((("settle",), ("settle", "delete", "settle")))
