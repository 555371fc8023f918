"""Kills of two deletion runs over many blocks, amid which blocks are written: a part of bench/trials.py."""
import os
import random
import shutil
import sys
from collections import Counter

from gifts import DELETING, Tree, after_kill, check_found, finding, gifts, swept_of
from runs import DISK_CALLS, Store, wrong
from trees import BLOCKS, LEAVES, entries_of, giving_up, leaf, left_of, planting, reading

# How many trees are written amid the runs.
AMID = 8


def place_of(folder, shards):
    """How far two deletion runs came, by the Enters in the logs."""
    enters = entries_of(folder)["Enter"][0]
    if enters == 0:
        return "before the first run"
    return "from the first run on" if enters <= shards * Store.copies else "in the second run"


def is_answered(answer, wanted):
    """Whether an answer is the wanted one; a held handle may be of any epoch."""
    return answer.startswith(wanted + " e") if wanted.startswith("held") else answer == wanted


def amid_trees(trees, number, chance):
    """Trees of two blocks for one kill: each second one is of a leaf that is given up."""
    made = []
    for place in range(AMID):
        given_up = leaf(chance.randrange(1, trees, 2), chance.randrange(1, LEAVES)) if place % 4 < 2 else None
        made.append(Tree(number * 100 + place, given_up))
    return made


def deleting(amid, shards, chance):
    """Lines of two deletion runs, in which trees are written between turns of peers, each in a session of its own; and what
    each line asks. A node's line is refused where its leaf has no answer yet."""
    lines, asks = [f"open w{place}" for place in range(len(amid))], []
    for half in (0, 1):
        lines.append("delete")
        for place in range(half, len(amid), 2):
            for kind, rest in (("leaf", amid[place].leaf), ("node", f"{amid[place].node} h0")):
                lines += [f"turn {chance.randrange(shards * Store.copies)}" for _ in range(chance.randrange(10 * shards))]
                lines.append(f"write w{place} {rest}")
                asks.append((len(lines), kind, amid[place]))
        lines.append("settle")
    return lines, asks


class Deletions:
    """A store of many trees of which half are given up, whose two deletion runs are killed."""

    def __init__(self, program, top, shards, blocks, chance):
        # Trees come in pairs.
        self.trees = blocks // BLOCKS // 2 * 2
        self.shards, self.chance = shards, chance
        self.planted = os.path.join(top, "planted")
        Store(program, self.planted, shards).run([*planting(self.trees), *giving_up(self.trees)])
        self.store = Store(program, os.path.join(top, "deleting"), shards)
        self.lines, self.wanted = reading(self.trees)
        self.store.plant(self.planted)
        lines = deleting(amid_trees(self.trees, 0, chance), shards, chance)[0]
        # Much of a run is opening.
        opening = self.store.run(["stat"])[2]
        self.seconds = self.store.run(lines)[2]
        self.part = max(self.seconds - opening, 0) / 4
        self.before, self.calls = {}, {}
        if shutil.which("strace"):
            for lines_of, told in ((["stat"], self.before), (lines, self.calls)):
                self.store.plant(self.planted)
                told.update(self.store.calls(lines_of))

    def kill(self, lines, number):
        """Each second kill is at a random call of the disk behind opening, where there is strace. The others are at a random
        instant, every second one of them behind the end of the first run."""
        self.store.plant(self.planted)
        if self.calls and number % 2:
            call = self.chance.choice(DISK_CALLS)
            return self.store.killed_at(lines, call, self.chance.randint(self.before[call] + 1, self.calls[call]))
        behind = self.chance.choice((b"", b"- done "))
        return self.store.killed(lines, self.chance.uniform(0, self.part if behind else self.seconds), behind)

    def check(self, number, amid, given):
        """Each kept tree is read back whole, what was given has to be found again, and two deletions leave the kept trees.
        How many blocks were found again."""
        first = after_kill(self.chance)
        stat = len(first) + len(self.lines) + 1
        again, places = finding(amid, stat + 1)
        answers = self.store.run([*first, *self.lines, "stat", *again])[0]
        for line, text in self.wanted.items():
            if not is_answered(answers.get(line + len(first), ""), text):
                wrong(f"after kill {number}: {self.lines[line - 1]}: {answers.get(line + len(first))}, where {text} was wanted")
        count = check_found(amid, places, answers, given, swept_of(answers[stat]))
        told = self.store.run([*DELETING, "stat"])[0][len(DELETING) + 1]
        if told.split()[:5] != ["stat", "blocks", str(left_of(self.trees)), "roots", str(self.trees // 2)]:
            wrong(f"after kill {number} and two deletions: {told}")
        return count


def deletion_kills(program, top, shards, blocks, count, seed):
    chance = random.Random(seed)
    runs = Deletions(program, top, shards, blocks, chance)
    places, number, again, found = Counter(), 0, 0, 0
    while sum(places.values()) < count:
        number += 1
        amid = amid_trees(runs.trees, number, chance)
        lines, asks = deleting(amid, shards, chance)
        told, ended = runs.kill(lines, number)
        if ended:
            continue
        places[place_of(runs.store.folder, shards)] += 1
        if number % 3 == 0:
            # The run that opens what was left is killed too.
            again += not runs.store.killed(["settle"], chance.uniform(0, runs.seconds))[1]
        found += runs.check(number, amid, gifts(asks, told))
        if sum(places.values()) % 10 == 0:
            print(f"{dict(places)}, {again} killed again, {found} blocks found again", file=sys.stderr, flush=True)
    where = ", ".join(f"{number} {place}" for place, number in sorted(places.items()))
    gone = runs.trees * BLOCKS - left_of(runs.trees)
    print(f"two deletion runs over {runs.trees * BLOCKS} blocks in {shards} shards, of which {gone} go: {count} kills ({where}), "
          f"{again} of them killed once more as they opened: each opened and settled, each kept tree was read back whole, "
          f"{found} blocks that were answered amid the runs were found again, and two deletions left just the kept trees")
