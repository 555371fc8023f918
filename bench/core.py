#!/usr/bin/env python3
"""Measures what an event of the core costs, with little and with much at rest.

It runs the program of crates/hs_core_bench, which puts blocks, operations, entries and messages at rest and then does
rounds of events, and takes a run without rounds from one with them. Seconds are those of a processor, the median of some
runs; instructions, where valgrind is there, are counted by its callgrind in user space alone, those of each kind of event
at the place where the round calls it. It makes no file but in a folder of its own.
"""
import argparse
import os
import re
import shutil
import statistics
import subprocess
import sys
import tempfile

# The events of a round, in their order, by the function that does them.
PARTS = {
    "read_block": ("a read", "a line of a busy session", "the read's bytes"),
    "look": ("a name", "stat", "a turn"),
    "write_again": ("a write", "the compared bytes", "the Append", "the Seal", "the Copy", "the copy's Append", "the copy's Seal",
                    "the Have"),
    "do_rounds": ("a forget",),
}
KINDS = tuple(kind for part in PARTS.values() for kind in part)
EVENTS = len(KINDS)
# Of these, what is answered, and what is refused: the line of a busy session.
ANSWERS = 6
REFUSALS = 1
# What a round calls for an event.
CALLED = tuple(f"::asking::{name}" for name in ("ask", "read", "write", "address", "forget"))
CALLED += ("::driving::report", "::driving::deliver", "::Core::step")
COLLECTED = re.compile(r"Collected\s*:\s*(\d+)")
TOLD = re.compile(r"(\d+) blocks, (\d+) operations at rest, (\d+) events, (\d+) answers, (\d+) refusals")


def run(program, rest, rounds, before=()):
    """Seconds of a processor, the number of answers, and what was printed on standard error."""
    done = subprocess.Popen([*before, program, str(rest), str(rounds)], stdout=subprocess.PIPE, stderr=subprocess.PIPE)
    printed, told = done.stdout.read().decode(), done.stderr.read().decode(errors="replace")
    _, status, usage = os.wait4(done.pid, 0)
    parts = TOLD.search(printed)
    if status != 0 or not parts:
        sys.exit(f"{program} {rest} {rounds} ended with {status}: {printed}{told[-500:]}")
    blocks, operations, events, answers, refusals = (int(part) for part in parts.groups())
    if (blocks, operations, events, refusals) != (rest, rest, rounds * EVENTS, rounds * REFUSALS):
        sys.exit(f"{program} {rest} {rounds} prints {printed}")
    return usage.ru_utime + usage.ru_stime, answers, told


def seconds(program, rest, rounds, times):
    return statistics.median(run(program, rest, rounds)[0] for _ in range(times))


def instructions(program, rest, rounds, calls):
    told = run(program, rest, rounds, ["valgrind", "--tool=callgrind", "--dump-instr=yes", "--compress-strings=no",
                                       "--compress-pos=no", f"--callgrind-out-file={calls}"])[2]
    return int(COLLECTED.search(told).group(1))


def kinds_of(calls, rounds):
    """The instructions of an event of each kind: of each place that calls one of them as often as there are rounds. A function
    that the compiler put into another one has its places there."""
    places, caller, called, count = {}, "", "", None
    with open(calls, encoding="utf-8") as lines:
        for line in lines:
            if count is not None:
                address, _, cost = line.split()
                if count == rounds and called.endswith(CALLED):
                    places.setdefault(caller, []).append((int(address, 16), int(cost) / rounds))
                count = None
            elif line.startswith("fn="):
                caller = line[3:].strip().rsplit("::", 1)[-1]
            elif line.startswith("cfn="):
                called = line[4:].strip()
            elif line.startswith("calls="):
                count = int(line[6:].split()[0])
    kinds, left = {}, ()
    for part, of_part in PARTS.items():
        own = sorted(places.get(part, ()))
        if len(own) == len(of_part):
            kinds.update((kind, cost) for kind, (_, cost) in zip(of_part, own))
            del places[part]
        else:
            left += of_part
    others = [sorted(own) for own in places.values() if len(own) == len(left)]
    if left and len(others) != 1:
        return None
    kinds.update((kind, cost) for kind, (_, cost) in zip(left, others[0] if left else ()))
    return [kinds[kind] for kind in KINDS]


def spread(costs):
    """The greatest by the least."""
    return f"{max(costs) / min(costs):.2f}"


def main():
    here = os.path.dirname(os.path.abspath(__file__))
    words = argparse.ArgumentParser(description=__doc__)
    words.add_argument("--program", default=os.path.join(here, "..", "crates", "hs_core_bench", "out", "hs_core_bench"))
    words.add_argument("--rest", type=int, nargs="*", default=[1, 64, 10000], help="how much rests")
    words.add_argument("--rounds", type=int, default=20000)
    words.add_argument("--counted", type=int, default=1000, help="rounds of which instructions are counted")
    words.add_argument("--times", type=int, default=5, help="runs of which the median is taken")
    asked = words.parse_args()
    program = os.path.abspath(asked.program)
    if not os.access(program, os.X_OK):
        sys.exit(f"{program} is not built: `rt run` in crates/hs_core_bench builds it")
    costs = []
    for rest in asked.rest:
        none, all_of = (seconds(program, rest, rounds, asked.times) for rounds in (0, asked.rounds))
        costs.append((all_of - none) / (asked.rounds * EVENTS))
        answers = run(program, rest, 100)[1] - run(program, rest, 0)[1]
        if answers != 100 * ANSWERS:
            sys.exit(f"100 rounds with {rest} at rest answer {answers} times")
        print(f"{rest} at rest: {costs[-1] * 1e6:.2f} us an event, {1 / costs[-1]:,.0f} events a second; {ANSWERS} answers of "
              f"{EVENTS} events")
    print(f"the greatest by the least: {spread(costs)}")
    if not shutil.which("valgrind"):
        print("instructions: not counted, there is no valgrind")
        return
    count(program, asked.rest, asked.counted)


def count(program, rests, rounds):
    """Prints the instructions of an event, and those of each kind."""
    means, kinds = [], []
    with tempfile.TemporaryDirectory() as top:
        calls = os.path.join(top, "calls")
        for rest in rests:
            none, all_of = (instructions(program, rest, each, calls) for each in (0, rounds))
            means.append((all_of - none) / (rounds * EVENTS))
            kinds.append(kinds_of(calls, rounds))
    print(f"instructions of an event: {', '.join(f'{mean:,.0f}' for mean in means)}; the greatest by the least {spread(means)}")
    if None in kinds:
        print("of each: not told, the compiler put a round's calls elsewhere")
        return
    for kind, costs in zip(KINDS, zip(*kinds)):
        print(f"  {kind}: {', '.join(f'{cost:,.0f}' for cost in costs)}; {spread(costs)}")


main()
