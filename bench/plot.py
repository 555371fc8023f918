#!/usr/bin/env python3
"""Runs all measures of bench/ and draws what they tell, as SVG, with nothing but Python's own library.

What each measure prints is kept in a file of the folder --out (out/bench), and the pictures beside it: lines.svg (lines a
second on files, by shards and copies), syncs.svg (syncs an entry, by the same), deletions.svg (writes amid a deletion run
beside writes without one), opening.svg (the time of opening, by blocks), loads.svg and loads_memory.svg (operations a second of a
load), and files.svg (files kept and given back, beside restic and borg where these are there). `--draw` runs nothing and draws what
is there; `--only NAME ..` runs these measures alone; `--quick` takes fewer rounds, for a look.
"""
import argparse
import os
import re
import subprocess
import sys

HERE = os.path.dirname(os.path.abspath(__file__))
SHARDS, COPIES = (1, 2, 4, 8), (1, 2, 3, 4)
COLOURS = ("#1f6f8b", "#d1495b", "#edae49", "#66a182", "#7d5ba6", "#555555")
WIDTH, HEIGHT, LEFT, TOP, RIGHT, BOTTOM = 660, 400, 80, 50, 170, 60
NUMBER = r"([\d.,]+)"


def measures(quick):
    """Each measure: its name, and its words."""
    few = ["--rounds", "1"] if quick else []
    for copies in COPIES:
        for shards in SHARDS:
            yield f"lines-{shards}-{copies}", ["measure.py", "--shards", str(shards), "--copies", str(copies), *few]
    yield "opening", ["lines.py", *few]
    yield "deletions", ["deletions.py", *few]
    yield "loads", ["load.py", *few]
    yield "files", ["files.py", *few]
    yield "count", ["count.py"]
    yield "copied", ["copies.py"]
    yield "shard", ["shard.py", *few]
    yield "core", ["core.py", *few]


def run(asked):
    """Runs the measures that are asked for, and says which ones failed."""
    failed = []
    for name, words in measures(asked.quick):
        if asked.only and name.split("-")[0] not in asked.only:
            continue
        print(f"{name}: {' '.join(words)}", file=sys.stderr, flush=True)
        own = ["--program", asked.program] if asked.program and words[0] not in ("shard.py", "core.py") else []
        with open(f"{asked.out}/{name}.txt", "w", encoding="utf-8") as text:
            if subprocess.run([sys.executable, f"{HERE}/{words[0]}", *words[1:], *own], stdout=text, check=False).returncode:
                failed.append(name)
    return failed


def said(out, name):
    """What a measure has printed, and nothing where it was not run."""
    try:
        with open(f"{out}/{name}.txt", encoding="utf-8") as text:
            return text.read()
    except FileNotFoundError:
        return ""


def numbers(pattern, text):
    """The numbers of each place where a text is so."""
    found = re.findall(pattern, text)
    return [tuple(float(part.replace(",", "")) for part in (it if isinstance(it, tuple) else (it,))) for it in found]


def escaped(text):
    return str(text).replace("&", "&amp;").replace("<", "&lt;")


def nice(most):
    """A round number that is not below this one, and the step between lines."""
    step = 10.0 ** len(str(int(most)))
    while step * 2 > most and step > 1e-9:
        step /= 2 if str(step)[0] in "12" else 2.5
    step = step / 2 if most / step < 3 else step
    return step * -(-most // step), step


class Picture:
    """A picture with a title, an upward axis from 0, and the names of its series at the right."""

    def __init__(self, title, upward, across, most):
        self.most, step = nice(most)
        self.parts = [f'<text x="{LEFT}" y="26" font-size="16">{escaped(title)}</text>',
                      f'<text x="{LEFT + self.width() / 2}" y="{HEIGHT - 14}" text-anchor="middle">{escaped(across)}</text>',
                      f'<text x="18" y="{TOP + self.height() / 2}" text-anchor="middle" '
                      f'transform="rotate(-90 18 {TOP + self.height() / 2})">{escaped(upward)}</text>']
        for place in range(round(self.most / step) + 1):
            at = self.up(place * step)
            self.parts += [f'<line x1="{LEFT}" x2="{LEFT + self.width()}" y1="{at:.1f}" y2="{at:.1f}" stroke="#ddd"/>',
                           f'<text x="{LEFT - 8}" y="{at + 4:.1f}" text-anchor="end">{place * step:,.6g}</text>']

    @staticmethod
    def width():
        return WIDTH - LEFT - RIGHT

    @staticmethod
    def height():
        return HEIGHT - TOP - BOTTOM

    def up(self, value):
        return TOP + self.height() * (1 - value / self.most)

    def mark(self, at, text):
        self.parts.append(f'<text x="{at:.1f}" y="{HEIGHT - BOTTOM + 20}" text-anchor="middle">{escaped(text)}</text>')

    def name(self, place, text):
        at = TOP + 14 + 20 * place
        self.parts += [f'<rect x="{WIDTH - RIGHT + 14}" y="{at - 10}" width="12" height="12" fill="{COLOURS[place]}"/>',
                       f'<text x="{WIDTH - RIGHT + 32}" y="{at}">{escaped(text)}</text>']

    def save(self, path):
        with open(path, "w", encoding="utf-8") as file:
            file.write(f'<svg xmlns="http://www.w3.org/2000/svg" width="{WIDTH}" height="{HEIGHT}" font-family="sans-serif" '
                       f'font-size="12"><rect width="{WIDTH}" height="{HEIGHT}" fill="white"/>' + "\n".join(self.parts) + "</svg>\n")
        print(path)


def lines(path, title, upward, across, series, to_scale=False):
    """Lines through points, each series a name and its points (x, y); the places across are those that come, in order, or to scale."""
    series = [(name, points) for name, points in series if points]
    if not series:
        return
    places = sorted({x for _, points in series for x, _ in points})
    picture = Picture(title, upward, across, max(y for _, points in series for _, y in points))
    at = {x: LEFT + picture.width() * ((0.05 + 0.9 * x / places[-1]) if to_scale else (place + 0.5) / len(places)) for place, x in enumerate(places)}
    for x in places:
        picture.mark(at[x], f"{x:,.6g}")
    for place, (name, points) in enumerate(series):
        marks = [(at[x], picture.up(y)) for x, y in sorted(points)]
        picture.parts.append(f'<polyline fill="none" stroke="{COLOURS[place]}" stroke-width="2" points="'
                             + " ".join(f"{x:.1f},{y:.1f}" for x, y in marks) + '"/>')
        picture.parts += [f'<circle cx="{x:.1f}" cy="{y:.1f}" r="3.5" fill="{COLOURS[place]}"/>' for x, y in marks]
        picture.name(place, name)
    picture.save(path)


def bars(path, title, upward, across, groups, series):
    """Bars in groups, each series a name and a height for each group."""
    if not groups or not series:
        return
    picture = Picture(title, upward, across, max(y for _, row in series for y in row))
    wide = picture.width() / len(groups)
    for place, group in enumerate(groups):
        picture.mark(LEFT + wide * (place + 0.5), group)
    for place, (name, row) in enumerate(series):
        for number, y in enumerate(row):
            x = LEFT + wide * (number + 0.15 + 0.7 * place / len(series))
            top = picture.up(y)
            picture.parts.append(f'<rect x="{x:.1f}" y="{top:.1f}" width="{wide * 0.65 / len(series):.1f}" '
                                 f'height="{HEIGHT - BOTTOM - top:.1f}" fill="{COLOURS[place]}"><title>{y:,.6g}</title></rect>')
        picture.name(place, name)
    picture.save(path)


def by_shape(out, pattern, place):
    """A series for each number of copies: by shards, the number of the size of block at this place."""
    series = []
    for copies in COPIES:
        rows = [(shards, numbers(pattern, said(out, f"lines-{shards}-{copies}"))) for shards in SHARDS]
        series.append((f"{copies} cop{'y' if copies == 1 else 'ies'}", [(shards, row[place][0]) for shards, row in rows if len(row) > place]))
    return series


def draw(out):
    lines(f"{out}/lines.svg", "Lines a second on files, blocks of 1 KiB, one client", "lines a second", "shards",
          by_shape(out, rf"on files {NUMBER}", 1))
    lines(f"{out}/syncs.svg", "Syncs of an entry", "syncs", "shards", by_shape(out, rf"an entry {NUMBER}", 1))
    rows = numbers(rf"the median {NUMBER} lines a second of processor time, without one {NUMBER}", said(out, "deletions"))
    shards = [f"{row[0]:g}" for row in numbers(rf"(?m)^{NUMBER} shards:", said(out, "deletions"))]
    if rows and len(rows) == len(shards):
        bars(f"{out}/deletions.svg", "Writes amid a deletion run, and without one", "lines a second of processor time", "shards",
             shards, [("amid one", [row[0] for row in rows]), ("without", [row[1] for row in rows])])
    rows = numbers(rf"opening {NUMBER} blocks: {NUMBER} ms", said(out, "opening"))
    none = numbers(rf"opening none: {NUMBER} ms", said(out, "opening"))
    lines(f"{out}/opening.svg", "Opening a store", "ms of processor time", "blocks of 64 bytes",
          [("opening", [(0, none[0][0]), *rows] if none else rows)], to_scale=True)
    loads(out)
    files(out)


def loads(out):
    """Operations a second by shards, with 8 writers: on disks whose syncs take time, and in memory."""
    slow, fast = [], []
    for part in re.split(r"(?m)^(?=\S)", said(out, "loads")):
        head = part.partition(":\n")[0]
        lasts = re.search(r"each sync lasts (.*)", head)
        kind = f"{lasts.group(1)} a sync" if lasts else "on files" if "on files" in head else "in memory"
        for copies, row in re.findall(r"(\d) copies, 8 writers, shards 1, 2, 4, 8: operations a second ([\d, ]+)", part):
            values = [float(word) for word in row.split(",") if word.strip()]
            name = f"{kind}, {copies} cop{'y' if copies == '1' else 'ies'}"
            (fast if kind == "in memory" else slow).append((name, list(zip(SHARDS, values))))
    lines(f"{out}/loads.svg", "Loads by 8 writers, on files and where syncs last", "operations a second", "shards", slow)
    lines(f"{out}/loads_memory.svg", "Loads by 8 writers, in memory", "operations a second", "shards", fast)


def files(out):
    rows = re.findall(rf"(?m)^(\w+): stored {NUMBER} {NUMBER}, again {NUMBER} {NUMBER}, given back {NUMBER} {NUMBER};", said(out, "files"))
    bars(f"{out}/files.svg", "64 MiB of random files", "wall seconds", "", ["stored", "stored again", "given back"],
         [(row[0], [float(row[at]) for at in (1, 3, 5)]) for row in rows])


def main():
    words = argparse.ArgumentParser(description=__doc__, formatter_class=argparse.RawDescriptionHelpFormatter)
    words.add_argument("--program", help="another program than the built one")
    words.add_argument("--out", default=os.path.join(HERE, "..", "out", "bench"))
    words.add_argument("--only", nargs="+", help="lines, opening, deletions, loads, files, count, copied, shard, core")
    words.add_argument("--quick", action="store_true")
    words.add_argument("--draw", action="store_true")
    asked = words.parse_args()
    asked.program = asked.program and os.path.abspath(asked.program)
    os.makedirs(asked.out, exist_ok=True)
    failed = [] if asked.draw else run(asked)
    draw(asked.out)
    for name in failed:
        print(f"{name} failed, and what it said is in {asked.out}/{name}.txt", file=sys.stderr)
    return 1 if failed else 0


if __name__ == "__main__":
    sys.exit(main())
