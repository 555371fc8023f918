#!/usr/bin/env python3
"""Makes the manual page and the completions of hydra from the one source of its words, the text of `--help` in
crates/hydra/src/help.rt: share/man/hydra.1, share/bash/hydra, share/zsh/_hydra. `--check` writes none of them, and ends
with status 1 where one is not what would be made. `man share/man/hydra.1` shows the page; a shell finds a completion
where it is copied to its folder of completions, or is read by `.`."""
import os
import re
import sys

HERE = os.path.dirname(os.path.abspath(__file__))
SOURCE = f"{HERE}/../crates/hydra/src/help.rt"

# Where a part of the page begins: with the paragraph that has these first words.
PARTS = [
    ("DESCRIPTION", "A store keeps blocks"),
    ("COMMANDS", "Seven commands are served"),
    ("STORES", "A script is read from"),
    ("FILES", "A store takes standard input"),
    ("LOADS", "A load tries an empty store"),
    ("LOOKING A STORE OVER", "An audit reads the files"),
    ("COPIES", "A copy puts the root"),
    ("OPTIONS", "An option of a script"),
    ("SCRIPT", "The lines of a script"),
    ("EXIT STATUS", "Exit statuses."),
    ("LAUNCHER", "The launcher bin/hydra"),
    ("DAMAGED DISKS", "A damaged disk:"),
]
# The words that stand alone.
ALONE = ["--help", "--version"]


def give_up(why):
    print(f"make.py: {why}", file=sys.stderr)
    sys.exit(1)


def constant(name):
    """The text of a constant of help.rt, which has no escapes but its line ends."""
    with open(SOURCE, encoding="ascii") as file:
        found = re.search(rf'^pub const {name}: &str = "(.*?)";$', file.read(), re.M | re.S)
    text = (found or give_up(f"help.rt has no {name}")).group(1)
    text = text.removeprefix("\\\n").replace("\\n", "\n")
    return text if "\\" not in text else give_up(f"{name} has an escape")


def commands(text):
    """Each command, with its options in the order of the text."""
    found = {}
    for name, words in re.findall(r"^  hydra (\w+) (DIR G R.*)$", text, re.M):
        found.setdefault(name, re.findall(r"--\w+", words))
    if "script" not in found:
        give_up("no command `script` is in the text")
    found["script"] = re.findall(r"^  (--\w+) N  ", text, re.M)
    return found


def places(text):
    """Each command, with the words that it takes before its options, in order: folders, shapes and a key."""
    return {name: words.split() for name, words in re.findall(r"^  hydra (\w+) ((?:[A-Z]+\d?(?: |$))+)", text, re.M)}


def by_place(text, folder, word, ends):
    """A row for each place of a command's words that one is known for, and then for its options, as a shell's `case` has it."""
    known = {"G": numbers(text, "blocks are parted", "G"), "R": numbers(text, "copies of each", "R")}
    rows = []
    for name, words in places(text).items():
        for at, what in enumerate(words, 2):
            kind = what.rstrip("2")
            say = folder if kind == "DIR" else word.format(" ".join(known[kind])) if kind in known else ":"
            rows.append(f"        {name}:{at}) {say} ;;")
        rows.append(f"        {name}:*) [ $(((at - {len(words)}) % 2)) -eq 1 ] || {ends} ;;")
    return "\n".join(rows)


def launcher(text):
    """The words that bin/hydra takes beside the commands."""
    part = text[text.index(dict(PARTS)["LAUNCHER"]):]
    return re.findall(r"^  (--\w+) [A-Z]+  ", part[:part.index("\n\n", part.index("  --"))], re.M)


def numbers(text, before, what):
    """The numbers behind these words: `1, 2, 4 or 8`, or `1 to 4`."""
    found = re.search(rf"{before}:\s+(\d to \d|\d[0-9 ,or]*\d)", " ".join(text.split()))
    said = (found or give_up(f"the text does not tell {what}")).group(1)
    if " to " in said:
        least, most = map(int, said.split(" to "))
        return [str(n) for n in range(least, most + 1)]
    return re.findall(r"\d+", said)


def escaped(line):
    line = line.replace("\\", "\\e").replace("-", "\\-")
    return "\\&" + line if line.startswith((".", "'")) else line


def page(text, version):
    usage, rest = text.split("\n\n", 1)
    lines = [f'.TH HYDRA 1 "" "{version}"', ".SH NAME", "hydra \\- a content\\-addressed block store", ".SH SYNOPSIS", ".nf"]
    lines += [escaped(line.removeprefix("usage:").strip()) for line in usage.split("\n")]
    lines.append(".fi")
    left = list(PARTS)
    for block in rest.rstrip("\n").split("\n\n"):
        if left and block.startswith(left[0][1]):
            lines.append(f".SH {left.pop(0)[0]}")
        is_shown = block.startswith(" ")
        lines += [".PP", *[".nf"] * is_shown, *map(escaped, block.split("\n")), *[".fi"] * is_shown]
    if left:
        give_up(f"no paragraph begins with `{left[0][1]}`, where {left[0][0]} begins")
    return "\n".join(lines) + "\n"


def bash(text):
    known = commands(text)
    options = "\n".join(f"        {name}) options='{' '.join(words)}' ;;" for name, words in known.items() if words)
    return f"""# Made by share/make.py from the words of hydra.
_hydra() {{
    local word=${{COMP_WORDS[COMP_CWORD]}} at=$COMP_CWORD command=${{COMP_WORDS[1]}} options=
    if [ "$command" = --try ]; then
        at=$((at - 1))
        command=${{COMP_WORDS[2]}}
    fi
    case $command in
{options}
    esac
    case $command:$at in
        *:1) COMPREPLY=($(compgen -W "{' '.join([*known, *launcher(text), *ALONE])}" -- "$word")) ;;
{by_place(text, 'COMPREPLY=($(compgen -f -- "$word"))', 'COMPREPLY=($(compgen -W "{}" -- "$word"))', 'COMPREPLY=($(compgen -W "$options" -- "$word"))')}
        *) COMPREPLY=($(compgen -f -- "$word")) ;;
    esac
}}
complete -o filenames -F _hydra hydra
"""


def zsh(text):
    known = commands(text)
    options = "\n".join(f"        {name}) options=({' '.join(words)}) ;;" for name, words in known.items() if words)
    return f"""#compdef hydra
# Made by share/make.py from the words of hydra.
local -a options
local at=$((CURRENT - 1)) command=$words[2]
if [[ $command == --try ]]; then
    at=$((at - 1))
    command=$words[3]
fi
case $command in
{options}
esac
case $command:$at in
    *:1) compadd -- {' '.join([*known, *launcher(text), *ALONE])} ;;
{by_place(text, '_files', 'compadd -- {}', 'compadd -- $options').replace('        ', '    ')}
    *) _files ;;
esac
"""


def main():
    if sys.argv[1:] not in ([], ["--check"]):
        give_up("usage: share/make.py [--check]")
    text = constant("HELP")
    made = {"man/hydra.1": page(text, constant("VERSION").strip()), "bash/hydra": bash(text), "zsh/_hydra": zsh(text)}
    stale = []
    for name, wanted in made.items():
        path = f"{HERE}/{name}"
        there = open(path, encoding="ascii").read() if os.path.exists(path) else None
        if there == wanted:
            continue
        stale.append(name)
        if not sys.argv[1:]:
            os.makedirs(os.path.dirname(path), exist_ok=True)
            with open(path, "w", encoding="ascii") as file:
                file.write(wanted)
    for name in stale:
        print(f"share/{name} {'is not what share/make.py makes' if sys.argv[1:] else 'made'}")
    return 1 if stale and sys.argv[1:] else 0


if __name__ == "__main__":
    sys.exit(main())
