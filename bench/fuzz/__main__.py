"""Compares what `tacd replay` and `tacd check` print, and what `tacd replay --log` writes, with a
reference, on scripts that are drawn.

The reference (the package `reference`) is written from docs/ alone: it searches a policy from its
top, counts over all records, looks for least texts among all texts, and keeps nothing. The package
`generator` draws scripts and policies by what they do: conversations of all kinds, cut anywhere;
edits, questions and patterns of all kinds; headers, bodies, lines and policies with a thing wrong;
and what is at a limit. Output, status and the lines of the log have to be the same, byte by byte. A
script on which they aren't is made smaller and printed, with both of each.

    python3 bench/fuzz [--seed N] [--count N] [--first N] [PROGRAM]
    python3 bench/fuzz pairs [--seed N] [--count N] [--first N] [PROGRAM]
    python3 bench/fuzz changes [--seed N] [--count N] [--first N] [PROGRAM]
    python3 bench/fuzz devices [--seed N] [--count N] [--first N] [PROGRAM]
    python3 bench/fuzz selfcheck [--seed N] [--count N]
    python3 bench/fuzz show [--seed N] NUMBER

The program is the one that ./tacd builds, unless a path is given.
Script number K of a seed is the same whatever the count is: `show` prints it, and what the
reference makes of it. 30,000 scripts, the default, take about twenty minutes of one core.

`pairs` draws pairs of policies, 3,000 of them, and types what `tacd diff --edits` prints of each at
a console of the reference that has the first, which then has to have the second; and compares what
`tacd diff` tells of secrets with the reference (pairs.py).

`changes` draws such pairs too, 300 of them, and compares what `tacd diff` tells of services with what
a device is answered that asks for every service, for every user, under both policies (changes.py).

`devices` draws devices' files, 3,000 of them, and compares what `tacd devices` prints of each and of
twenty addresses, and which lines `--lint` tells, with a reference that has Python's ipaddress
(devices.py).

`selfcheck` needs no program. It takes wrong bodies of the reference, one mistake each, for programs
with such a mistake, and each has to be found by a script, or by a devices' file (wrong_bodies.py).

It takes Python 3.10 or later, and nothing beside its standard library. The status is 0 where there
was no difference, or all wrong bodies were found, else 1.
"""

import argparse
import pathlib
import sys

import changes
import devices
import pairs
import selfcheck
from comparing import Program, compare
from generator.choices import Choices
from generator.scripts import case
from running import by_reference, told

sys.path.append(str(pathlib.Path(__file__).resolve().parents[1]))
from lib.program import program_at  # noqa: E402

COMMANDS = ("pairs", "changes", "devices", "selfcheck", "show")


def main():
    arguments = read_arguments()
    if arguments.command == "selfcheck":
        return selfcheck.run(arguments.seed, arguments.count)
    if arguments.command == "show":
        return show(arguments.seed, arguments.number)
    program = program_at(arguments.program)
    numbers = range(arguments.first, arguments.first + arguments.count)
    if arguments.command == "pairs":
        return pairs.compare(program, arguments.seed, numbers)
    if arguments.command == "changes":
        return changes.compare(program, arguments.seed, numbers)
    if arguments.command == "devices":
        return devices.compare(program, arguments.seed, numbers)
    return compare(Program(program), arguments.seed, numbers)


def read_arguments():
    words = sys.argv[1:]
    command = words.pop(0) if words and words[0] in COMMANDS else "compare"
    reader = argparse.ArgumentParser("bench/fuzz", description=__doc__,
                                     formatter_class=argparse.RawDescriptionHelpFormatter)
    reader.add_argument("--seed", type=int, default=1)
    if command == "show":
        reader.add_argument("number", type=int)
    else:
        counts = {"compare": 30_000, "pairs": 3_000, "changes": 300, "devices": 3_000}
        counts["selfcheck"] = 6_000
        reader.add_argument("--count", type=int, default=counts[command])
    if command in ("compare", "pairs", "changes", "devices"):
        reader.add_argument("--first", type=int, default=0)
        reader.add_argument("program", metavar="PROGRAM", type=pathlib.Path, nargs="?")
    return reader.parse_args(words, argparse.Namespace(command=command))


def show(seed, number):
    drawn = case(Choices(f"{seed}:{number}"))
    sys.stdout.buffer.write(drawn.text)
    print(f"\n-- the reference, run as {drawn.command}:\n{told(by_reference(drawn))}")
    return 0


if __name__ == "__main__":
    sys.exit(main())
