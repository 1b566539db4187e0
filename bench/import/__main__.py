"""Compares what `tacd import` makes of configurations of tac_plus with what these mean.

A reference (tests/tac_plus/meaning.py) reads a configuration and decides by it, as the user's guide of
tac_plus F4.0.4 says. It knows nothing of patterns, policies or this program. Configurations are drawn
(tests/tac_plus/drawing.py): users and groups, up to 8 above one another, with blocks for the same
commands and services, defaults, shells, passwords of all kinds, commands with expressions of all kinds,
and some subjects with about 256 rules. Each is imported, and what was decided of its lines and its
services is a table for `tacd test`, which has to find each so. Every policy has to pass `tacd check`, and
to have the secrets of the configuration. Where the import tells that a rule was left out, or that there
were too many, nobody may gain a line by that. All else that it tells is compared line by line
(tests/tac_plus/remarks.py); both kinds of expressions are read by tests/tac_plus/expressions.py.
tests/imports.py compares some such configurations, too.

    python3 bench/import [--seed N] [--count N] [--lines N] [PROGRAM]
    python3 bench/import garbage [PROGRAM]
    python3 bench/import files [--seed N] [--count N] [--lines N] [--together N] FOLDER

The program is the one that ./tacd builds, unless a path is given.
500 configurations with 200 lines each are the default, and take a minute.

`garbage` cuts a configuration after each of its bytes, and flips a bit of each: the program has to
print a policy that passes `tacd check`, or to name a line. Then come braces a thousand deep, a
command of 200 rules, and files of 100 MB.

`files` needs no program. It writes configurations and tables into a folder, N together in one file,
so that a program which can't be called often is tried on them.

It takes Python 3.10 or later, and nothing beside its standard library. The status is 0 where there
was no difference, else 1.
"""

import argparse
import pathlib
import sys
import tempfile

import garbage

sys.path.append(str(pathlib.Path(__file__).resolve().parents[1]))
sys.dont_write_bytecode = True
from lib.program import TOP, program_at  # noqa: E402

sys.path.append(str(TOP / "tests"))
from tac_plus.comparing import Compared  # noqa: E402
from tac_plus.drawing import configuration, lines  # noqa: E402
from tac_plus.meaning import Meaning  # noqa: E402


def main():
    arguments = read_arguments()
    if arguments.command == "garbage":
        return garbage.run(program_at(arguments.path))
    if arguments.command == "files":
        return write_files(arguments)
    return compare_all(arguments)


def read_arguments():
    parser = argparse.ArgumentParser(
        prog="bench/import", description=__doc__,
        formatter_class=argparse.RawDescriptionHelpFormatter,
    )
    parser.add_argument("--seed", type=int, default=1)
    parser.add_argument("--count", type=int, default=500)
    parser.add_argument("--lines", type=int, default=200)
    parser.add_argument("--together", type=int, default=1)
    parser.add_argument("words", nargs="*")
    arguments = parser.parse_intermixed_args()
    words = list(arguments.words)
    arguments.command = words.pop(0) if words[:1] in (["garbage"], ["files"]) else "compare"
    arguments.path = pathlib.Path(words.pop(0)).resolve() if words else None
    if words or (arguments.command == "files" and arguments.path is None):
        parser.error("too many words, or too few")
    return arguments


def compare_all(arguments):
    program = program_at(arguments.path)
    differ = count = asked_for = services = 0
    with tempfile.TemporaryDirectory() as folder:
        for number in range(arguments.count):
            name = f"{arguments.seed}-{number}"
            compared = Compared(program, folder, configuration(name, f"c{number}-"))
            compared.compare(lines(name, compared.meaning, arguments.lines))
            count += compared.lines_compared
            services += compared.services_compared
            asked_for += arguments.lines
            if compared.found:
                differ += 1
                print(f"== configuration {name}\n{compared.text}\n{compared.told}\n{compared.found}")
    print(f"{arguments.count} configurations, {count} lines compared, {asked_for - count} that are permitted"
          f" by what was left out, {services} cases of services, {differ} configurations differ")
    return 1 if differ else 0


def write_files(arguments):
    """A table has all lines, also those of commands with a rule that no policy says."""
    arguments.path.mkdir(parents=True, exist_ok=True)
    for first in range(0, arguments.count, arguments.together):
        texts, cases = [], []
        for number in range(first, min(first + arguments.together, arguments.count)):
            name = f"{arguments.seed}-{number}"
            text = configuration(name, f"c{number}-")
            meaning = Meaning(text)
            texts.append(text)
            for user, line in lines(name, meaning, arguments.lines):
                cases.append(f"{'permit' if meaning.permits(user, line) else 'deny'} {user} {line}")
        (arguments.path / f"{first}.conf").write_text("".join(texts))
        (arguments.path / f"{first}.cases").write_text("\n".join(cases) + "\n")
    return 0


if __name__ == "__main__":
    sys.exit(main())
