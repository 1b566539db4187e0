"""What a case is: runs of the program, each with what has to come of it; and which cases a file makes."""

import inspect
import time
import typing

LONGEST_WAIT = 20
# What is closed at once is closed within these seconds, though the machine does much else. What is
# silent has ten, if no option says otherwise.
SOON = 9

class Mistake(Exception):
    """Why a file can't be read as tests, with its name and its line."""


class File(typing.NamedTuple):
    """A file that a run finds, with its rights; or a folder, where there is no content."""

    name: str
    content: bytes | None
    mode: int | None


class Run(typing.NamedTuple):
    """The words after the program's name, and what it reads on standard input. Where there are
    files, it is run in a folder that has these alone. Where its output is full, nothing can be
    written there. What is in the file of a log, if it writes one, counts as printed at its end."""

    words: tuple
    input: bytes
    files: tuple | None = None
    is_full: bool = False
    log: str | None = None


class Play(typing.NamedTuple):
    """What is done with the program by a function, which takes its path, and raises Wrong where
    something goes otherwise. Where all is right nothing is printed, and the status is 0."""

    act: typing.Callable


class Wrong(Exception):
    """What went otherwise."""


def require(holds, why):
    if not holds:
        raise Wrong(why)


def comes_to(what, wanted):
    """Within some seconds."""
    until = time.monotonic() + LONGEST_WAIT
    while (came := what()) != wanted:
        require(time.monotonic() < until, f"it comes to {came!r}, not {wanted!r}")
        time.sleep(0.01)


class Outcome(typing.NamedTuple):
    """What stands on standard output and on standard error, and the exit status."""

    printed: bytes
    complained: bytes
    status: int


class Check(typing.NamedTuple):
    """A run, what has to come of it, and which part of its case it is."""

    run: Run | Play
    expected: Outcome
    part: str


class Case(typing.NamedTuple):
    """A case is passed where all its checks are. The name says where it stands."""

    name: str
    checks: list


def replay_check(script, printed, part="the script", logged=None):
    """A replay of a script has to print this, and to end as docs/SCRIPT.md says: with 1 where a
    fault was printed, else with 0. It complains of nothing. With a log it has to write that too."""
    has_fault = any(line.startswith(b"fault ") for line in printed.splitlines())
    if logged is None:
        run = Run(("replay",), script)
    else:
        run = Run(("replay", "--log", "log"), script, (), log="log")
    return Check(run, Outcome(printed + (logged or b""), b"", int(has_fault)), part)


def cases(make):
    """Marks a function that makes several cases of its file: it yields of each what it is, and a check,
    or a function that plays it with the program."""
    make.makes_cases = True
    return make


def cases_of(module, name):
    """The cases of a file of this name, in the order of its functions: each function that takes the
    program alone is one, and what is marked makes several."""
    for function in vars(module).values():
        if not inspect.isfunction(function) or function.__module__ != module.__name__:
            continue
        if hasattr(function, "makes_cases"):
            for what, made in function():
                yield Case(f"{name}: {function.__name__}, {what}", [as_check(made)])
        elif is_case(function):
            yield Case(f"{name}: {function.__name__}", [as_check(function)])


def is_case(function):
    """Whether it plays one. What is called in a `with` plays nothing."""
    takes_program = list(inspect.signature(function).parameters) == ["program"]
    return takes_program and not inspect.isgeneratorfunction(inspect.unwrap(function))


def as_check(made):
    """A check, or that of a function that plays a case."""
    return made if isinstance(made, Check) else Check(Play(made), Outcome(b"", b"", 0), "it was played")
