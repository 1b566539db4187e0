"""Reads a script and the output that is stored beside it."""

from .cases import Case, Mistake, replay_check


def read_script(path, name):
    """The one case of a script: it is replayed as it is, and prints what its output has."""
    output = path.with_suffix(".output")
    if not output.is_file():
        raise Mistake(f"{name}: there is no {output.name} beside it")
    yield Case(name, [replay_check(path.read_bytes(), output.read_bytes())])
