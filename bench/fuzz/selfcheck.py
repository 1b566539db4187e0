"""Whether the generator finds mistakes: each wrong body of the reference is compared with the right
one, on scripts of a seed, or on its devices' files, until one differs."""

import importlib
import pathlib
import shutil
import sys
import tempfile

from generator.choices import Choices
from generator.devices import listing as drawn_listing
from generator.scripts import case
from reference.devices import listing
from running import by_reference
from wrong_bodies import WRONG_BODIES

REFERENCE = pathlib.Path(__file__).with_name("reference")
# The module that devices' files find mistakes of; scripts find those of all others.
DEVICES = "devices.py"


class Mutant:
    """A copy of the reference with one mistake."""

    def __init__(self, body, folder, name):
        self.body = body
        self.found = None
        package = pathlib.Path(folder, name)
        shutil.copytree(REFERENCE, package, ignore=shutil.ignore_patterns("__pycache__"))
        module = package / body.module
        text = module.read_text()
        if text.count(body.old) != 1:
            sys.exit(f"{body.module} doesn't have exactly once: {body.old}")
        module.write_text(text.replace(body.old, body.new))
        self.replay = importlib.import_module(f"{name}.script").replay
        self.check = importlib.import_module(f"{name}.check").check
        self.listing = importlib.import_module(f"{name}.devices").listing

    def differs(self, drawn):
        try:
            if self.body.module == DEVICES:
                return self.listing(*drawn.listing) != drawn.listed
            return by_reference(drawn.case, self.replay, self.check) != drawn.right
        except Exception:  # A wrong body may fail in any way, which a program would show too.
            return True


class Drawn:
    """A script and a devices' file of one number, and what the right reference makes of them."""

    def __init__(self, seed, number):
        self.case = case(Choices(f"{seed}:{number}"))
        self.right = by_reference(self.case)
        self.listing = drawn_listing(Choices(f"{seed}:{number}"))
        self.listed = listing(*self.listing)


def run(seed, count):
    with tempfile.TemporaryDirectory(prefix="tacd-fuzz-") as folder:
        sys.path.insert(0, folder)
        mutants = [
            Mutant(body, folder, f"wrong_body_{number}")
            for number, body in enumerate(WRONG_BODIES)
        ]
        for number in range(count):
            left = [mutant for mutant in mutants if mutant.found is None]
            if not any(mutant.body.shows for mutant in left):
                break
            drawn = Drawn(seed, number)
            for mutant in left:
                if mutant.differs(drawn):
                    mutant.found = number
                    print(f"script {number}: {mutant.body.name}", flush=True)
    return tell(mutants)


def tell(mutants):
    wrong = 0
    for mutant in mutants:
        if mutant.body.shows and mutant.found is None:
            wrong += 1
            print(f"no script finds: {mutant.body.name}")
        elif not mutant.body.shows and mutant.found is not None:
            wrong += 1
            print(f"not wrong, and found all the same: {mutant.body.name}")
    print(f"{len(mutants)} bodies, {wrong} not as they should be")
    return 1 if wrong else 0
