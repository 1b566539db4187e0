"""What a server counts: each number of `status` is looked at before and after an event."""

import contextlib
import time

from .cases import LONGEST_WAIT, Wrong
from .consoles import Operator
from .judged import Clock, Judged
from .servers import LOGIN_POLICY, Server, starts

# What is said of a log that takes no lines.
FAILS = "tacd: log: {}; requests aren't answered until it takes lines\n"
FULL, BROKEN = "No space left on device (os error 28)", "Input/output error (os error 5)"
# These change by themselves.
APART = ("tacd_uptime_seconds", "tacd_memory_bytes")


def named(name):
    """The whole name of a line: `ended idle`, `refused at_once`, `packet bad_body`, `login PASS`."""
    what, _, rest = name.partition(" ")
    if not rest:
        totals = {"accepted": "connections_accepted_total", "other_key": "connections_other_key_total"}
        return "tacd_" + totals.get(what, f"{what}_total" if what in ("edits", "reloads") else what)
    if what in ("ended", "refused"):
        return f'tacd_connections_{what}_total{{why="{rest}"}}'
    if what == "packet":
        return f'tacd_requests_refused_total{{why="{rest}"}}'
    return f'tacd_requests_total{{type="{what}",status="{rest}"}}'


class Told:
    """What `status` tells an operator, and what it has to tell."""

    def __init__(self, operator):
        self.operator = operator
        self.wanted = self.came()

    def came(self):
        numbers = self.operator.numbers()
        return {name: it for name, it in numbers.items() if name not in APART}

    def after(self, what, changes=""):
        """These numbers, each with what comes to it, and no others have changed by an event."""
        for change in filter(None, changes.split(", ")):
            name, _, more = change.rpartition(" ")
            self.wanted[named(name)] += int(more)
        until = time.monotonic() + LONGEST_WAIT
        while (came := self.came()) != self.wanted:
            if time.monotonic() > until:
                off = {name: (it, came.get(name)) for name, it in self.wanted.items() if it != came.get(name)}
                raise Wrong(f"after {what} these are wanted, and come: {off}")
            time.sleep(0.01)


@contextlib.contextmanager
def counting(program, *options, judged=None, workers="1", **more):
    """A server of these workers, its operator, and what he is told."""
    judged = judged or Judged(clock=Clock())
    more = {"policy": LOGIN_POLICY, **more}
    words = ["--console", "console", "--workers", workers, *options]
    words += () if "--per-address" in options else ("--per-address", "0")
    with Server(program, *words, before=judged.begin, **more) as server, judged:
        starts(server)
        with Operator(server) as operator:
            yield server, operator, Told(operator)


def is_of_log(call):
    return call.file().rpartition("/")[2].startswith("log")
