"""What was found and what was wanted: each check is a line, and those that are wrong are counted."""

import sys
import time

failures = 0


def judge(what, right, told=""):
    """Prints what was found of this, and counts it where that isn't right."""
    global failures
    failures += not right
    told = told or ("so" if right else "not so")
    print(f"{what}: {told}" + ("" if right else ", which is WRONG"), flush=True)


def compare(what, found, wanted):
    """The same of what has to be this."""
    right = found == wanted
    judge(what, right, f"{found}" if right else f"{found}, and not {wanted}")


def settles(find, wanted, seconds=5):
    """What is found once it is what is wanted, or at last."""
    end = time.monotonic() + seconds
    while (found := find()) != wanted and time.monotonic() < end:
        time.sleep(0.02)
    return found


def end():
    """The last line, and the end of this process: with status 1 where something was wrong."""
    print(f"{failures} wrong")
    sys.exit(failures > 0)
