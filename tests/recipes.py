"""What docs/REVIEW.md tells a reader to run, as it stands there: the job for merge requests, on
branches that change secrets alone, and commands with what they print."""

import os
import pathlib
import re
import subprocess
import tempfile

from lib.cases import Wrong

LONGEST_RUN = 60
TOP = pathlib.Path(__file__).resolve().parent.parent
REVIEW = TOP / "docs/REVIEW.md"
HEADING = "In a merge request"
# A block that is a file, with its name; one of commands, each with what it prints, and the files that a
# command reads.
NAMED = re.compile(r"^```(?!console)\w+ (\S+)\n(.*?)^```$", re.MULTILINE | re.DOTALL)
CONSOLE = re.compile(r"^```console\n(.*?)^```$", re.MULTILINE | re.DOTALL)
COMMAND = re.compile(r"^\$ (.*)\n((?:(?!\$ ).*\n)*)", re.MULTILINE)
READ = re.compile(r"(?<=< )\S+|\S+\.(?:policy|cases)\b")

# What the main branch has. Nobody but bob may give a line.
MAIN = """user ann
login old-boat
user bob
login old-lake
permit show .*
user eve
login eve-boat
user zed
login zed-boat
"""
CASES = "permit bob show version\n"
# What the job prints first: all cases are so.
ALL_CASES = "ok\n"
# It prints the policy of the main branch, as the job asks for it, and does nothing else.
GIT = """#!/bin/sh
[ "$*" = "show origin/main:campus.policy" ] && exec cat "$(dirname "$0")/main.policy"
exit 1
"""
HASH = "$6$saltsalt$temoAzB1LMUGfs39YsEHhlSSY8ud5tjHcrE1ZINzi8TsesBqqjufdtA7fVhnojTHlBhKZVF0Q9wxWAcE707Cb0"


def nothing_changes(program):
    passes(program, MAIN, "same\n")
    fails(program, MAIN, "user bob login changed\n", "-user bob login changed", "+same")


def a_login_is_replaced(program):
    changes(program, MAIN.replace("old-lake", "new lake "), "user bob login changed")


def a_login_becomes_a_hash(program):
    branch = "policy 3\n" + MAIN.replace("login old-lake", f"login-hash {HASH}")
    changes(program, branch, "user bob login changed")
    branch = branch.replace("login eve-boat", f"login eve-boat\nenable-hash {HASH}")
    fails(program, branch, "user bob login changed\n", "+user eve enable set")


def an_enable_is_added(program):
    branch = MAIN.replace("login old-lake", "login old-lake\nenable high")
    changes(program, branch, "user bob enable set")


def a_login_is_removed(program):
    changes(program, MAIN.replace("login old-lake\n", ""), "user bob login cleared")


def a_user_is_removed(program):
    """He could log in, and nothing else."""
    changes(program, MAIN.replace("user zed\nlogin zed-boat\n", ""), "user zed login cleared")


def several_secrets_change(program):
    """The example below the recipe is exactly so."""
    branch = MAIN.replace("login old-boat\n", "").replace("old-lake", "new-lake")
    branch = branch.replace("login eve-boat", "login eve-boat\nenable high")
    passes(program, branch.replace("user zed\nlogin zed-boat\n", ""), blocks()[1])


def commands_of_reviews(program):
    are_so(program, REVIEW, 14)
    are_so(program, TOP / "docs/LINT.md", 2)


def are_so(program, page, least):
    """Each command that reads files prints what the page shows below it, of which there are so many, or
    more: those of `examples/`, and those that the page shows, by `cat` or in a block with its name."""
    tried = 0
    with tempfile.TemporaryDirectory(prefix="tacd-test-") as folder:
        folder = pathlib.Path(folder)
        (folder / "tacd").symlink_to(program)
        (folder / "examples").symlink_to(TOP / "examples")
        for name, text in NAMED.findall(page.read_text("utf-8")):
            if "/" not in name:
                (folder / name).write_text(text, "utf-8")
        for command, shown in commands_on(page):
            words = command.split()
            if words[0] == "cat":
                (folder / words[1]).write_text(shown, "utf-8")
            elif words[0] == "tacd" and has_its_files(folder, command):
                tried += 1
                prints(folder, command, shown)
    if tried < least:
        raise Wrong(f"{tried} commands read files")


def has_its_files(folder, command):
    files = READ.findall(command)
    return files != [] and all((folder / it).exists() for it in files)


def commands_on(page):
    for block in CONSOLE.findall(page.read_text("utf-8")):
        for command, shown in COMMAND.findall(block):
            yield command.removeprefix("./"), shown


def prints(folder, command, shown):
    ended = subprocess.run(
        ["sh", "-c", f"./{command}"],
        cwd=folder,
        stdout=subprocess.PIPE,
        stderr=subprocess.STDOUT,
        text=True,
        timeout=LONGEST_RUN,
    )
    if ended.stdout != shown:
        raise Wrong(f"{command} prints\n{ended.stdout}and the page has\n{shown}")


def changes(program, branch, line):
    """The job passes exactly where the line is told. It shows the line, and no secret."""
    passes(program, branch, f"{line}\n")
    fails(program, branch, "same\n", "-same", f"+{line}")


def passes(program, branch, told):
    ended = job(program, branch, told)
    if (ended.returncode, ended.stdout, ended.stderr) != (0, ALL_CASES, ""):
        raise Wrong(f"of\n{branch}it is told\n{told}and the job fails:\n{ended.stdout}{ended.stderr}")


def fails(program, branch, told, *lines):
    ended = job(program, branch, told)
    compared = ended.stdout.removeprefix(ALL_CASES).splitlines()
    changed = [it for it in compared if re.match(r"[+-](?![+-]{2} )", it)]
    if ended.returncode != 1 or changed != [*lines]:
        raise Wrong(f"of\n{branch}it is told\n{told}and the job ends with {ended.returncode}:\n{ended.stdout}")


def job(program, branch, told):
    """What comes of the job for a branch with this policy, of which this is told."""
    with tempfile.TemporaryDirectory(prefix="tacd-test-") as folder:
        folder = pathlib.Path(folder)
        tools = folder / "tools"
        tools.mkdir()
        (tools / "tacd").symlink_to(program)
        (tools / "main.policy").write_text(MAIN, "utf-8")
        made(tools / "git", GIT)
        (folder / "campus.policy").write_text(branch, "utf-8")
        (folder / "campus.cases").write_text(CASES, "utf-8")
        (folder / "policy.diff").write_text(told, "utf-8")
        return subprocess.run(
            [made(folder / "job", blocks()[0])],
            cwd=folder,
            env=os.environ | {"PATH": f"{tools}:{os.environ['PATH']}"},
            capture_output=True,
            text=True,
            timeout=LONGEST_RUN,
        )


def made(path, script):
    """The path of this script, which may be run there. Another process writes it: a program that began
    while this one had the file open would have it open too, and then it couldn't be run."""
    subprocess.run(["install", "-m", "700", "/dev/stdin", path], input=script, text=True, check=True)
    return path


def blocks():
    """The recipe, and the example below it."""
    section = REVIEW.read_text("utf-8").partition(f"\n## {HEADING}\n")[2].partition("\n## ")[0]
    return re.findall(r"^```(?:sh|text)\n(.*?)^```$", section, re.MULTILINE | re.DOTALL)
