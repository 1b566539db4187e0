"""`tacd console`, as operators and scripts use it: how a session ends, what of a file is passed over, and
what is said where a line is none of a console; and what else of the program takes no server."""

import os
import pty
import re
import subprocess

from lib.cases import LONGEST_WAIT, require
from lib.consoles import Operator, asks_all, attended, stops, told, types
from lib.servers import Server, starts

HELP = "tacd: type help\n"
BAD = "refused 1 BadEdit\n"


def types_words(program, server, *words):
    """What a client prints of these words, what it complains of, and how it ends."""
    ran = subprocess.run(
        ["tacd", "console", "console", *words],
        executable=program,
        cwd=server.folder.name,
        capture_output=True,
        text=True,
        timeout=LONGEST_WAIT,
    )
    return ran.stdout, ran.stderr, ran.returncode


def ends_so(what, came, printed, complained="", status=0):
    require(came == (printed, complained, status), f"{what!r} ends by {came}")


def how_a_session_ends(program):
    """By `exit` and `logout`, which the server doesn't see: it goes on. What comes after them in a file
    isn't sent. By `quit` the server stops, and the rest isn't sent either."""
    answered = "permitted by group ops rule 1\n"
    with attended(program, "--log", "log") as server:
        for word in ("exit", "logout"):
            ends_so(word, types_words(program, server, word), "")
            lines = f"why bob show x\n{word}\nadd user ann\n"
            ends_so(lines, asks_all(program, server, lines), answered)
            ends_so(word, asks_all(program, server, f"{word}\n"), "")
            ends_so(word, asks_all(program, server, word), "")
        # These are none of the two.
        for line in ("exit now", " exit", "exit ", "logout x"):
            said = f"tacd: line 1: {BAD.strip()}; later lines weren't sent\n{HELP}"
            ends_so(line, asks_all(program, server, f"{line}\nadd user ann\n"), BAD, said, 1)
        lines = "why ann show\nquit\nadd user ann\n"
        ends_so(lines, asks_all(program, server, lines), "unknown user\nok\n")
        server.ends(is_listening=False)
        with open(f"{server.folder.name}/log", encoding="ascii") as log:
            logged = log.read()
        require('"exit"' not in logged and '"logout"' not in logged, f"the log has {logged}")


def a_session_that_ends_with_a_batch(program):
    """Nothing of the batch is made."""
    with attended(program) as server:
        for lines in ("begin\nadd user ann\nexit\ncommit\n", "begin\nadd user ann\n"):
            ends_so(lines, asks_all(program, server, lines), "ok\nkept 1\n")
        ends_so("why", types_words(program, server, "why", "ann"), "unknown user\n")
        with Operator(server) as operator:
            stops(server, operator)


def what_of_a_file_is_passed_over(program):
    """Empty lines, blank ones and comments. They count as lines of the file."""
    with attended(program, "--log", "log") as server:
        lines = "# a new user\n\nbegin\n  # of nobody's group\n   \nadd user ann\n#\n\ncommit\n# that is all\n"
        ends_so(lines, asks_all(program, server, lines), "ok\nkept 1\nok\n")
        ends_so("why", types_words(program, server, "why", "ann"), "denied by default\n")
        lines = "# one\n\nnonsense\nadd user eve\n"
        said = f"tacd: line 3: {BAD.strip()}; later lines weren't sent\n{HELP}"
        ends_so(lines, asks_all(program, server, lines), BAD, said, 1)
        # A comment begins a line.
        lines = "why bob show # x\n"
        ends_so(lines, asks_all(program, server, lines), "permitted by group ops rule 1\n")
        for lines in ("", "\n", "# nothing", "\r\n"):
            ends_so(lines, asks_all(program, server, lines), "")
        with Operator(server) as operator:
            told(operator, ("# one", BAD.strip()), ("", BAD.strip()))
            stops(server, operator)
        with open(f"{server.folder.name}/log", encoding="ascii") as log:
            logged = log.read()
        require("nobody" not in logged, f"the log has {logged}")


def lines_that_end_in_a_return(program):
    """A line may end in CR LF, the last in CR alone. A CR elsewhere is part of the line."""
    with attended(program) as server:
        lines = "begin\r\nadd user ann\r\n# one\r\n\r\nlogin ann x\r\ncommit\r\nexit\r\nnonsense\r\n"
        ends_so(lines, asks_all(program, server, lines), "ok\nkept 1\nkept 2\nok\n")
        ends_so("the last", asks_all(program, server, "why ann show\r"), "denied by default\n")
        for line in ("why ann\r show", "why ann show\r\r"):
            said = f"tacd: line 1: {BAD.strip()}; later lines weren't sent\n{HELP}"
            ends_so(line, asks_all(program, server, f"{line}\n"), BAD, said, 1)
        came = types_words(program, server, "policy")
        require("\nuser ann\nlogin x\n" in came[0], f"the policy is {came}")
        with Operator(server) as operator:
            stops(server, operator)


def standard_input_of_a_server_stays(program):
    """There the words of the client are none, and nothing is passed over."""
    with Server(program) as server:
        starts(server)
        for line in ("exit", "logout", "# one", "", "why bob show x\r"):
            types(server, line, BAD.strip())
        types(server, "why bob show x", "permitted by group ops rule 1")
        server.ends("quit\n", is_listening=False)


# A line that is none of a console, and the word that it was probably meant to begin with.
NEAR = {
    "polcy": "policy",
    "Policy": "policy",
    "POLICY": "policy",
    "Exit": "exit",
    "logot": "logout",
    "inser group ops 1 deny ping": "insert",
    "  inserrt group ops 1 deny ping": "insert",
    "permit show .*": None,
    "login_hash bob x": "login-hash",
    "relaod": "reload",
    "statsu": "status",
    "hlep": "help",
    "nonsense": None,
    "x": None,
    # The word is right, and the rest isn't; or no batch is open.
    "insert group ops deny ping": None,
    " policy": None,
    "policy now": None,
    "commit": None,
    "abandon": None,
    "reload policy": None,
    "status now": None,
    # Two of its bytes are changed, or three.
    "recards": "records",
    "rekards": "records",
    "rekarts": None,
    # At most half as many as it has bytes.
    "wy bob": "why",
    "zy bob": None,
    "a" * 14: None,
}


def the_nearest_word(program):
    """It is named where a line is `refused 1 BadEdit`. Else help is."""
    with attended(program) as server:
        for line, word in NEAR.items():
            said = f"tacd: is '{word}' meant? If not, type help\n" if word else HELP
            ends_so(line, types_words(program, server, line), BAD, said, 1)
            told_line = f"tacd: line 2: {BAD.strip()}; later lines weren't sent\n"
            lines = f"why bob show x\n{line}\nquit\n"
            answered = "permitted by group ops rule 1\n"
            came = asks_all(program, server, lines)
            ends_so(lines, came, answered + BAD, told_line + said, 1)
        with Operator(server) as operator:
            stops(server, operator)


def other_refusals_name_no_word(program):
    with attended(program) as server:
        for line, answer in (
            ("drop group ops 9", "refused 7 BadIndex\n"),
            ("add user bob", "refused 3 Exists\n"),
            ("reach user ann", "refused 2 NoSuch\n"),
        ):
            ends_so(line, types_words(program, server, line), answer, "", 1)
        with Operator(server) as operator:
            told(operator, ("operator ann", "ok"), ("begin", "ok"))
            ends_so("busy", types_words(program, server, "begin"), "busy ann\n", "", 1)
            told(operator, ("abandon", "ok"))
            stops(server, operator)


def types_at_a_terminal(program, server, lines):
    """What a client prints, what it complains of and how it ends, where these lines are typed at a
    terminal."""
    ours, its = pty.openpty()
    try:
        client = subprocess.Popen(
            ["tacd", "console", "console"],
            executable=program,
            cwd=server.folder.name,
            stdin=its,
            stdout=subprocess.PIPE,
            stderr=subprocess.PIPE,
            text=True,
        )
        os.write(ours, lines.encode())
        printed, said = client.communicate(timeout=LONGEST_WAIT)
        return printed, said, client.returncode
    finally:
        os.close(ours)
        os.close(its)


def at_a_terminal(program):
    """There a refusal ends nothing. Each line has its prompt, and `exit` ends the session."""
    with attended(program) as server:
        lines = "\n# one\nwhy bob show x\npolcy\nwhy bob ping\nexit\nadd user ann\n"
        prompt = "tacd> "
        printed = f"{prompt * 3}permitted by group ops rule 1\n{prompt}{BAD}{prompt}denied by default\n{prompt}"
        said = "tacd: is 'policy' meant? If not, type help\n"
        ends_so(lines, types_at_a_terminal(program, server, lines), printed, said, 1)
        ends_so("logout", types_at_a_terminal(program, server, "logout\n"), prompt)
        # The end of the input, as a terminal has it.
        ends_so("the end", types_at_a_terminal(program, server, "\x04"), f"{prompt}\n")
        ends_so("why", types_words(program, server, "why", "ann"), "unknown user\n")
        ends_so("quit", types_at_a_terminal(program, server, "quit\n"), f"{prompt}ok\n")
        server.ends(is_listening=False)


def the_version(program):
    """`tacd version` says what `tacd --version` does."""
    came = []
    for word in ("version", "-V", "--version"):
        ran = subprocess.run(
            ["tacd", word], executable=program, capture_output=True, text=True, timeout=LONGEST_WAIT
        )
        came.append((ran.stdout, ran.stderr, ran.returncode))
    require(came[0] == came[1] == came[2], f"they say {came}")
    printed, complained, status = came[0]
    is_right = re.fullmatch(r"tacd \d+\.\d+\.\d+\n", printed) and (complained, status) == ("", 0)
    require(is_right, f"it says {came[0]}")


def a_standard_input_that_fails(program):
    """It has its own name where `-` asks for it."""
    for word in ("check", "lint"):
        folder = os.open("/", os.O_RDONLY)
        try:
            ran = subprocess.run(
                ["tacd", word, "-"], executable=program, stdin=folder, capture_output=True, text=True,
                timeout=LONGEST_WAIT,
            )
        finally:
            os.close(folder)
        said = "tacd: standard input: it could not be read\n"
        ends_so(word, (ran.stdout, ran.stderr, ran.returncode), "", said, 4)
