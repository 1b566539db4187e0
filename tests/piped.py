"""Servers whose log is a pipe: standard output, a FIFO, a terminal or a socket. What they write there,
and what becomes of requests where nobody reads it."""

import contextlib
import errno
import fcntl
import json
import os
import pathlib
import pty
import select
import signal
import socket
import subprocess
import tempfile
import threading
import time
import tty

from lib.cases import LONGEST_WAIT, Wrong, comes_to, require
from lib.consoles import typed
from lib.devices import STORED, TIME, connect, is_answered, is_permitted, visit
from lib.judged import OPENAT, WRITE, Judged
from lib.servers import POLICY, Server, has_reader

OUTPUT = "standard output"
FAILS = "tacd: {}: {}; requests aren't answered until it takes lines\n"
TAKES = "tacd: {}: it takes lines again\n"
FULL, BROKEN = "it is full, since its reader takes nothing", "Broken pipe (os error 32)"
UNSYNCED = "it is a pipe, which --sync can't put on the disk"
NO_FILE = "it is no regular file"
# The least that a pipe holds, and more requests than it holds lines.
LEAST, MANY = 4096, 100
# How long an append waits for room, in seconds, if the pipe took the lines before.
PATIENCE = 0.2


class Pipe:
    """A pipe, or what stands for one: its reader and its writer."""

    def __init__(self, *ends):
        self.reader, self.writer = ends or os.pipe()

    def __enter__(self):
        return self

    def __exit__(self, *_):
        for end in ("reader", "writer"):
            self.close(end)

    def close(self, end):
        if getattr(self, end) is not None:
            os.close(getattr(self, end))
            setattr(self, end, None)

    def stuff(self):
        """It is full of empty lines."""
        # The server was given the same open file.
        waits = os.get_blocking(self.writer)
        os.set_blocking(self.writer, False)
        times = 0
        while times < 5:  # A terminal makes room some moments later.
            try:
                os.write(self.writer, b"\n")
                times = 0
            except BlockingIOError:
                times += 1
                time.sleep(0.02)
        os.set_blocking(self.writer, waits)

    def is_read(self):
        """Whether somebody has its reader, as a process that another case has just forked, until its
        program begins."""
        poll = select.poll()
        poll.register(self.writer, 0)
        return not poll.poll(0)

    def read(self):
        """All that is there now."""
        os.set_blocking(self.reader, False)
        came = b""
        with contextlib.suppress(BlockingIOError):
            while more := os.read(self.reader, 65_536):
                came += more
        return came

    def text(self, count):
        """What is there, as soon as it has so many lines that aren't empty."""
        came, until = b"", time.monotonic() + LONGEST_WAIT
        while len([*filter(None, came.split(b"\n"))]) < count or not came.endswith(b"\n"):
            require(time.monotonic() < until, f"it has {came!r}, not {count} lines")
            came += self.read()
            time.sleep(0.002)
        return came.decode()

    def lines(self, count):
        """So many lines that aren't empty, as soon as they are there, and no more."""
        lines = [line for line in self.text(count).split("\n") if line]
        require(len(lines) == count, f"it has {lines}, not {count} lines")
        return lines

    def permissions(self, count):
        """So many lines that tell of devices' questions."""
        told = [json.loads(line).get("status") for line in self.lines(count)]
        require(told == ["PASS_ADD"] * count, f"it tells of {told}")


@contextlib.contextmanager
def piped(program, *options, log="-", pipe=None, **more):
    """A server with such a log, its console at a socket, and the pipe that is its standard output."""
    with pipe or Pipe() as output:
        options = ("--console", "console", "--log", log, *options)
        with Server(program, *options, output=output.writer, **more) as server:
            yield server, output


def stops(program, server, complained=""):
    """It is stopped at its console. Standard error has this, and somewhere where it listens: a device may
    call before that is said."""
    require(typed(program, server, "quit") == "ok\n", "quit isn't answered")
    try:
        _, said = server.process.communicate(timeout=LONGEST_WAIT)
    except subprocess.TimeoutExpired:
        raise Wrong("it didn't end") from None
    (listening,) = server.listening
    came = (said.decode().replace(listening, "", 1), listening in said.decode(), server.process.returncode)
    require(came == (complained, True, 0), f"it ended by {came}")


def takes_lines(program, server):
    told = typed(program, server, "status")
    return "\ntacd_log_takes_lines 1\n" in told


def without_times(lines, port):
    """Of lines of a log; and without the port of a device."""
    return [TIME.sub("", line, 1).replace(f"127.0.0.1:{port}", "device") for line in lines]


def lines_on_standard_output(program):
    """They are those that a file has, byte for byte, and nothing else stands there."""
    with Server(program, "--workers", "1", "--console", "console", "--log", "log") as server:
        port = visit(server)
        typed(program, server, "enable bob high-lake")
        typed(program, server, "quit")
        server.ends()
        wanted = without_times(pathlib.Path(server.folder.name, "log").read_text().splitlines(), port)
    with piped(program, "--workers", "1") as (server, output):
        port = visit(server)
        typed(program, server, "enable bob high-lake")
        stops(program, server)
        text = output.text(len(wanted))
        require("\n\n" not in text and text[0] == "{", f"it has {text!r}")
        came = without_times(text.splitlines(), port)
        require(not pathlib.Path(server.folder.name, "-").exists(), "there is a file of this name")
    require(came == wanted and len(came) > 3, f"it has {came}, not {wanted}")


def standard_output_by_its_path(program):
    """It is the same as `-`."""
    with piped(program, log="/dev/stdout") as (server, output):
        require(is_permitted(server), "bob isn't permitted")
        output.lines(1)
        stops(program, server)


def standard_error(program):
    """Its lines stand among what is said there. What is printed is printed as ever."""
    options = ("--console", "console", "--log", "/dev/stderr", "--workers", "1")
    with Server(program, *options) as server:
        require(is_permitted(server), "bob isn't permitted")
        require(typed(program, server, "quit") == "ok\n", "quit isn't answered")
        printed, said = server.process.communicate(timeout=LONGEST_WAIT)
    require([printed.decode()] == server.listening, f"it prints {printed}")
    types = [json.loads(line).get("type", "console") for line in said.splitlines()]
    require(types == ["command", "console"], f"it says {said}")


def is_stuck_once(program, server, output):
    """Nobody reads it, and it is full: no request is answered, and the console is. Once it is read, requests
    are answered."""
    require(is_permitted(server), "bob isn't permitted")
    output.permissions(1)
    output.stuff()
    for _ in range(2):
        require(not is_permitted(server), "one is answered whose line has no room")
    require(typed(program, server, "shadow") == "none\n", "the console isn't answered")
    require(not takes_lines(program, server), "it says that the log takes lines")
    output.read()
    require(is_permitted(server), "bob isn't permitted any more")
    require(takes_lines(program, server), "it says that the log takes no lines")
    output.permissions(1)


ONCE = FAILS.format(OUTPUT, FULL) + TAKES.format(OUTPUT)


def a_pipe_that_nobody_reads(program):
    """Who shares standard output waits for its reader as before."""
    with piped(program) as (server, output):
        for _ in range(2):
            is_stuck_once(program, server, output)
        require(os.get_blocking(output.writer), "who shares it waits no more")
        stops(program, server, ONCE * 2)


def a_reader_who_is_late(program):
    """A full pipe is waited for while its reader comes: each request is answered, and nothing is said."""
    with piped(program, "--workers", "1") as (server, output):
        fcntl.fcntl(output.writer, fcntl.F_SETPIPE_SZ, LEAST)
        came, ended = [], threading.Event()

        def reads():
            while not ended.is_set():
                time.sleep(PATIENCE / 10)
                came.append(output.read())

        reader = threading.Thread(target=reads)
        connect(server).close()
        reader.start()
        try:
            for number in range(MANY):
                require(is_permitted(server), f"question {number} isn't answered")
        finally:
            ended.set()
            reader.join()
        lines = (b"".join(came) + output.read()).decode().splitlines()
        told = [json.loads(line).get("status") for line in lines]
        require(told == ["PASS_ADD"] * MANY, f"it tells of {told}")
        stops(program, server)


def a_reader_who_is_stuck_is_waited_for_once(program):
    """Each request beyond the first that isn't answered is refused at once."""
    with piped(program, "--workers", "1") as (server, output):
        connect(server).close()
        output.stuff()
        since = time.monotonic()
        for _ in range(MANY):
            require(not is_permitted(server), "one is answered whose line has no room")
        passed = time.monotonic() - since
        require(passed < MANY * PATIENCE / 2, f"{MANY} are refused in {passed} s")
        stops(program, server, FAILS.format(OUTPUT, FULL))


def a_reader_who_goes_away(program):
    """No request is answered from then on, and no signal ends the server."""
    unignored = lambda: signal.signal(signal.SIGPIPE, signal.SIG_DFL)
    with piped(program, before=unignored) as (server, output):
        require(is_permitted(server), "bob isn't permitted")
        output.permissions(1)
        output.close("reader")
        comes_to(output.is_read, False)
        for _ in range(3):
            require(not is_permitted(server), "one is answered whose line nobody reads")
        require(typed(program, server, "shadow") == "none\n", "the console isn't answered")
        stops(program, server, FAILS.format(OUTPUT, BROKEN))


def a_fifo(program):
    """Nobody waits for who reads it: the server listens before he comes, and once he is there again
    requests are answered."""
    options = ("--console", "console", "--log", "fifo")
    with Server(program, *options, before=lambda: os.mkfifo("fifo", 0o600)) as server:
        path = os.path.join(server.folder.name, "fifo")
        connect(server).close()
        for _ in range(2):
            require(not is_permitted(server), "one is answered whose line nobody reads")
            with Pipe(os.open(path, os.O_RDONLY | os.O_NONBLOCK), None) as fifo:
                require(is_permitted(server), "bob isn't permitted")
                fifo.permissions(1)
            comes_to(lambda: has_reader(path), False)
        require(not is_permitted(server), "one is answered whose line nobody reads")
        typed(program, server, "quit")
        said = FAILS.format("fifo", BROKEN) + TAKES.format("fifo")
        server.ends(complained=said * 2 + FAILS.format("fifo", BROKEN))


def a_line_that_fits_in_part(program):
    """Its request isn't answered, and it is ended before the next one, which is whole."""
    pipe = Pipe()
    number = os.fstat(pipe.reader).st_ino
    # what comes of writes to the pipe, one after another, and then of each later one
    outcomes = []

    def judge(call):
        if outcomes and call.inode() == number:
            return outcomes.pop(0) if len(outcomes) > 1 else outcomes[0]
        return None

    judged = Judged(judge, WRITE)
    options = {"pipe": pipe, "before": judged.begin}
    with piped(program, "--workers", "1", **options) as (server, output), judged:
        require(is_permitted(server), "bob isn't permitted")
        output.permissions(1)
        outcomes[:] = [10, -errno.EAGAIN]
        require(not is_permitted(server), "one is answered of whose line only a part fitted")
        outcomes.clear()
        require(is_permitted(server), "bob isn't permitted any more")
        # of the part nothing is there but its end
        text = output.text(1)
        require(text.startswith("\n{") and text.count("\n") == 2, f"it has {text!r}")
        require(is_permitted(server), "bob isn't permitted any more")
        require(output.text(1).startswith("{"), "a line that was whole is ended again")
        stops(program, server, ONCE)


def a_line_longer_than_a_pipe(program):
    """It is written in as many parts as its reader takes, and is whole."""
    arguments = ["task_id=7", *("x=" + chr(1) * 253 for _ in range(250))]
    fixed = bytes([2, 6, 1, 1, 1, 3, 0, 0, len(arguments), *map(len, arguments)])
    body = fixed + ("bob" + "".join(arguments)).encode()
    with piped(program, "--workers", "1") as (server, output), connect(server) as device:
        lines = []
        reader = threading.Thread(target=lambda: lines.extend(output.lines(1)))
        reader.start()
        sent = f"c0030104.00000001.{len(body):08x}.{body.hex()}"
        stored = is_answered(device, sent, STORED)
        reader.join()
        require(stored, "a long record isn't stored")
        require(json.loads(lines[0])["arguments"] == arguments, "its line has other arguments")
        stops(program, server)


def a_terminal(program):
    """One that isn't read takes no lines either."""
    reader, writer = pty.openpty()
    tty.setraw(writer)
    with piped(program, pipe=Pipe(reader, writer)) as (server, output):
        is_stuck_once(program, server, output)
        stops(program, server, ONCE)


def a_socket(program):
    """As where a unit's output goes to the journal."""
    ours, theirs = socket.socketpair()
    theirs.setsockopt(socket.SOL_SOCKET, socket.SO_SNDBUF, LEAST)
    with piped(program, pipe=Pipe(ours.detach(), theirs.detach())) as (server, output):
        is_stuck_once(program, server, output)
        output.close("reader")
        comes_to(output.is_read, False)
        require(not is_permitted(server), "one is answered whose line nobody reads")
        stops(program, server, ONCE + FAILS.format(OUTPUT, BROKEN))


def a_pipe_that_cannot_be_opened(program):
    """As one that another user made: standard output takes lines all the same, and nobody waits."""
    opened = []

    def judge(call):
        if call.text(1) == "/proc/self/fd/1":
            opened.append(call)
            return -errno.EACCES
        return None

    judged = Judged(judge, OPENAT)
    with piped(program, before=judged.begin) as (server, output), judged:
        is_stuck_once(program, server, output)
        require(opened, "it wasn't opened")
        stops(program, server, ONCE)


def a_file_as_standard_output(program):
    """It is a log as any file: a line without an end is ended, and lines may be put on the disk."""
    with tempfile.TemporaryFile() as file:
        file.write(b'{"time"')
        file.flush()
        options = ("--console", "console", "--log", "-", "--sync")
        with Server(program, *options, output=file.fileno()) as server:
            require(is_permitted(server), "bob isn't permitted")
            stops(program, server)
        file.seek(0)
        first, *lines = file.read().decode().splitlines()
    require(first == '{"time"', f"it has {first}")
    types = [json.loads(line).get("type", "console") for line in lines]
    require(types == ["command", "console"], f"it has {lines}")


def a_standard_output_that_others_read(program):
    """It is a log as any file: the start says so."""
    readable = f"tacd: {OUTPUT}: it has secrets, and any user of this machine can read it\n"
    for mode, said in ((0o644, readable), (0o640, "")):
        with tempfile.TemporaryFile() as file:
            os.fchmod(file.fileno(), mode)
            options = ("--console", "console", "--log", "-")
            with Server(program, *options, output=file.fileno()) as server:
                require(is_permitted(server), "bob isn't permitted")
                stops(program, server, said)


def what_is_refused(program):
    """At the start, before the port is bound."""
    two = (
        "error: the console and the log can't both have standard output: give --console PATH, or "
        "--no-console\n\nFor more information, try '--help'.\n"
    )
    aside = ("--no-console",)
    with tempfile.TemporaryDirectory(prefix="tacd-piped-") as folder:
        path = pathlib.Path(folder, "policy")
        path.touch(0o600)
        path.write_text(POLICY)
        os.mkfifo(f"{folder}/fifo", 0o600)
        nowhere = os.open("/dev/null", os.O_WRONLY)
        for log, options, output, said, status in (
            ("-", (), subprocess.PIPE, two, 2),
            ("/dev/stdout", (), subprocess.PIPE, two, 2),
            ("-", ("--sync",), subprocess.PIPE, two, 2),
            ("-", ("--sync", *aside), subprocess.PIPE, f"tacd: {OUTPUT}: {UNSYNCED}\n", 4),
            ("fifo", ("--sync",), subprocess.PIPE, f"tacd: fifo: {UNSYNCED}\n", 4),
            ("/dev/stderr", ("--sync",), subprocess.PIPE, f"tacd: /dev/stderr: {UNSYNCED}\n", 4),
            ("-", aside, nowhere, f"tacd: {OUTPUT}: {NO_FILE}\n", 4),
            ("/dev/null", aside, subprocess.PIPE, f"tacd: /dev/null: {NO_FILE}\n", 4),
            ("/dev/full", aside, subprocess.PIPE, f"tacd: /dev/full: {NO_FILE}\n", 4),
        ):
            words = ["serve", "--port", "1", "--key", "k", "--log", log, *options, "policy"]
            came = ran(program, words, folder, output)
            require(came == (b"", said, status), f"{log} {options} ends by {came}")
        os.close(nowhere)


def ran(program, words, folder, output):
    run = subprocess.run(
        [program, *words],
        cwd=folder,
        stdin=subprocess.DEVNULL,
        stdout=output,
        stderr=subprocess.PIPE,
        timeout=LONGEST_WAIT,
    )
    return run.stdout or b"", run.stderr.decode(), run.returncode


def an_output_that_is_closed(program):
    """No file that the server opens is taken for it."""
    options = ("--console", "console", "--log", "-", "--keep-edits", "kept")
    with Server(program, *options, before=lambda: os.close(1)) as server:
        said = f"tacd: {OUTPUT}: No such file or directory (os error 2)\n"
        server.ends(complained=said, status=4, is_listening=False)


def a_policy_that_is_refused(program):
    """Why is said on standard error, and so is what is wrong with devices: standard output has lines of
    a log, or nothing."""
    more = "tacd: 'tacd {} {}' says more\n"
    listed = {"devices": "x", "key": ("--devices", "devices")}
    for files, said in (
        ({"policy": "x"}, "fault line 1 1 BadLine\n" + more.format("lint", "policy")),
        (listed, "devices fault line 1 1 BadLine\n" + more.format("devices --lint", "devices")),
    ):
        with Server(program, "--no-console", "--log", "-", **files) as server:
            server.ends(complained=said, status=1, is_listening=False)
