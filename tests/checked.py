"""`tacd serve --check`: what it says of each fault is what a start says, it makes and changes nothing,
and a server that has the same port goes on meanwhile."""

import contextlib
import errno
import os
import pathlib
import socket
import subprocess
import tempfile
import threading

from bench.lib.server import free_port
from lib.cases import LONGEST_WAIT, require
from lib.consoles import Operator, attended, stops
from lib.devices import ASK, KEPT, PERMITTED, connect, is_answered
from lib.judged import BIND, CHMOD, FSYNC, LISTEN, MKDIR, OPENAT, RENAME, RMDIR, UNLINK, Judged
from lib.servers import BLANK, DEVICES, KEY, KEY_OF_ONE, POLICY, limit_files

SOCKET, CONNECT = 41, 42
# Whom no file of root's is open to.
NOBODY = 65_534
UNPRIVILEGED = pathlib.Path("/proc/sys/net/ipv4/ip_unprivileged_port_start")
# All that a start may need.
KEEPING = ("--log", "log", "--keep-edits", "kept")
ALL = ("--console", "console", "--proxy", "proxy", "--devices", "devices", *KEEPING)


class Folder:
    """A folder with a policy, devices and a key."""

    def __init__(self, **texts):
        self.folder = tempfile.TemporaryDirectory(prefix="tacd-checked-")
        self.name = self.folder.name
        for name, text in {"policy": POLICY, "devices": DEVICES.decode(), **texts}.items():
            self.write(name, text)
        self.write("key", KEY.decode() + "\n")

    def __enter__(self):
        return self

    def __exit__(self, *_):
        self.folder.cleanup()

    def write(self, name, text, mode=0o600):
        path = pathlib.Path(self.name, name)
        path.touch(mode)
        path.chmod(mode)
        path.write_text(text)

    def all(self):
        """Each name in it, with all that the system tells of it but when it was read."""
        told = {}
        for path in [pathlib.Path(self.name), *pathlib.Path(self.name).rglob("*")]:
            it = path.lstat()
            content = path.read_bytes() if path.is_file() else None
            told[str(path)] = (it.st_mode, it.st_ino, it.st_nlink, it.st_uid, it.st_size,
                               it.st_mtime_ns, it.st_ctime_ns, content)
        return told

    def runs(self, program, *words, before=None, output=subprocess.PIPE):
        """How a server with these words ends: what it prints and says, and its status."""
        run = subprocess.run(
            ["tacd", "serve", *words],
            executable=program,
            cwd=self.name,
            preexec_fn=before,
            stdin=subprocess.DEVNULL,
            stdout=output,
            stderr=subprocess.PIPE,
            timeout=LONGEST_WAIT,
        )
        return (run.stdout or b"").decode(), run.stderr.decode(), run.returncode


def words_of(*options, port=None, key=("--key-file", "key")):
    return ["--port", str(port or free_port()), *key, *options, "policy"]


def says(program, folder, words, said, status, before=None):
    """A check says so much and ends so, and so does a start, of which this is in what it says."""
    was = folder.all()
    checked = folder.runs(program, "--check", *words, before=before)
    require(folder.all() == was, f"a check of {words} makes or changes something")
    started = folder.runs(program, *words, before=before)
    require(checked == started, f"of {words} a check ends by {checked}, a start by {started}")
    printed, complained, number = checked
    require(said in printed + complained, f"of {words} it says {printed + complained!r}, not {said!r}")
    require(number == status, f"of {words} the status is {number}")


def approves(program, folder, words, said="", before=None):
    """A check finds nothing wrong, makes and changes nothing, and says this."""
    was = folder.all()
    came = folder.runs(program, "--check", *words, before=before)
    require(came == ("ok\n", said, 0), f"a check of {words} ends by {came}")
    require(folder.all() == was, f"a check of {words} makes or changes something")


def faults_of_the_command_line(program):
    with Folder() as folder:
        for words, said in (
            (words_of("--log", "-"), "can't both have standard output"),
            (words_of("--address", "nowhere"), "invalid value 'nowhere' for '--address <ADDR>'"),
            (words_of(key=("--key", "")), "invalid value for '--key <K>'"),
            (words_of("--workers", "64"), "invalid value '64' for '--workers <W>'"),
        ):
            says(program, folder, words, said, 2)


def faults_of_files(program):
    """Of the key, the devices and the policy: whichever a start finds first."""
    listed = ("--devices", "devices")
    with Folder(none="", long="k" * 129, nobody="group ops\npermit show .*\n") as folder:
        os.mkdir(f"{folder.name}/folder")
        for words, said, status in (
            (words_of(key=("--key-file", "nowhere")), "tacd: nowhere: No such file", 4),
            (words_of(key=("--key-file", "folder")), "tacd: folder: it is a folder", 4),
            (words_of(key=("--key-file", "none")), "tacd: none: its first line is not", 2),
            (words_of(key=("--key-file", "long")), "tacd: long: its first line is not", 2),
            (words_of(key=("--devices", "nowhere")), "tacd: nowhere: No such file", 4),
            (words_of(key=("--devices", "policy")), "fault line 1 ", 1),
            ([*words_of(key=listed)[:-1], "nowhere"], "tacd: nowhere: No such file", 4),
            ([*words_of(key=listed)[:-1], "devices"], "fault line 2 1 BadLine", 1),
            ([*words_of("--log", "folder")[:-1], "nobody"], "has no user: nobody can log in", 4),
        ):
            says(program, folder, words, said, status)


def faults_of_kept_edits(program):
    with Folder(kept="x\n", other=POLICY) as folder:
        os.mkdir(f"{folder.name}/folder")
        folder.write(".left.tacd-lock", "", 0o644)
        for place, said, status in (
            ("nowhere/kept", "tacd: nowhere/.kept.tacd-lock: No such file", 4),
            ("folder", "tacd: folder: it is no regular file", 4),
            ("policy", "tacd: policy: it is the policy's own file", 4),
            ("key", "tacd: key: it is the key's file", 4),
            ("log", "tacd: log: it is the log's file", 4),
            ("console", "tacd: console: it is the console's socket", 4),
            ("left", "tacd: ./.left.tacd-lock: no server left this here", 4),
        ):
            words = words_of("--console", "console", "--log", "log", "--keep-edits", place)
            says(program, folder, words, said, status)
        kept = words_of("--console", "console", "--keep-edits", "kept")
        came = folder.runs(program, "--check", *kept)
        wanted = ("fault line 1 1 BadLine\n", "tacd: 'tacd lint kept' says more\n", 1)
        require(came == wanted, f"of kept edits that are refused it ends by {came}")
        folder.write("kept", POLICY)
        told = "tacd: kept: served in place of policy, since it has edits of the console; 'reload' "
        approves(program, folder, kept, f"{told}takes that again\n")


def faults_of_logs(program):
    with Folder() as folder:
        os.mkdir(f"{folder.name}/folder")
        os.mkfifo(f"{folder.name}/fifo", 0o600)
        with socket.socket(socket.AF_UNIX) as bound:
            bound.bind(f"{folder.name}/socket")
        for options, said in (
            (("--log", "nowhere/log"), "tacd: nowhere/log: No such file"),
            (("--log", "folder"), "tacd: folder: Is a directory (os error 21)"),
            (("--log", "policy/log"), "tacd: policy/log: Not a directory (os error 20)"),
            (("--log", "socket"), "tacd: socket: No such device or address (os error 6)"),
            (("--log", "/dev/null"), "tacd: /dev/null: it is no regular file"),
            (("--log", "fifo", "--sync"), "tacd: fifo: it is a pipe, which --sync can't"),
            (("--log", "-", "--sync"), "tacd: standard output: it is a pipe, which --sync can't"),
        ):
            says(program, folder, words_of("--no-console", *options), said, 4)
        for log in ("fifo", "-", "/dev/stdout", "log"):
            approves(program, folder, words_of("--no-console", "--log", log))
        # standard output is no file of this name
        approves(program, folder, words_of("--console", "console", "--log", "-", "--keep-edits", "-"))


def faults_of_sockets(program):
    """Of a proxy's and a console's: the place, the folder in which each is made first, and the name."""
    with Folder() as folder:
        os.mkdir(f"{folder.name}/folder")
        for name in ("taken", "empty", "left"):
            os.mkdir(f"{folder.name}/{name}.new")
        folder.write("taken.new/other", "")
        folder.write("left.new/s", "")
        folder.write("file.new", "")
        listed = ("--devices", "devices")
        for place, said in (
            ("policy", "tacd: policy: it is no socket"),
            ("folder", "tacd: folder: it is no socket"),
            ("nowhere/socket", "tacd: nowhere/socket: No such file"),
            ("taken", "something else is at this path with '.new' after it"),
            ("file", "something else is at this path with '.new' after it"),
            ("l" * 103, "path must be shorter than SUN_LEN"),
        ):
            says(program, folder, words_of("--console", place), said, 4)
            proxied = words_of("--proxy", place, "--no-console", key=listed)
            says(program, folder, proxied, said, 4)
        for place in ("left", "empty", "l" * 101):
            approves(program, folder, words_of("--console", place))
        os.mkfifo(f"{folder.name}/fifo", 0o600)
        approves(program, folder, words_of("--console", "fifo"))


def faults_of_ports(program):
    """That of another machine's address; the policy's come first. One that is in use is none."""
    with Folder() as folder, socket.create_server(("127.0.0.1", 0)) as other:
        elsewhere = "Cannot assign requested address (os error 99)"
        for address, said in (("192.0.2.1", elsewhere), ("2001:db8::1", "(os error 9")):
            says(program, folder, words_of("--address", address, "--no-console"), said, 4)
        port = other.getsockname()[1]
        words = words_of("--address", "127.0.0.1", "--no-console", port=port)
        approves(program, folder, words)
        # nor is what is so of UDP alone
        with socket.socket(type=socket.SOCK_DGRAM) as datagrams:
            datagrams.bind(("127.0.0.1", port))
            approves(program, folder, words)
        with contextlib.ExitStack() as judges:
            judged = Judged(lambda call: -errno.EPERM, BIND)
            begin = lambda: judged.begin()
            entering = threading.Thread(target=lambda: judges.enter_context(judged))
            entering.start()
            approves(program, folder, words, before=begin)
            entering.join()


def as_nobody():
    """A process of somebody without rights."""
    if os.geteuid() == 0:
        os.setgroups([])
        os.setgid(NOBODY)
        os.setuid(NOBODY)


def without_rights(program):
    """Of a folder that isn't one's own, and of a port below those that anybody may have."""
    with Folder() as folder:
        if os.geteuid() == 0:
            for name in ("policy", "key"):
                os.chown(f"{folder.name}/{name}", NOBODY, NOBODY)
        # Since the folder of the program may be root's alone. A process of its own writes the copy:
        # one that another case begins would have it open too, and what is written can't be run.
        copy = f"{folder.name}/tacd"
        subprocess.run(["cp", program, copy], check=True)
        program = copy
        os.chmod(program, 0o755)
        folder.write("locked", "", 0o400)
        folder.write("unwritable", "", 0o444)
        os.mkdir(f"{folder.name}/readable", 0o555)
        os.chmod(folder.name, 0o755)
        denied = "Permission denied (os error 13)"
        for options in (
            ("--no-console", "--log", "locked"),
            ("--no-console", "--log", "unwritable"),
            ("--no-console", "--log", "readable/log"),
            ("--console", "readable/console"),
            ("--console", "console", "--keep-edits", "readable/kept"),
        ):
            says(program, folder, words_of(*options), denied, 4, before=as_nobody)
        first = int(UNPRIVILEGED.read_text())
        if first > 1:
            words = words_of("--no-console", port=first - 1)
            says(program, folder, words, f"tacd: 0.0.0.0:{first - 1}: {denied}", 4, before=as_nobody)


def what_is_remarked(program):
    """A start goes on after it, so a check is fine."""
    with Folder(nobody="group ops\npermit show .*\n") as folder:
        folder.write("key", KEY.decode(), 0o644)
        readable = "tacd: key: it has secrets, and any user of this machine can read it\n"
        nobody = "tacd: nobody: the policy has no user: nobody can log in\n"
        few = (
            "tacd: only 1000 files may be open, too few for 10000 connections at once: raise "
            "'ulimit -n' or LimitNOFILE= to 10019, or lower --connections-at-once\n"
        )
        folder.write("log", "", 0o644)
        log = readable.replace("key", "log", 1)
        words = [*words_of("--workers", "1", "--no-console", "--log", "log")[:-1], "nobody"]
        remarks = readable + nobody + log + few
        approves(program, folder, words, remarks, before=lambda: limit_files(1000))


class Making(Judged):
    """A process of which the calls are noted that make or change something, or call somebody."""

    def __init__(self):
        numbers = (OPENAT, SOCKET, BIND, CONNECT, LISTEN, RENAME, MKDIR, RMDIR, UNLINK, CHMOD, FSYNC)
        super().__init__(self.note, *numbers)
        self.made = []

    def note(self, call):
        if call.number == OPENAT:
            if call.arguments[2] & (os.O_CREAT | os.O_TRUNC | os.O_WRONLY | os.O_RDWR):
                self.made.append(("open", call.text(1), call.arguments[2]))
        elif call.number == SOCKET:
            if call.arguments[1] & 0xF != socket.SOCK_DGRAM:
                self.made.append(("socket", call.arguments))
        elif call.number == BIND:
            self.made.append(("bind",))
        else:
            self.made.append(call)


def nothing_is_made(program):
    """Of all calls of the system that make or change something there is none, and nobody is called. The
    one socket is of UDP, and nobody hears there."""
    with Folder(kept=POLICY) as folder:
        os.mkfifo(f"{folder.name}/fifo", 0o600)
        for options in (ALL, ["--key-file", "key", "--no-console", "--log", "fifo"]):
            making = Making()
            process = subprocess.Popen(
                ["tacd", "serve", "--check", "--port", str(free_port()), *options, "policy"],
                executable=program,
                cwd=folder.name,
                preexec_fn=making.begin,
                stdin=subprocess.DEVNULL,
                stdout=subprocess.PIPE,
                stderr=subprocess.PIPE,
            )
            was = folder.all()
            with making:
                printed, said = process.communicate(timeout=LONGEST_WAIT)
            require((printed, process.returncode) == (b"ok\n", 0), f"it ends by {printed} {said}")
            require(making.made == [("bind",)], f"it makes these calls: {making.made}")
            require(folder.all() == was, "it makes or changes something")


def beside_a_server(program):
    """One that has the port, the sockets, the log and the lock of the edits goes on, and isn't called."""
    options = {"key": ("--devices", "devices"), "proxy": "proxy"}
    with attended(program, *KEEPING, **options) as server:
        words = ["--port", str(server.address[1]), *ALL, "policy"]
        with connect(server, "127.0.0.1") as device, Operator(server) as operator:
            asked = {"key": KEY_OF_ONE, "flag": KEPT}
            require(is_answered(device, ASK, PERMITTED, **asked), "it isn't answered")
            before = operator.numbers()
            run = subprocess.run(
                ["tacd", "serve", "--check", *words],
                executable=program,
                cwd=server.folder.name,
                stdin=subprocess.DEVNULL,
                capture_output=True,
                timeout=LONGEST_WAIT,
            )
            came = (run.stdout.decode(), run.stderr.decode(), run.returncode)
            require(came == ("ok\n", BLANK, 0), f"beside a server it ends by {came}")
            after = operator.numbers()
            for name in (
                "tacd_connections",
                "tacd_connections_accepted_total",
                "tacd_operators",
                "tacd_log_takes_lines",
                "tacd_edits_kept",
            ):
                require(before[name] == after[name], f"{name} was {before[name]}, is {after[name]}")
            require(is_answered(device, ASK, PERMITTED, **asked), "it is given up")
            with connect(server, "127.0.0.1") as another:
                require(is_answered(another, ASK, PERMITTED, **asked), "another isn't answered")
            require(operator.ask("add user eve").startswith("ok"), "an edit isn't kept")
            stops(server, operator, BLANK)


def an_output_that_fails(program):
    with Folder() as folder, open("/dev/full", "wb") as full:
        came = folder.runs(program, "--check", *words_of("--no-console"), output=full)
        wanted = ("", "tacd: the output could not be written\n", 4)
        require(came == wanted, f"it ends by {came}")
