"""What a server keeps in files and takes from them: edits that are on the disk before their answer
comes, wherever the server is killed and whatever the disk refuses; policies of many megabytes; devices
that are read again and again; and the files that an import writes."""

import contextlib
import errno
import os
import pathlib
import stat
import subprocess
import tempfile

from lib.cases import LONGEST_WAIT, require
from lib.consoles import Operator, attended, stops, told, typed
from lib.judged import FDATASYNC, FLOCK, FSYNC, OPENAT, RENAME, SENDTO, UNLINK, WRITE, Judged
from lib.keeping import FIRST, NO_ROOM, Keeping, isnt_begun, leads, writes
from lib.listed import asks, put_devices
from lib.servers import POLICY, Server, starts

DRAFT, KEPT = ".kept.tacd-draft", "kept"
SYNCS = (FSYNC, FDATASYNC)
PERMITTED = "permitted by group ops rule 1"
SERVED = "tacd: {}: served in place of policy, since it has edits of the console; 'reload' takes that again\n"


@contextlib.contextmanager
def folder():
    with tempfile.TemporaryDirectory(prefix="tacd-served-") as path:
        yield pathlib.Path(path).resolve()


class Keeper(Judged):
    """A process that keeps its edits in a folder of the case's. A function is told each call that
    changes what is there, or sends it to the disk, by what it does; and each answer."""

    def __init__(self, path, judge=lambda done: None):
        super().__init__(self.hear, OPENAT, WRITE, *SYNCS, RENAME, UNLINK, SENDTO)
        self.path, self.kept = path, f"{path}/{KEPT}"
        self.judge_done = judge

    def hear(self, call):
        done = self.done(call)
        return self.judge_done(done) if done else None

    def done(self, call):
        """What a call does, or nothing where it is of another folder."""
        if call.number == SENDTO:
            return "answer " + call.bytes(1, call.arguments[2]).decode()
        if call.number in (WRITE, *SYNCS):
            name = self.name(call.file())
            return name and f"{'write' if call.number == WRITE else 'sync'} {name}"
        if call.number == OPENAT:
            name = self.name(call.text(1))
            return name and f"open {name}"
        names = [self.name(call.text(place)) for place in range(1 + (call.number == RENAME))]
        what = "rename" if call.number == RENAME else "remove"
        return f"{what} {' '.join(names)}" if all(names) else None

    def name(self, path):
        """What a file of the folder is called, or the folder itself."""
        path = pathlib.Path(path)
        return str(path.relative_to(self.path)) if path.is_relative_to(self.path) else None

    @contextlib.contextmanager
    def keeping(self, program, **more):
        """A server that keeps its edits there, and its operator."""
        words = ("--console", "console", "--keep-edits", self.kept)
        with Server(program, *words, before=self.begin, **more) as server, self:
            starts(server)
            with Operator(server) as operator:
                yield server, operator


def on_the_disk_before_it_is_answered(program):
    """An edit is, under its own name, and the folder too; and that a `reload` has removed it."""
    calls = []
    with folder() as path, Keeper(path, calls.append).keeping(program) as (server, operator):
        for line, wanted in (
            ("add user eve", [f"open {DRAFT}", f"write {DRAFT}", f"sync {DRAFT}",
                              f"rename {DRAFT} {KEPT}", "open .", "sync ."]),
            ("reload", [f"remove {KEPT}", "open .", "sync ."]),
        ):
            calls.clear()
            told(operator, (line, "ok"))
            came = calls[: calls.index("answer ok\n")]
            # What was left there before may go first.
            came = [done for done in came if done != f"remove {DRAFT}"]
            require(came == wanted, f"before {line} is answered, it does {came}")
        stops(server, operator)


BEGINS = "tacd: {}: {}; edits aren't kept\n"
IS_OVER = "tacd: {}: edits are kept again\n"


def tells_kept(operator, wanted):
    came = operator.numbers()["tacd_edits_kept"]
    require(came == wanted, f"it tells that edits are kept by {came}")


# What is done with the disk when it refuses, the error, and whether the edit is in the file then.
REFUSALS = (
    (f"open {DRAFT}", errno.ENOSPC, False),
    (f"write {DRAFT}", errno.ENOSPC, False),
    (f"sync {DRAFT}", errno.EIO, False),
    (f"rename {DRAFT} {KEPT}", errno.EIO, False),
    ("open .", errno.EMFILE, True),
    ("sync .", errno.EIO, True),
)


def a_disk_that_refuses(program):
    """Whatever it refuses is told before the answer. What was kept before stays, no draft takes room, and
    with the next answer it is tried again."""
    refusals = []

    def judge(done):
        if refusals and done == refusals[0][0]:
            return -refusals.pop(0)[1]

    said = ""
    with folder() as path, Keeper(path, judge).keeping(program) as (server, operator):
        kept, lines = path / KEPT, FIRST.replace("; ", "\n")
        told(operator, ("add user u", "ok"))
        lines += "user u\n"
        for number, (done, error, is_there) in enumerate(REFUSALS):
            refusals.append((done, error))
            why = f"{os.strerror(error)} (os error {error})"
            told(operator, (f"add user u{number}", f"not kept: {why}\nok"))
            said += BEGINS.format(kept, why) + IS_OVER.format(kept)
            tells_kept(operator, 0)
            more = f"{lines}user u{number}\n"
            require(kept.read_text() == (more if is_there else lines), f"after {done} it isn't as before")
            require(not (path / DRAFT).exists(), f"after {done} a draft takes room")
            told(operator, ("why bob show run", PERMITTED))
            tells_kept(operator, 1)
            lines = more
            require(kept.read_text() == lines, f"after {done} it isn't tried again")
            require(not (path / DRAFT).exists(), "the draft is still there")
        stops(server, operator, said)


def a_removal_that_the_disk_refuses(program):
    """A `reload` tells so, since a restart might serve the edits. It is tried again, though the file is
    gone, until the disk has taken it."""
    refused = []

    def judge(done):
        if done == "sync ." and len(refused) < 3:
            refused.append(done)
            return -errno.EIO

    with folder() as path, Keeper(path, judge).keeping(program) as (server, operator):
        why, kept = "Input/output error (os error 5)", path / KEPT
        told(operator, ("add user eve", f"not kept: {why}\nok"), ("reload", f"not kept: {why}\nok"))
        tells_kept(operator, 0)
        told(operator, ("why bob show run", PERMITTED))
        require(len(refused) == 3, "it isn't tried again")
        tells_kept(operator, 0)
        told(operator, ("why bob show run", PERMITTED))
        tells_kept(operator, 1)
        stops(server, operator, BEGINS.format(kept, why) + IS_OVER.format(kept))


def killed_at(program, path, last, line):
    """A server makes an edit, and is killed just before the call of this number that a line makes in the
    folder; or else as soon as the line is answered. What policy it had at first, and whether it answered."""
    made = []

    def judge(done):
        made.extend([done] * (not done.startswith("answer")))
        if len(made) == last:
            server.process.kill()
            server.process.wait()  # so that the call isn't made

    keeper = Keeper(path)
    with keeper.keeping(program) as (server, operator):
        first = operator.ask("policy")
        told(operator, (f"add group sure{last}", "ok"))
        keeper.judge_done = judge
        operator.type(line)
        try:
            answered = operator.heard()
        except ConnectionError:
            answered = None
        server.process.kill()
        server.process.wait()
    require(answered in (None, "ok"), f"{line} is answered by {answered!r}")
    return first, answered == "ok"


UNEDITED = FIRST.removesuffix("; ").replace("; ", "\n")


def killed_at_each_call(program, line, left):
    """A line is killed at each of its calls in turn, until it is answered. What the next server may serve
    is told of the edits until then and this number. How often it was killed."""
    with folder() as path:
        allowed = (UNEDITED,)
        for last in range(1, 50):
            first, is_answered = killed_at(program, path, last, line.format(last))
            require(first in allowed, f"it serves {first!r}, not one of {allowed}")
            *before, after = left(f"{first}\ngroup sure{last}", last)
            allowed = (after,) if is_answered else (*before, after)
            if is_answered:
                break
        require(is_answered, f"{line} is never answered")
        first, _ = killed_at(program, path, 0, "add group last")
        require(first in allowed, f"at last it serves {first!r}, not one of {allowed}")
        return last - 1


def killed_while_it_keeps_an_edit(program):
    """The next server serves the edits before it, or with it; once it was answered, with it."""
    left = lambda edits, number: (edits, f"{edits}\ngroup new{number}")
    times = killed_at_each_call(program, "add group new{}", left)
    require(times >= 5, f"before an edit is answered there are but {times} calls")


def killed_while_it_reloads(program):
    """The next server serves the edits, or FILE; once it was answered, FILE."""
    times = killed_at_each_call(program, "reload", lambda edits, _: (edits, UNEDITED))
    require(times >= 2, f"before a reload is answered there are but {times} calls")


def what_comes_to_the_drafts_name(program):
    """After the server has looked there, at any time: it isn't followed, and nothing is written to it."""
    with folder() as path:
        victim, comes = path / "victim", []

        def judge(done):
            if done in comes:
                comes.remove(done)
                (path / DRAFT).unlink(missing_ok=True)
                os.symlink(victim, path / DRAFT)

        with Keeper(path, judge).keeping(program) as (server, operator):
            kept = path / KEPT
            for name, done, note in (
                ("ann", f"remove {DRAFT}", ""),
                ("ben", f"open {DRAFT}", "not kept: File exists (os error 17)\n"),
            ):
                victim.write_text("a victim\n")
                comes.append(done)
                told(operator, (f"add user {name}", f"{note}ok"), ("why bob show run", PERMITTED))
                require(not comes, f"it doesn't {done}")
                require(victim.read_text() == "a victim\n", "another's file is written")
                status = kept.lstat()
                require(stat.S_ISREG(status.st_mode), "what is kept is no regular file")
                require(stat.S_IMODE(status.st_mode) == 0o600, "others may read what is kept")
                require(kept.read_text().endswith(f"user {name}\n"), f"{name} isn't kept")
            why = "File exists (os error 17)"
            stops(server, operator, BEGINS.format(kept, why) + IS_OVER.format(kept))


def a_draft_that_somebody_reads(program):
    """What looks as if a killed server had left it may be open somewhere, or be another user's. Nobody
    reads edits by it."""
    with folder() as path, Keeper(path).keeping(program) as (server, operator):
        writes(DRAFT, 0o600, "a draft\n" * 100)(path)
        if os.geteuid() == 0:
            os.chown(path / DRAFT, 65_534, 65_534)
        with (path / DRAFT).open() as reader:
            told(operator, ("add user eve", "ok"))
            require(reader.read() == "a draft\n" * 100, "the edits are read by who has the draft")
        status = (path / KEPT).stat()
        require((status.st_uid, status.st_nlink) == (os.geteuid(), 1), "the edits are another user's")
        stops(server, operator)


def a_link_is_no_place_for_edits(program):
    """Neither at the start nor later, wherever it leads. It stays."""
    lay = lambda folder: (writes("mine", 0o600, POLICY)(folder), leads("kept", "mine")(folder))
    isnt_begun(program, "kept", f"kept: {NO_ROOM}", lay)
    isnt_begun(program, "kept", f"kept: {NO_ROOM}", leads("kept", "nowhere"))
    with Keeping(program) as keeping:
        kept, folder = keeping.kept, keeping.kept.parent
        said = BEGINS.format("kept", NO_ROOM) + IS_OVER.format("kept")
        for line in ("add user eve", "reload"):
            kept.unlink(missing_ok=True)
            lay(folder)
            told(keeping.operator, (line, f"not kept: {NO_ROOM}\nok"))
            require(os.readlink(kept) == "mine", "the link is replaced")
            require((folder / "mine").read_text() == POLICY, "what it leads to is written")
            kept.unlink()
            told(keeping.operator, ("why bob show run", PERMITTED))
        require(not kept.exists(), "FILE is served, and there are edits")
        stops(keeping.server, keeping.operator, said * 2)


GIVEN = "".join(f"service x a{number}={'v' * 240}\n" for number in range(64))
# Five megabytes, in lines of which no automaton is made.
LONG = f"policy 3\n{POLICY}" + "".join(f"user u{number}\n{GIVEN}" for number in range(312))


def policies_of_many_megabytes(program):
    """They are kept to their last byte, served after a restart, and printed whole to who saves them."""
    whole = f"{LONG}user eve\n"
    with folder() as path:
        words = ("--keep-edits", f"{path}/kept")
        with attended(program, *words, policy=LONG) as server, Operator(server) as operator:
            told(operator, ("add user eve", "ok"))
            require((path / KEPT).read_text() == whole, "it isn't kept whole")
            server.process.kill()
        with attended(program, *words, policy=LONG) as server, Operator(server) as operator:
            require((came := typed(program, server, "policy")) == whole, f"{len(came)} bytes are printed")
            require(operator.numbers()["tacd_serves_edits"] == 1, "it tells that FILE is served")
            stops(server, operator, SERVED.format(path / KEPT))


def edits_that_are_kept_while_another_server_begins(program):
    """It has looked at the folder, and then the first one keeps an edit and ends. That edit is served."""
    with folder() as path, contextlib.ExitStack() as stack:
        words = ("--console", "console", "--keep-edits", f"{path}/kept")
        first = stack.enter_context(attended(program, *words[2:]))
        operator = stack.enter_context(Operator(first))

        def judge(_):
            told(operator, ("add user eve", "ok"))
            first.process.kill()
            first.process.wait()

        system = Judged(judge, FLOCK)
        with Server(program, *words, before=system.begin) as second, system:
            starts(second)
            with Operator(second) as other:
                told(other, ("why eve ping", "denied by default"))
                stops(second, other, SERVED.format(path / KEPT))


# The most bytes of a devices' file.
LONGEST = 16_777_216


def devices_are_read_again_and_again(program):
    """Those of the last time count, also where the file is as long as before, or as it was once; and the
    longest file is read, but no longer one."""
    keys = [f"tundra-and-fjord-20{number}" for number in (26, 27, 28)]
    text = "device one\nat 127.0.0.1\nkey {}\n"
    more = {"key": ("--devices", "devices"), "devices": text.format(keys[0])}
    with attended(program, **more) as server, Operator(server) as operator:
        for turn in (1, 2, 1, 1, 0, 2, 0):
            put_devices(server, text.format(keys[turn]))
            told(operator, ("reload devices", "devices ok: 1 devices, 1 prefixes"))
            for key in keys:
                came = asks(server, "127.0.0.1", key.encode())
                require(came == (key == keys[turn]), f"with {keys[turn]} {key} is taken: {came}")
        for length, wanted in (
            (LONGEST, "devices ok: 1 devices, 1 prefixes"),
            (LONGEST + 1, f"devices unread devices: it is over {LONGEST} bytes long"),
        ):
            put_devices(server, f"#\n{text.format(keys[1])}".rjust(length, "#"))
            told(operator, ("reload devices", wanted))
        told(operator, ("quit", "ok"))
        server.process.communicate(timeout=LONGEST_WAIT)  # it says which packets fit no key


CONFIGURATION = """key = wide-kelp-forest-0092
host = 192.0.2.1 {
  key = fjord-and-fell-2026
}
user = bob {
  login = cleartext blue-lake
}
"""
READABLE = "tacd: {}: it has secrets, and any user of this machine can read it\n"
IMPORTED = {
    "key": "wide-kelp-forest-0092\n",
    "devices": "device 192.0.2.1\nat 192.0.2.1\nkey fjord-and-fell-2026\n"
    "device others\nat 0.0.0.0/0\nat ::/0\nkey wide-kelp-forest-0092\n",
}


def imports(program, path, *words):
    """An import of a configuration, by who makes files for everyone."""
    (path / "conf").write_text(CONFIGURATION)
    ran = subprocess.run(
        ["tacd", "import", *words, "conf"],
        executable=program,
        cwd=path,
        preexec_fn=lambda: os.umask(0),
        capture_output=True,
        text=True,
        timeout=LONGEST_WAIT,
    )
    return ran.stdout, ran.stderr, ran.returncode


def files_that_an_import_writes(program):
    """Their owner alone reads those that are made. One that was there has these lines and no others, and
    its rights, of which standard error warns."""
    policy = "policy 2\nuser bob\nlogin blue-lake\n"
    words = ("--key-to", "key", "--devices-to", "devices")
    with folder() as path:
        for mode, warned in ((0o600, ""), (0o644, READABLE)):
            came = imports(program, path, *words)
            told_of = "".join(warned.format(name) for name in IMPORTED if warned)
            require(came == (policy, told_of, 0), f"it ends by {came}")
            for name, text in IMPORTED.items():
                file = path / name
                require(file.read_text() == text, f"{name} has {file.read_text()!r}")
                require(stat.S_IMODE(file.stat().st_mode) == mode, f"others may read {name}")
                file.write_text("an older line\n" * 100)
                file.chmod(0o644)


def files_that_an_import_cannot_write(program):
    """Then no policy is printed, and the status is 4."""
    with folder() as path:
        for words, why in (
            (("--key-to", "/dev/full"), "/dev/full: it could not be written"),
            (("--devices-to", "/dev/full"), "/dev/full: it could not be written"),
            (("--key-to", "none/key"), "none/key: No such file or directory (os error 2)"),
        ):
            came = imports(program, path, *words)
            require(came == ("", f"tacd: {why}\n", 4), f"with {words} it ends by {came}")
