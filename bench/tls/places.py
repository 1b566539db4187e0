"""Where all of it lies, and as whom the server runs: as root of a clean machine would have it."""

import grp
import os
import pathlib
import pwd
import shutil
import subprocess

from documents import example

IS_ROOT = os.geteuid() == 0
# The server's user here, in place of tacd, and one who is in no group of the proxy.
USER, STRANGER = "nobody", "daemon"
# The socket's folder, as the examples have it.
FOLDER = "/run/tacd-proxy"


class Places:
    """A folder for a server and its proxy: for the proxy's group, if root runs this."""

    def __init__(self, top, group):
        self.top = pathlib.Path(top)
        self.own = self.top / "own"
        self.folder = self.top / "tacd-proxy"
        self.socket = self.folder / "socket"
        self.console = self.own / "console"
        self.log = self.own / "audit.log"
        self.own.mkdir(parents=True, mode=0o755)
        if IS_ROOT:
            os.chown(self.own, *identity(USER))
            self.make_folder(group)
        else:
            self.folder.mkdir(mode=0o750)

    def make_folder(self, group):
        """The socket's folder, by the line of examples/tls for systemd-tmpfiles."""
        line = example("tacd-proxy.conf", (FOLDER, str(self.folder)), (" tacd ", f" {USER} "),
                       (" haproxy ", f" {group} "))
        if shutil.which("systemd-tmpfiles") is None:
            print("systemd-tmpfiles isn't there: its line isn't tried")
            _, path, mode, user, group, _ = line.splitlines()[-1].split()
            os.mkdir(path)
            os.chown(path, pwd.getpwnam(user).pw_uid, grp.getgrnam(group).gr_gid)
            os.chmod(path, int(mode, 8))
            return
        file = self.top / "tacd-proxy.conf"
        file.write_text(line)
        subprocess.run(["systemd-tmpfiles", "--create", file], check=True)

    def write(self, name, text):
        """A file that the server's user alone can read, whole at once."""
        path = self.own / f"{name}.new"
        path.write_text(text)
        path.chmod(0o600)
        if IS_ROOT:
            os.chown(path, *identity(USER))
        path.rename(self.own / name)
        return self.own / name


def identity(user):
    entry = pwd.getpwnam(user)
    return entry.pw_uid, entry.pw_gid


def as_user(user):
    """What has subprocess start something as this user, in no other group, if root runs this."""
    if not IS_ROOT:
        return {}
    uid, gid = identity(user)
    return {"user": uid, "group": gid, "extra_groups": []}
