"""Whether devices are served inside TLS, by haproxy and stunnel in front of `tacd serve --proxy`.

    python3 bench/tls [--program PATH]

PATH is the program to try; without it ./tacd builds one. Each check is printed with what was found,
and with WRONG where that isn't right. Then the status is 1. It takes two minutes. The bounds are
those of a machine that does nothing else.

The proxies run by the files of examples/tls, with other ports and folders in them; docs/TLS.md has
these files to the line, and the certificates are made by its commands. Run by root, the server is
the user nobody here, the proxies are users of their own, the folder of the socket is made by
systemd-tmpfiles, and haproxy is chrooted, with that folder shown to it as docs/TLS.md says. Else
all are one user.

By each of the two proxies:
- TLS 1.2, no certificate, and one of another CA, one that has expired, is revoked, or is a server's
  are refused in the handshake, and the server isn't called. `openssl s_client` and Python's ssl are
  answered.
- Sessions of all kinds have the replies that the same ones have at the port under a key, byte by
  byte, but in clear and with the flag; and the lines of the log are the same, but for `tls`.
- A packet without the flag is told ERROR, with the flag, and its connection closes.
- A device without `tls`, one with another's certificate, one that isn't listed, and at the port one
  without a key are closed, and told as what they are, by their own addresses.
- 1,000 connections at once, one more than there may be, a silent one, and a move from a key to TLS.
- By a haproxy that lets devices through without a certificate, with one of another CA, or without
  TLS, none of them is served.
- The server ends and starts again, and the proxy reaches the next one. Checks of haproxy aren't
  counted.
At the socket without a proxy:
- Headers that are right, wrong, too long, cut anywhere, or never whole; names of all kinds; memory.
- The socket's mode and group, who may connect, and starts that can't have it.
After all of this each number of `status` is what was done.

On Debian: apt-get install haproxy stunnel4 openssl, and jq for the page's lines of jq.
"""

import os
import pathlib
import resource
import shutil
import sys
import tempfile

sys.path.append(str(pathlib.Path(__file__).resolve().parents[1]))

import direct  # noqa: E402
import documents  # noqa: E402
import through  # noqa: E402
from certificates import Authority  # noqa: E402
from lib.judge import compare, end  # noqa: E402
from lib.program import begin, fail, reader  # noqa: E402
from places import IS_ROOT, Places  # noqa: E402
from proxies import Haproxy, Stunnel  # noqa: E402
from server import Server  # noqa: E402

NEEDED = ("haproxy", "stunnel4", "openssl")
# A connection is two files of a proxy, and stunnel takes half as many connections as files.
FILES = 8_192


def raise_files():
    soft, hard = resource.getrlimit(resource.RLIMIT_NOFILE)
    if hard != resource.RLIM_INFINITY and hard < FILES:
        fail(f"only {hard} files may be open, and it takes {FILES}")
    resource.setrlimit(resource.RLIMIT_NOFILE, (max(soft, FILES), hard))


def try_proxy(program, kind, top, authority, other):
    """All that goes through a proxy, and the socket itself, with a server of their own."""
    places = Places(top / kind.__name__.lower(), kind.group)
    with Server(program, places, through.devices()) as server:
        direct.try_file(server, kind.group)
        with kind(places, authority) as proxy:
            trial = through.Trial(server, proxy, authority)
            through.try_handshakes(trial, other)
            through.try_openssl(trial)
            through.try_early_data(trial)
            through.try_revoked(trial, kind(places, authority, "revoking"))
            through.try_sessions(trial)
            through.try_one_connection(trial)
            through.try_unflagged(trial)
            through.try_refused(trial)
            through.try_few(trial)
            through.try_addresses(trial)
            through.try_move(trial)
            through.try_crowd(trial)
            through.try_silence(trial)
            if kind is Haproxy:
                through.try_optional(trial, kind(places, authority, "optional"), other)
                through.try_plain(trial, kind(places, authority, "plain"))
                through.try_checks(trial, kind(places, authority, "checking"))
            through.try_restart(trial)
        if kind is Haproxy:
            try_directly(server)


def try_directly(server):
    direct.try_headers(server)
    direct.try_pieces(server)
    direct.try_second_header(server)
    direct.try_names(server)
    direct.try_unfinished(server)
    direct.try_broken_off(server)
    direct.try_memory(server)
    direct.try_told(server)
    direct.try_starts(server)
    server.quit()
    other = Server(server.program, server.places, through.devices(), has_port=False)
    direct.try_without_port(other)


def main():
    _, program = begin(reader(__doc__))
    missing = [word for word in NEEDED if shutil.which(word) is None]
    if missing:
        fail(f"{', '.join(missing)} is missing")
    raise_files()
    compare("examples that docs/TLS.md doesn't have to the line", documents.undocumented(), [])
    if not IS_ROOT:
        print("without root's rights there are no other users, no group and no chroot")
    os.umask(0o022)
    with tempfile.TemporaryDirectory(prefix="tacd-tls-") as folder:
        os.chmod(folder, 0o755)
        top = pathlib.Path(folder)
        authority, other = Authority(top / "ca"), Authority(top / "other-ca")
        authority.issue("core-2")
        for kind in Haproxy, Stunnel:
            try_proxy(program, kind, top, authority, other)
    end()


main()
