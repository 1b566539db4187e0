"""haproxy and stunnel, each by its file of examples/tls."""

import os
import shutil
import signal
import socket
import subprocess
import time

from documents import example
from lib.program import fail
from lib.server import free_port
from places import FOLDER, IS_ROOT

CERTIFICATES = "/etc/tacacss"
# What Debian's haproxy.cfg has in front of the example, but for where it logs.
GLOBAL = """global
    log stderr format raw local0
    ssl-default-bind-ciphersuites TLS_AES_128_GCM_SHA256:TLS_AES_256_GCM_SHA384:TLS_CHACHA20_POLY1305_SHA256
    ssl-default-bind-options ssl-min-ver TLSv1.2 no-tls-tickets
"""
AS_HAPROXY = """    chroot {chroot}
    user haproxy
    group haproxy
"""
DEFAULTS = """
defaults
    log global
    mode http
    option httplog
    option dontlognull
    timeout connect 5000
    timeout client 50000
    timeout server 50000

"""
# With the socket's folder at its place in the chroot, as BindReadOnlyPaths= puts it there.
BOUND = 'mount --bind -o ro "$1" "$2" && shift 2 && exec "$@"'


def has_ipv6():
    try:
        with socket.create_server(("::1", 0), family=socket.AF_INET6):
            return True
    except OSError:
        return False


class Proxy:
    """One that has been started, of which a port answers."""

    def __init__(self, places, authority, name="proxy", certificates=None):
        self.places = places
        self.port = free_port()
        self.file = places.top / f"{name}.conf"
        self.output = places.top / f"{name}.log"
        self.certificates = (CERTIFICATES, str(certificates or authority.folder))
        self.process = None

    def run(self, words):
        with open(self.output, "ab") as output:
            self.process = subprocess.Popen(words, stdin=subprocess.DEVNULL, stdout=output,
                                            stderr=output)
        end = time.monotonic() + 10
        while True:
            try:
                socket.create_connection(("127.0.0.1", self.port), 1).close()
                return
            except OSError:
                if self.process.poll() is not None or time.monotonic() > end:
                    fail(f"{words} doesn't serve: {self.output.read_text()}")
                time.sleep(0.05)

    def __enter__(self):
        self.start()
        return self

    def __exit__(self, *_):
        self.process.send_signal(signal.SIGTERM)
        try:
            self.process.wait(10)
        except subprocess.TimeoutExpired:
            self.process.kill()
            self.process.wait()

    def says(self):
        return self.output.read_text(errors="replace")


class Haproxy(Proxy):
    """In its chroot and as its user, if root runs this."""

    group = "haproxy"
    tells_names = True
    revokes = (" verify required", " crl-file {}/crl.pem verify required")

    def start(self, *changes):
        text = self.example(*changes)
        chroot = self.places.top / "chroot"
        is_bound = IS_ROOT and self.may_bind(chroot)
        if not is_bound:
            text = text.replace(FOLDER, str(self.places.folder))
        user = AS_HAPROXY.format(chroot=chroot) if is_bound else ""
        self.file.write_text(GLOBAL + user + DEFAULTS + text)
        words = ["haproxy", "-f", str(self.file)]
        if is_bound:
            seen = f"{chroot}{FOLDER}"
            words = ["unshare", "--mount", "sh", "-c", BOUND, "-", str(self.places.folder), seen,
                     *words]
        self.run(words)

    def example(self, *changes):
        local = f"127.0.0.1:{self.port}" + (f",::1:{self.port}" if has_ipv6() else "")
        text = example("haproxy.cfg", (" :300,:::300 ", f" {local} "), *changes)
        return text.replace(*self.certificates)

    def may_bind(self, chroot):
        """Whether a folder may be mounted there, for this process alone."""
        os.makedirs(f"{chroot}{FOLDER}", exist_ok=True)
        words = ["unshare", "--mount", "sh", "-c", BOUND, "-", str(self.places.folder),
                 f"{chroot}{FOLDER}", "true"]
        may = subprocess.run(words, capture_output=True).returncode == 0
        if not may:
            print("nothing may be mounted here: haproxy isn't tried in a chroot, nor as its user")
        return may


class Stunnel(Proxy):
    """As its user, if root runs this."""

    group = "stunnel4"
    tells_names = False
    revokes = ("verifyChain", "CRLfile = {}/crl.pem\nverifyChain")

    def start(self, *changes):
        users = () if IS_ROOT else (("setuid = stunnel4\nsetgid = stunnel4\n", ""),)
        at = f":::{self.port}" if has_ipv6() else f"127.0.0.1:{self.port}"
        text = example("stunnel.conf", ("accept = :::300", f"accept = {at}"),
                       (FOLDER, str(self.places.folder)), *users, *changes)
        self.file.write_text(text.replace(*self.certificates))
        self.run([shutil.which("stunnel4") or "stunnel", str(self.file)])
