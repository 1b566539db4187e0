"""Certificates, made by the commands of docs/TLS.md, and such as have something wrong."""

import pathlib
import ssl
import subprocess

import documents
from lib.program import fail

SERVER = "tacacs.example.net"
# The device that the commands of docs/TLS.md speak of.
DEVICE = "core-1"

# What `openssl ca` wants to know so that it revokes.
AUTHORITY = """[ca]
default_ca = devices
[devices]
database = index.txt
default_md = sha256
certificate = ca.pem
private_key = ca.key
"""


def run(folder, commands):
    done = subprocess.run(["sh", "-e", "-c", commands], cwd=folder, capture_output=True, text=True)
    if done.returncode != 0:
        fail(f"{commands}\n{done.stderr}")


class Authority:
    """One that signs for the server and for devices, in a folder of its own."""

    def __init__(self, folder):
        self.folder = pathlib.Path(folder)
        self.folder.mkdir()
        self.make_authority, make_server, self.make_device = documents.commands("Certificates")
        run(folder, self.make_authority)
        run(folder, make_server)
        self.issue(DEVICE)

    def issue(self, name, instead=("", "")):
        """The files of a device of this name, by the commands with another word in them."""
        run(self.folder, self.make_device.replace(DEVICE, name).replace(*instead))
        return self.pair(name)

    def pair(self, name):
        return str(self.folder / f"{name}.pem"), str(self.folder / f"{name}.key")

    def revoke(self, name):
        (self.folder / "ca.cnf").write_text(AUTHORITY)
        (self.folder / "index.txt").touch()
        run(self.folder, f"openssl ca -config ca.cnf -revoke {name}.pem")
        run(self.folder, "openssl ca -config ca.cnf -gencrl -crldays 1 -out crl.pem")

    def context(self, pair=None, version=ssl.TLSVersion.TLSv1_3):
        """That of a device which checks the server's name, and shows this certificate or none."""
        context = ssl.SSLContext(ssl.PROTOCOL_TLS_CLIENT)
        context.load_verify_locations(self.folder / "ca.pem")
        context.minimum_version = context.maximum_version = version
        if pair is not None:
            context.load_cert_chain(*pair)
        return context
