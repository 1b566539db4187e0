"""The image of packaging/oci, as a runtime for containers takes it.

    image.py unpack IMAGE ROOT CONFIG  looks at each digest, unpacks the layers, and writes the configuration
    image.py run CONFIG ROOT WORD..    runs what the configuration says, with WORD.. in place of its Cmd

'run' is given namespaces of its own for processes, mounts and the network. What it executes is then
the first process there, as the user of the configuration, with no right beyond others.
"""

import ctypes
import fcntl
import gzip
import hashlib
import json
import os
import pathlib
import socket
import struct
import subprocess
import sys
import tarfile

NO_NEW_PRIVILEGES = 38  # of prctl
SET_FLAGS, UP = 0x8914, 1  # of a network's interface


def must(is_so, what):
    if not is_so:
        sys.exit(f"image.py: {what}")


class Layout:
    """An archive of an OCI layout."""

    def __init__(self, path):
        self.archive = tarfile.open(path)

    def read(self, name):
        return self.archive.extractfile(name).read()

    def blob(self, descriptor):
        algorithm, digest = descriptor["digest"].split(":")
        content = self.read(f"blobs/{algorithm}/{digest}")
        must(algorithm == "sha256", f"the algorithm {algorithm}")
        must(hashlib.sha256(content).hexdigest() == digest, f"another digest than {digest}")
        must(len(content) == descriptor["size"], f"another size of {digest}")
        return content

    def document(self, descriptor):
        return json.loads(self.blob(descriptor))

    def names(self):
        return {it.name for it in self.archive.getmembers() if it.isfile()}


def unpack(path, root, written):
    layout = Layout(path)
    version = json.loads(layout.read("oci-layout"))["imageLayoutVersion"]
    must(version == "1.0.0", f"the layout {version}")
    [described] = json.loads(layout.read("index.json"))["manifests"]
    manifest = layout.document(described)
    must(manifest["mediaType"] == described["mediaType"], "two kinds of manifest")
    config = layout.document(manifest["config"])
    layers = [gzip.decompress(layout.blob(it)) for it in manifest["layers"]]
    digests = ["sha256:" + hashlib.sha256(it).hexdigest() for it in layers]
    must(digests == config["rootfs"]["diff_ids"], "the layers aren't those of the configuration")
    # 'docker load' goes by a document of its own.
    [docker] = json.loads(layout.read("manifest.json"))
    places = ["blobs/" + it["digest"].replace(":", "/") for it in (manifest["config"], *manifest["layers"])]
    must([docker["Config"], *docker["Layers"]] == places, "'docker load' would take something else")
    kept = {"oci-layout", "index.json", "manifest.json", *places,
            "blobs/" + described["digest"].replace(":", "/")}
    must(layout.names() == kept, "there are files that nothing names")
    pathlib.Path(root).mkdir()
    for layer in layers:
        subprocess.run(["tar", "-x", "-p", "--numeric-owner", "-f", "-", "-C", root], input=layer, check=True)
    pathlib.Path(written).write_text(json.dumps(config), "utf-8")


def up():
    """The network has itself alone, as an interface that is down at first."""
    with socket.socket(socket.AF_INET, socket.SOCK_DGRAM) as it:
        fcntl.ioctl(it, SET_FLAGS, struct.pack("16sH14x", b"lo", UP))


def run(config, root, words):
    config = json.loads(pathlib.Path(config).read_text("utf-8"))["config"]
    user, group = map(int, config["User"].split(":"))
    up()
    subprocess.run(["mount", "-t", "proc", "proc", f"{root}/proc"], check=True)
    subprocess.run(["mount", "--bind", "/dev", f"{root}/dev"], check=True)
    os.chroot(root)
    os.chdir(config["WorkingDir"])
    os.setgroups([])
    os.setgid(group)
    os.setuid(user)
    must(ctypes.CDLL(None).prctl(NO_NEW_PRIVILEGES, 1, 0, 0, 0) == 0, "prctl")
    words = [*config["Entrypoint"], *(words or config["Cmd"])]
    os.execve(words[0], words, dict(it.split("=", 1) for it in config["Env"]))


if sys.argv[1] == "unpack":
    unpack(*sys.argv[2:])
else:
    run(sys.argv[2], sys.argv[3], sys.argv[4:])
