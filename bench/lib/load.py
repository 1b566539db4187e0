"""Many clients at once, and echo servers to compare a server with: bench/serve_load.c."""

import os
import subprocess

from .program import TOP, fail
from .server import free_port, listening


def built(folder):
    """The program of serve_load.c, which is compiled into this folder."""
    source, program = TOP / "bench/serve_load.c", os.path.join(folder, "serve_load")
    words = [os.environ.get("CC", "cc"), "-O2", "-pthread", "-o", program, source]
    if subprocess.run(words).returncode:
        fail(f"{source} can't be compiled")
    return program


class Echo:
    """An echo server of this kind with so many workers, which listens. It answers the second of
    these texts to the first."""

    def __init__(self, program, kind, workers, texts):
        self.port = free_port()
        words = [program, kind, str(self.port), str(workers), *texts]
        self.process = subprocess.Popen(words, stdout=subprocess.PIPE)
        if [self.process.stdout.readline().decode()] != listening(self.port):
            fail(f"{words[:4]} doesn't listen")

    def __enter__(self):
        return self

    def __exit__(self, *_):
        self.process.kill()
        self.process.wait()
        self.process.stdout.close()
