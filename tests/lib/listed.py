"""Servers with a devices' file, and devices that have a key and an old one."""

import pathlib

from .devices import ASK, CLOSING, PERMITTED, connect, is_answered
from .servers import LOGIN_POLICY, Server

NEW, OLD, THIRD = b"fjord-and-fell-2026-11", b"tundra and taiga", b"wide-kelp-forest-0092"
ONE = f"device one\nat 127.0.0.1\nkey {NEW.decode()}\n"
BOTH_KEYS = f"{ONE}old-key {OLD.decode()}\n"
OTHERS = f"device others\nat 127.0.0.0/30\nkey {THIRD.decode()}\n"


def serving(program, devices, *options, **more):
    """A server of these devices, with a log, and a console at a socket."""
    more = {"key": ("--devices", "devices"), "policy": LOGIN_POLICY, "devices": devices, **more}
    return Server(program, "--console", "console", "--log", "log", *options, **more)


def asks(server, source, key, sent=ASK, wanted=PERMITTED):
    """Whether a device at this address is answered so under this key, on a connection of its own."""
    with connect(server, source) as device:
        return is_answered(device, sent, wanted, key=key, flag=CLOSING)


def put_devices(server, devices):
    """The devices' file of the server has these from now on."""
    pathlib.Path(server.folder.name, "devices").write_text(devices)
