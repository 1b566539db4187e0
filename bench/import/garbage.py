"""What is wrong with a file gives a line, and never a fault."""

import pathlib
import re
import subprocess
import tempfile

GOOD = """# a site
key = "a key"
host = 192.0.2.1 { key = other prompt = "who? " }
group = ops {
  default service = permit
  service = exec { priv-lvl = 15 optional idletime = 5 }
  cmd = show { deny "run|start" permit ^[a-z]{2,3}.*$ }
}
user = bob { member = ops login = cleartext x expires = "Dec 31 2027" }
"""
LINE = re.compile(r"\S+ line [0-9]+: .")
# A file of 100 MB, by a line that is repeated.
LARGE = 100_000_000


def run(program):
    with tempfile.TemporaryDirectory() as folder:
        tried = Tried(program, pathlib.Path(folder))
        tried.pieces()
        tried.depths()
        tried.rules()
        tried.large()
    print(f"{tried.count} files, {tried.wrong} wrong")
    return 1 if tried.wrong else 0


class Tried:
    def __init__(self, program, folder):
        self.program, self.folder = program, folder
        self.count = self.wrong = 0

    def call(self, command, path):
        words = [str(self.program), command, str(path)]
        return subprocess.run(words, capture_output=True, timeout=600, check=False)

    def add(self, what, content):
        """Imports a content: either a policy comes of it, or a line is told."""
        self.count += 1
        path, policy = self.folder / "tac_plus.conf", self.folder / "policy"
        path.write_bytes(content)
        told = self.call("import", path)
        if told.returncode == 1:
            text = told.stderr.decode("ascii")
            fine = not told.stdout and LINE.fullmatch(text.strip()) or LINE.match(text)
        else:
            policy.write_bytes(told.stdout)
            fine = told.returncode in (0, 5) and self.call("check", policy).returncode == 0
        if not fine:
            self.wrong += 1
            print(f"== {what}: status {told.returncode}\n{told.stderr[-300:]!r}")

    def pieces(self):
        good = GOOD.encode()
        for at in range(len(good)):
            self.add(f"cut at {at}", good[:at])
            for bit in (1, 4, 0x20, 0x80):
                flipped = good[:at] + bytes([good[at] ^ bit]) + good[at + 1:]
                self.add(f"flipped {bit} at {at}", flipped)

    def depths(self):
        for text in ("{", "user = a { service = b { ", "user = a { cmd = b { permit ((((", "}"):
            self.add(f"{text} a thousand times", text.encode() * 1000)
        for depth in (29, 30, 31, 1000):
            search = "(" * depth + "a" + ")" * depth
            self.add(f"{depth} deep", f"user = a {{ cmd = b {{ permit {search} }} }}".encode())
        groups = "".join(f"group = g{n} {{ member = g{n + 1} }}\n" for n in range(1000))
        self.add("a chain of 1000 groups", groups.encode())
        self.add("a circle", b"group = a { member = b } group = b { member = a }")

    def rules(self):
        for verdicts in (("permit",), ("permit", "permit", "deny")):
            rules = "".join(f"{verdicts[n % len(verdicts)]} word{n}\n" for n in range(200))
            self.add("200 rules", f"group = a {{ cmd = show {{ {rules} }} }}".encode())
        blocks = "".join(f"cmd = c{n} {{ permit ^a{n} deny b permit .* }}\n" for n in range(200))
        self.add("200 commands", f"group = a {{ {blocks} }}".encode())
        self.add("300 commands", f"group = a {{ {blocks}{blocks.replace('= c', '= d')} }}".encode())
        users = "".join(f"user = u{n} {{ login = cleartext x }}\n" for n in range(3000))
        self.add("3000 users", users.encode())

    def large(self):
        for what, line in (("braces", b"{"), ("a comment", b"# a\n"), ("quotes", b'"a"\n')):
            self.add(f"100 MB of {what}", line * (LARGE // len(line)))
        rule = b"permit word\n"
        rules = b"user = a { cmd = show {\n" + rule * (LARGE // len(rule)) + b"} }\n"
        self.add("100 MB of rules", rules)
        users = (f"user = u{n} {{ login = cleartext x }}\n" for n in range(LARGE // 40))
        self.add("100 MB of users", "".join(users).encode())
