"""Makes a case smaller on which something is so, as long as it stays so."""

MOST_TRIES = 3_000


def smaller(case, is_so):
    tries = Tries(is_so)
    lines = case.text.split(b"\n")

    def with_lines(lines):
        return case._replace(text=b"\n".join(lines))

    before = None
    while before != lines:
        before = lines
        lines = without_parts(lines, lambda kept: tries.is_so(with_lines(kept)))
        for at in range(len(lines)):
            lines = with_smaller_line(lines, at, lambda kept: tries.is_so(with_lines(kept)))
    return with_lines(lines)


class Tries:
    def __init__(self, is_so):
        self.left = MOST_TRIES
        self.holds = is_so

    def is_so(self, case):
        self.left -= 1
        return self.left >= 0 and self.holds(case)


def with_smaller_line(lines, at, is_so):
    """First without some of the line's words, then without some of its symbols."""

    def replaced(line):
        return lines[:at] + [line] + lines[at + 1 :]

    words = lines[at].split(b" ")
    words = without_parts(words, lambda kept: is_so(replaced(b" ".join(kept))))
    line = b" ".join(words)
    symbols = [bytes([symbol]) for symbol in line]
    symbols = without_parts(symbols, lambda kept: is_so(replaced(b"".join(kept))))
    return replaced(b"".join(symbols))


def without_parts(parts, is_so):
    """Without as many of the parts as can be left out, large pieces first."""
    size = len(parts)
    while size:
        at = 0
        while at < len(parts):
            kept = parts[:at] + parts[at + size :]
            if is_so(kept):
                parts = kept
            else:
                at += size
        size //= 2
    return parts
