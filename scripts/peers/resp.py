"""RESP2 and RESP3 compared with a Redis server, and with a decoder in Python written from the
protocol.

A local server on a free port gets commands with replies of each kind, and a number of random
commands: in RESP2, and in RESP3 after `HELLO 3`, in which the server also sends messages and
invalidations. For each reply, followed by another one, the program prints

- the result and the rest of `read_reply`;
- whether `write_reply` writes the same bytes;
- the number of its prefixes for which a result is not `Incomplete`, which must be 0. They are all
  prefixes of short replies, and some of long ones;
- the number of bytes after which `Extent`, given the same chunks, and `bounded_length` find the end.
"""
import contextlib
import re
import shutil
import socket
import struct
import subprocess
import tempfile
import time

from peers.harness import Comparison, NoPeer, install, summed
from peers.resp_commands import ONLY_PUSHED, commands

# The bytes after each reply.
NEXT = b"+NEXT\r\n"
# The number of prefixes of a long reply, and the minimum length of a long reply.
CUTS, LONG = 12, 64
# A double: [<+|->]<integral>[.<fractional>][<E|e>[sign]<exponent>], or one of four words.
DOUBLE = re.compile(rb"-?inf|-?nan|[+-]?[0-9]+(\.[0-9]+)?([Ee][+-]?[0-9]+)?")
BIG_NUMBER = re.compile(rb"[+-]?[0-9]+")


@contextlib.contextmanager
def server():
    """Starts a server, and returns a socket to it."""
    if not shutil.which("redis-server"):
        install("redis-server", "redis-tools")
    with socket.socket() as free:
        free.bind(("127.0.0.1", 0))
        port = free.getsockname()[1]
    words = {"port": port, "bind": "127.0.0.1", "save": "", "appendonly": "no", "daemonize": "no",
             "enable-debug-command": "yes"}
    with tempfile.TemporaryDirectory() as room:
        run = subprocess.Popen(["redis-server"] + [part for name, value in words.items()
                                                   for part in (f"--{name}", str(value))],
                               cwd=room, stdout=subprocess.DEVNULL)
        try:
            for _ in range(100):
                try:
                    with socket.create_connection(("127.0.0.1", port), timeout=10) as found:
                        yield found
                        return
                except ConnectionRefusedError:
                    time.sleep(0.1)
            raise NoPeer("the server does not answer")
        finally:
            run.terminate()
            run.wait()


class Replies:
    """The replies of a server."""

    def __init__(self, found, version):
        self.file = found.makefile("rb")
        self.version = version
        self.raw = b""

    def bytes(self, count):
        """Reads `count` bytes and a line ending."""
        data = self.file.read(count + 2)
        self.raw += data
        assert len(data) == count + 2 and data.endswith(b"\r\n"), data
        return data[:-2]

    def line(self):
        """Reads a line, and returns its mark and the text after it."""
        data = self.file.readline()
        self.raw += data
        assert data.endswith(b"\r\n") and b"\r" not in data[:-2], data
        return data[:1].decode(), data[1:-2]

    def reply(self):
        """Reads a reply, and returns it as the program prints it."""
        mark, text = self.line()
        assert mark in ("+-:$*" if self.version == 2 else "+-:$*_#,(!=%~>|"), mark
        if mark in "+-":
            return mark + summed(text)
        if mark == ":":
            return f":{int(text)} "
        if mark in "_#,(":
            return self.third_line(mark, text)
        if mark in "$*" and int(text) < 0:
            return f"{mark}-1 "
        assert text.isdigit(), text
        if mark in "$!":
            return mark + summed(self.bytes(int(text)))
        if mark == "=":
            data = self.bytes(int(text))
            assert data[3:4] == b":", data
            return mark + summed(data[:3]) + mark + summed(data[4:])
        count = int(text) * (2 if mark in "%|" else 1) + (mark == "|")
        return f"{mark}{count} " + "".join(self.reply() for _ in range(count))

    def third_line(self, mark, text):
        """Returns the value of a line that only RESP3 has."""
        if mark == "_":
            assert text == b"", text
            return "_ "
        if mark == "#":
            return f"#{'true' if {b't': True, b'f': False}[text] else 'false'} "
        assert (DOUBLE if mark == "," else BIG_NUMBER).fullmatch(text), text
        return mark + summed(text)

    def next(self):
        """Reads a reply, and returns its bytes and its form as the program prints it."""
        self.raw = b""
        said = self.reply()
        return self.raw, said

    def answers(self, parts):
        """Returns the server's pushes and its reply to a command."""
        left = len(parts) - 1 if parts[0] in ONLY_PUSHED else 0
        while True:
            raw, said = self.next()
            yield raw, said
            pushed = raw.startswith(b">")
            left -= pushed
            if left == 0 if parts[0] in ONLY_PUSHED else not pushed:
                return


def sent(parts):
    """Returns the bytes of a command."""
    return b"*%d\r\n" % len(parts) + b"".join(b"$%d\r\n%s\r\n" % (len(it), it) for it in parts)


def replies(version):
    """Returns a generator of a server's replies in one version of the protocol, each with its bytes
    and the decoder's result."""

    def rows(rng, count):
        with server() as found:
            some = Replies(found, version)
            for parts in commands(rng, version, count):
                found.sendall(sent(parts))
                yield from some.answers(parts)

    return rows


def given(row):
    """Returns a reply after its length and the distance between two prefixes."""
    raw, _ = row
    step = 1 if len(raw) <= LONG else len(raw) // CUTS
    return struct.pack(">II", len(raw), step) + raw + NEXT


def kind(row, ours, theirs):
    """Returns the mark of the reply, and whether it is a null."""
    raw, said = row
    return said[: 3 if raw[1:3] == b"-1" and raw[:1] in b"$*" else 1]


def comparison(version):
    """Returns the comparison of a version."""

    def peer(rows):
        ends = [f" end {len(raw)} and {len(raw)}" for raw, _ in rows]
        begin = f"left {len(NEXT)} written true answered 0"
        return [said + begin + end for (_, said), end in zip(rows, ends)]

    return Comparison(
        f"resp/{version}", "a server of Redis", "format_resp winnow", f"resp resp{version}",
        replies(version), given, peer, kind=kind, seed=6379, count=1000,
    )


COMPARISONS = [comparison(2), comparison(3)]
