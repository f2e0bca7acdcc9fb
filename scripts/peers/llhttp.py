"""Heads of HTTP/1.1 compared with llhttp, from `node` without lenient flags, and with httparse,
from Debian's package in its default configuration.

If only one accepts a text, there must be a reason: a row of the table of differences in
`docs/READERS.md` that applies to the text. If both accept it, the method, the target, the status,
the fields and the length of the body must be the same, except for a row; httparse does not report
the length. The texts of the table's rows come first, then those that differ from one of a few heads
in one byte.
"""
import atexit
import functools
import json
import pathlib
import re
import shutil
import struct
import subprocess
import tempfile

from peers.harness import PROGRAMS, Comparison, NoPeer, install
from peers.http_reasons import (
    AFTER_CHUNKED,
    HTTPARSE_REFUSES,
    HTTPARSE_TAKES,
    LLHTTP_REFUSES,
    LLHTTP_TAKES,
    REQUEST,
    RESPONSE,
    ROWS,
)
from peers.http_texts import known_request, response, texts

PACKAGE = "librust-httparse-dev"
CARGO = '[package]\nname = "heads"\nversion = "0.1.0"\nedition = "2021"\n' \
        '[dependencies]\nhttparse = "1"\n'
SOURCE = '[source.crates-io]\nreplace-with = "debian"\n[source.debian]\n' \
         'directory = "/usr/share/cargo/registry"\n'
# A head with the empty lines before it; and the input for llhttp after it.
HEAD = re.compile(rb"(?:\r?\n)*.*?\r\n\r\n", re.DOTALL)
MORE = "0\r\n\r\n" + "x" * 95
MADE = {REQUEST: known_request, RESPONSE: response}
HEADS = {
    REQUEST: (
        b"GET / HTTP/1.1\r\nHost: a\r\n\r\n",
        b"POST /a HTTP/1.1\r\nContent-Length: 1\r\n\r\n",
        b"POST / HTTP/1.1\r\nTransfer-Encoding: chunked\r\n\r\n",
    ),
    RESPONSE: (
        b"HTTP/1.1 200 OK\r\nTransfer-Encoding: chunked\r\n\r\n",
        b"HTTP/1.1 200 \r\nContent-Length: 0\r\n\r\n",
        b"HTTP/1.1 404\r\nA: b\r\n\r\n",
    ),
}


def near(text):
    """Yields the bytes that differ in one byte, which is inserted, replaced or removed."""
    for at in range(len(text) + 1):
        for byte in range(256):
            yield text[:at] + bytes([byte]) + text[at:]
            yield text[:at] + bytes([byte]) + text[at + 1 :]
        yield text[:at] + text[at + 1 :]


def rows_of(kind):
    """Returns a generator of inputs of a kind, first those of the table, each with the table's cells
    for this library, httparse and llhttp, or without cells."""

    def rows(rng, count):
        for of, text, cells in ROWS.values():
            if of == kind:
                yield text.encode("latin-1"), cells
        for text in dict.fromkeys(it for head in HEADS[kind] for it in near(head)):
            yield text, None
        for text in texts(MADE[kind])(rng, count):
            yield text, None

    return rows


def by_llhttp(kind):
    """Returns a peer with llhttp's results."""

    def peer(rows):
        heads = [(HEAD.match(text) or [text])[0].decode("latin-1") for text, _ in rows]
        asked = [json.dumps({"kind": kind, "text": head, "more": MORE}) for head in heads]
        given = {"input": "\n".join(asked).encode(), "stdout": subprocess.PIPE, "check": True}
        try:
            ran = subprocess.run(["node", "--no-deprecation", PROGRAMS / "heads.js"], **given)
        except (OSError, subprocess.CalledProcessError) as why:
            raise NoPeer(f"node does not run: {why}") from why
        return [json.loads(line) for line in ran.stdout.splitlines()]

    return peer


@functools.cache
def httparse():
    """Builds the program that uses httparse."""
    if subprocess.run(["dpkg", "-s", PACKAGE], capture_output=True, check=False).returncode:
        install(PACKAGE)
    room = pathlib.Path(tempfile.mkdtemp(prefix="httparse-"))
    atexit.register(shutil.rmtree, room, ignore_errors=True)
    (room / "src").mkdir()
    (room / "Cargo.toml").write_text(CARGO, encoding="utf-8")
    (room / "debian.toml").write_text(SOURCE, encoding="utf-8")
    shutil.copyfile(PROGRAMS / "heads.rs", room / "src/main.rs")
    ran = ["cargo", "build", "--config", "debian.toml", "--release", "--offline", "--quiet"]
    if subprocess.run(ran, cwd=room, check=False).returncode:
        raise NoPeer("cargo does not build a program over httparse")
    return room / "target/release/heads"


def by_httparse(kind):
    """Returns a peer with httparse's results."""

    def peer(rows):
        given = b"".join(struct.pack(">I", len(text)) + text for text, _ in rows)
        how = {"input": given, "stdout": subprocess.PIPE, "check": True}
        ran = subprocess.run([httparse(), str(kind)], **how)
        return ran.stdout.decode().splitlines()

    return peer


def parts(answer):
    """Returns the parts that were printed as lists of numbers."""
    return [bytes(int(code) for code in it.split(", ") if code)
            for it in re.findall(r"\[([^\]]*)\]", answer)]


def llhttp_takes(said):
    """Returns whether llhttp accepts the head. It reports a last coding other than `chunked` only
    after the head."""
    return said["head"] and said.get("fault") != "HPE_INVALID_TRANSFER_ENCODING"


def httparse_takes(said):
    return said != "none"


def is_read(answer):
    """Returns whether a head is accepted."""
    return answer != "none"


def is_framed(answer):
    """Returns whether a head is accepted, and its body has a length."""
    return is_read(answer) and not answer.startswith("refused ")


def alike_llhttp(kind, answer, said):
    """Returns whether llhttp's head and length of the body are the same as here."""
    length, found = answer.partition(" ")[0].replace("none", "0"), parts(answer)
    pairs = [it.encode("latin-1") for it in said["fields"]]
    # It expects a body after unknown informational responses.
    is_unknown = kind == RESPONSE and 103 < said["status"] < 200
    is_long = length.isdigit() and int(length) > len(MORE)
    if length not in ("tunnel", length_by(said)) and not (is_unknown or is_long):
        return False
    if kind == REQUEST:
        return found == [said["method"].encode(), said["target"].encode("latin-1"), *pairs]
    status, reason = answer.split(" ")[1], said["reason"].encode("latin-1")
    return status == str(said["status"]) and found == [reason, *pairs]


def length_by(said):
    """Returns the length of the body, from llhttp's result for the bytes after the head."""
    if said["done"] and said["body"] == 0 and said["more"]:
        return "chunked"
    return str(said["body"]) if said["done"] else "close"


def alike_httparse(kind, answer, said):
    """Returns whether httparse's head is the same as here. It drops a reason with bytes from 128
    up."""
    here, there = parts(answer), parts(said)
    if kind == RESPONSE:
        here.insert(0, answer.split(" ")[1].encode())
        here[1] = b"" if any(byte >= 128 for byte in here[1]) else here[1]
    return here == there


def judged(kind, column, is_taken, takes, alike, refuses, takes_more):
    """Returns a judge of whether both accept a head with the same result, or why one rejects it.
    `column` is the peer's column in the table."""

    def judge(row, answer, said):
        text, cells = row
        here, there = is_taken(answer), takes(said)
        if cells and cells[0] + cells[column] != "ny"[is_framed(answer)] + "ny"[there]:
            return False
        if here == there and (not here or alike(kind, answer, said)):
            return True
        told = AFTER_CHUNKED if there and here else (refuses if here else takes_more)[kind]
        return next((it for it, holds in told.items() if holds(text)), False)

    return judge


def kind_of(row, ours, theirs):
    return "read" if is_read(ours) else "none"


def comparison(kind, peer):
    """Returns the comparison of a kind of heads with one of the two peers."""
    name = {REQUEST: "requests", RESPONSE: "responses"}[kind]
    if peer == "llhttp":
        said = by_llhttp(kind)
        judge = judged(kind, 2, is_framed, llhttp_takes, alike_llhttp, LLHTTP_REFUSES, LLHTTP_TAKES)
    else:
        said = by_httparse(kind)
        judge = judged(
            kind, 1, is_read, httparse_takes, alike_httparse, HTTPARSE_REFUSES, HTTPARSE_TAKES
        )
    return Comparison(
        f"http/{name}_{peer}", peer, "format_http", f"http_{name}", rows_of(kind),
        lambda row: row[0], said, judge, kind_of, seed=9112,
    )


PEERS = ("llhttp", "httparse")
BESIDE_OTHERS = [comparison(kind, it) for kind in (REQUEST, RESPONSE) for it in PEERS]
