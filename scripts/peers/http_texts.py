"""Heads and chunked bodies of HTTP/1.1, by the grammar of RFC 9112, most of them changed in a few
positions."""
from peers.harness import often_changed, some

TOKEN = "!#$%&'*+-.^_`|~09azAZ"
VISIBLE = [chr(code) for code in range(33, 127)]
# Methods that llhttp knows.
METHODS = ("GET", "POST", "PUT", "HEAD", "DELETE", "OPTIONS", "PATCH", "M-SEARCH")
# The parts that changes insert.
PARTS = [*" \t\r\n:;,./aZ0\0\x7f\xe9", "\r\n", "\r\n\r\n", " :", ": ", "\r\n ", "HTTP/"]
# The texts after the size of a chunk.
EXTENSIONS = ("", "", "", ";a", " ; a = b", ';a="\\";";b', "\t;~=1;c")
# Field lines with the length of a body.
LENGTHS = ("", "", "Content-Length: 42\r\n", "content-length:0\r\n", "Content-Length: 42\r\n" * 2,
           "Transfer-Encoding: chunked\r\n", "TRANSFER-encoding: gzip\r\n", "Content-Length: a\r\n",
           "Content-Length: 1\r\nTransfer-Encoding: chunked\r\n")


def fields(rng):
    """Returns field lines."""
    text = ""
    for _ in range(rng.choice((0, 1, 2, 3))):
        value = some(rng, "ab :\t;\"\x80\xe9", (0, 1, 5))
        before, behind = rng.choice(("", " ", " \t")), rng.choice(("", "", " "))
        text += f"{some(rng, TOKEN, (1, 4))}:{before}{value}{behind}\r\n"
    return text


def request(rng, methods=(), lengths=("",)):
    """Returns the head of a request, mostly with one of these methods if there are any."""
    is_known = methods and rng.random() < 0.9
    method = rng.choice(methods) if is_known else some(rng, TOKEN, (1, 3, 4))
    line = f"{method} /{some(rng, VISIBLE, (0, 1, 5))} HTTP/1.{rng.randrange(2)}\r\n"
    return line + rng.choice(lengths) + fields(rng) + "\r\n" + rng.choice(("", "", "rest"))


def known_request(rng):
    """Returns the head of a request with a method that llhttp knows and the length of a body."""
    return request(rng, METHODS, LENGTHS)


def response(rng):
    """Returns the head of a response."""
    status = rng.choice((101, 200, 204, 301, 304, 404, 599, 999, rng.randrange(101, 1000)))
    reason = some(rng, "OKab \t\xe9", (0, 1, 5))
    space = " " if reason else rng.choice(("", " "))
    line = f"HTTP/1.{rng.randrange(2)} {status}{space}{reason}\r\n"
    return line + fields(rng) + rng.choice(LENGTHS) + "\r\n" + rng.choice(("", "", "rest"))


def body(rng):
    """Returns a chunked body."""
    text = ""
    for size in [rng.choice((1, 2, 9, 16, 40)) for _ in range(rng.randrange(4))] + [0]:
        digits = rng.choice(("%x", "%X", "00%x")) % size
        text += digits + rng.choice(EXTENSIONS) + "\r\n"
        if size:
            text += "".join(rng.choices("ab0;\r\n\x80", k=size)) + "\r\n"
    return text + fields(rng) + "\r\n" + rng.choice(("", "", "rest"))


def texts(made):
    """Returns a generator of random inputs of one of these kinds, as bytes."""

    def rows(rng, count):
        for _ in range(count):
            text = often_changed(rng, made(rng), PARTS, (0, 0, 1, 1, 2))
            yield text.encode("latin-1")

    return rows
