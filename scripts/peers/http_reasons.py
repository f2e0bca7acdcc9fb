"""The table of differences of heads in `docs/READERS.md`, and a test for each row."""
import functools
import json
import re
import subprocess

REQUEST, RESPONSE = 1, 2

# The rows of the table: the kind, the text, and which of this library, httparse and llhttp accept
# it.
ROWS = {
    "a single line feed as a line ending": (REQUEST, "GET / HTTP/1.1\nA: b\n\n", "nyn"),
    "empty lines before the first line": (REQUEST, "\r\n\r\nGET / HTTP/1.1\r\n\r\n", "nyy"),
    "an unregistered method": (REQUEST, "BREW / HTTP/1.1\r\n\r\n", "yyn"),
    "a target in UTF-8": (REQUEST, "GET /\xc3\xa9 HTTP/1.1\r\n\r\n", "nnn"),
    "a target with <": (REQUEST, "GET /< HTTP/1.1\r\n\r\n", "yny"),
    "a target that is not a URI": (REQUEST, "GET a HTTP/1.1\r\n\r\n", "yyn"),
    "two spaces between words": (REQUEST, "GET  / HTTP/1.1\r\n\r\n", "nny"),
    "no version": (REQUEST, "GET /\r\n\r\n", "nny"),
    "version 1.2": (REQUEST, "GET / HTTP/1.2\r\n\r\n", "ynn"),
    "version 2.0": (REQUEST, "GET / HTTP/2.0\r\n\r\n", "yny"),
    "no reason and no space before it": (RESPONSE, "HTTP/1.1 200\r\nA: b\r\n\r\n", "yyy"),
    "a reason with bytes from 128 up": (RESPONSE, "HTTP/1.1 200 \xe9\r\n\r\n", "yyy"),
    "a reason with a byte of 127": (RESPONSE, "HTTP/1.1 200 \x7f\r\n\r\n", "nny"),
    "a reason with a byte of 0": (RESPONSE, "HTTP/1.1 200 \0\r\n\r\n", "nny"),
    "a reason with a byte of 1": (RESPONSE, "HTTP/1.1 200 \1\r\n\r\n", "nny"),
    "a reason with a byte of 11": (RESPONSE, "HTTP/1.1 200 \v\r\n\r\n", "nny"),
    "a carriage return before a request line": (REQUEST, "\rGET / HTTP/1.1\r\n\r\n", "nny"),
    "a carriage return before a status line": (RESPONSE, "\rHTTP/1.1 200 \r\n\r\n", "nny"),
    "a status line that ends in two": (RESPONSE, "HTTP/1.1 200 \r\rA: b\r\n\r\n", "nny"),
    "lengths of a response without a body": (
        RESPONSE, "HTTP/1.1 304 \r\nContent-Length: a\r\n\r\n", "yyn"),
    "a folded line": (
        REQUEST, "GET / HTTP/1.1\r\nA: b\r\n c\r\n\r\n", "nnn"),
    "whitespace before a colon": (REQUEST, "GET / HTTP/1.1\r\nA : b\r\n\r\n", "nnn"),
    "Transfer-Encoding with Content-Length": (
        REQUEST, "POST / HTTP/1.1\r\nContent-Length: 1\r\nTransfer-Encoding: chunked\r\n\r\n",
        "nyn"),
    "two Content-Length fields of one number": (
        REQUEST, "POST / HTTP/1.1\r\nContent-Length: 1\r\nContent-Length: 1\r\n\r\n", "yyn"),
    "Content-Length as a list": (
        REQUEST, "POST / HTTP/1.1\r\nContent-Length: 42, 42\r\n\r\n", "yyn"),
    "an empty element of Content-Length": (
        REQUEST, "POST / HTTP/1.1\r\nContent-Length: 4,\r\n\r\n", "nyn"),
    "chunked twice, in a request": (
        REQUEST, "POST / HTTP/1.1\r\nTransfer-Encoding: chunked, chunked\r\n\r\n", "nyn"),
    "chunked with a parameter before another coding": (
        REQUEST, "POST / HTTP/1.1\r\nTransfer-Encoding: chunked;a=b, chunked\r\n\r\n", "nyy"),
    "chunked before another coding, in a response": (
        RESPONSE, "HTTP/1.1 200 OK\r\nTransfer-Encoding: chunked, gzip\r\n\r\n", "nyy"),
    "a tab after Content-Length": (
        REQUEST, "POST / HTTP/1.1\r\nContent-Length: 1\t\r\n\r\n", "yyn"),
    "a tab after chunked": (
        REQUEST, "POST / HTTP/1.1\r\nTransfer-Encoding: chunked\t\r\n\r\n", "yyn"),
    "a comma after chunked": (
        REQUEST, "POST / HTTP/1.1\r\nTransfer-Encoding: chunked,\r\n\r\n", "yyn"),
    "a tab after chunked, in a response": (
        RESPONSE, "HTTP/1.1 200 OK\r\nTransfer-Encoding: chunked\t\r\n\r\n", "yyy"),
    "a comma after chunked, in a response": (
        RESPONSE, "HTTP/1.1 200 OK\r\nTransfer-Encoding: chunked,\r\n\r\n", "yyy"),
    "Transfer-Encoding without a coding": (
        REQUEST, "GET / HTTP/1.1\r\nTransfer-Encoding:\r\n\r\n", "nyy"),
    "an element of Transfer-Encoding that is no coding": (
        REQUEST, "POST / HTTP/1.1\r\nTransfer-Encoding: a b, chunked\r\n\r\n", "nyy"),
    "an element of Transfer-Encoding that is no coding, in a response": (
        RESPONSE, "HTTP/1.1 200 OK\r\nTransfer-Encoding: a b\r\n\r\n", "nyy"),
    "chunked in a quoted string": (
        REQUEST, 'POST / HTTP/1.1\r\nTransfer-Encoding: x;a=",chunked,", chunked\r\n\r\n', "yyn"),
    "a space before the method": (REQUEST, " GET / HTTP/1.1\r\n\r\n", "nyn"),
    "Transfer-Encoding before version 1.1": (
        REQUEST, "POST / HTTP/1.0\r\nTransfer-Encoding: chunked\r\n\r\n", "nyy"),
}


def fields_of(text):
    """Returns the lower-case names and the values of field lines."""
    lines = text.split(b"\n")[1:]
    pairs = (line.partition(b":") for line in lines if b":" in line)
    return [(name.lower(), value.strip(b" \t\r")) for name, _, value in pairs]


def lengths_of(text):
    """Returns the values of the Content-Length fields."""
    return [value for name, value in fields_of(text) if name == b"content-length"]


def codings_of(text):
    """Returns the values of the Transfer-Encoding fields."""
    return [value for name, value in fields_of(text) if name == b"transfer-encoding"]


TOKEN = rb"[!#$%&'*+\-.^_`|~0-9A-Za-z]+"
QUOTED = rb'"(?:[\t !#-\[\]-~\x80-\xff]|\\[\t -~\x80-\xff])*"'
CODING = rb"%b(?:[ \t]*;[ \t]*%b[ \t]*=[ \t]*(?:%b|%b))*" % (TOKEN, TOKEN, TOKEN, QUOTED)
CODINGS = re.compile(rb"[ \t]*(?:%b)?[ \t]*(?:,[ \t]*(?:%b)?[ \t]*)*" % (CODING, CODING))


def has_no_coding(text):
    """Returns whether a Transfer-Encoding field is not a list of transfer codings (RFC 9110,
    section 10.1.4)."""
    return any(not CODINGS.fullmatch(value) for value in codings_of(text))


def follows_chunked(text):
    """Returns whether a coding comes after `chunked`."""
    codings = [it.strip(b" \t") for it in b",".join(codings_of(text)).split(b",")]
    before = [it for it in codings if it][:-1]
    return any(re.match(rb"(?i)chunked([; \t]|$)", it) for it in before)


def ends_oddly(text):
    """Returns whether a tab or a comma follows the last coding, which is `chunked`."""
    values = re.findall(rb"(?im)^transfer-encoding:([^\r\n]*)", text)
    return bool(re.search(rb"(?i)chunked[ \t]*[\t,][ \t,]*$", b",".join(values)))


def words(text):
    """Returns the words of the first line."""
    return text.lstrip(b"\r\n").split(b"\n")[0].strip(b"\r").split(b" ")


def version_of(text):
    """Returns the version in the first line."""
    found = re.search(rb"HTTP/(\d\.\d)", text)
    return found.group(1) if found else b""


def has_no_body(text):
    """Returns whether a response has a status without a body."""
    return bool(re.match(rb"HTTP/\d\.\d (1\d\d|204|304)", text))


@functools.cache
def methods():
    """Returns the methods that llhttp knows."""
    said = subprocess.run(["node", "--no-deprecation", "-p",
                           "JSON.stringify(process.binding('http_parser').allMethods)"],
                          stdout=subprocess.PIPE, check=True)
    return json.loads(said.stdout)


# A length that llhttp rejects, though whitespace may follow a value.
TAB_BEHIND = re.compile(rb"(?im)^content-length:[ \t]*\d+ *\t")

# The reasons why one accepts a head that the other rejects: a row of the table of differences, and
# a test of the text. First the reasons why only this library accepts it.
COUNTED = {
    "two Content-Length fields": lambda text: len(lengths_of(text)) > 1,
    "Content-Length as a list": lambda text: any(b"," in it for it in lengths_of(text)),
    "a tab after Content-Length": lambda text: bool(TAB_BEHIND.search(text)),
}
AFTER_CHUNKED = {"a tab or a comma after chunked": ends_oddly}
LLHTTP_REFUSES = {
    REQUEST: COUNTED | AFTER_CHUNKED | {
        "chunked in a quoted string": lambda text: any(b'"' in it for it in codings_of(text)),
        "the method": lambda text: words(text)[0].decode("latin-1") not in methods(),
        "the target": lambda text: not re.match(rb"/|\*|[A-Za-z]+://", words(text)[1]),
        "the version": lambda text: version_of(text) not in (b"0.9", b"1.0", b"1.1", b"2.0"),
    },
    RESPONSE: COUNTED | {
        "the version": lambda text: version_of(text) not in (b"0.9", b"1.0", b"1.1", b"2.0"),
        "lengths of a response without a body": has_no_body,
    },
}
EMPTY_LINES = {"empty lines": lambda text: text[:1] in (b"\r", b"\n")}
OLD_CODING = {
    "Transfer-Encoding before version 1.1": lambda text:
        bool(codings_of(text)) and version_of(text) < b"1.1",
    "Transfer-Encoding without a coding": lambda text: b"" in codings_of(text),
    "chunked before another coding": follows_chunked,
    "an element that is no coding": has_no_coding,
}
LLHTTP_TAKES = {
    REQUEST: EMPTY_LINES | OLD_CODING | {
        "two spaces": lambda text: b"" in words(text),
        "no version": lambda text: len(words(text)) == 2,
    },
    RESPONSE: EMPTY_LINES | OLD_CODING | {
        "a reason": lambda text: bool(re.match(rb"[^\n]*[\0-\x08\x0b\x0c\x0e-\x1f\x7f]", text)),
        "two carriage returns": lambda text: bool(re.match(rb"[^\n]*\r\r", text)),
    },
}
HTTPARSE_REFUSES = {
    REQUEST: {
        "the version": lambda text: version_of(text) not in (b"1.0", b"1.1"),
        "the target": lambda text: bool(re.search(rb"[<>]", words(text)[1])),
    },
    RESPONSE: {"the version": lambda text: version_of(text) not in (b"1.0", b"1.1")},
}
ENDS = EMPTY_LINES | {
    "a single line feed": lambda text: bool(re.search(rb"(^|[^\r])\n", text)),
}
HTTPARSE_TAKES = {
    REQUEST: ENDS | {
        "the target": lambda text: any(byte >= 128 for byte in words(text)[1]),
        "the method": lambda text: bool(re.search(rb'["(),/:;<=>?@{}\[\\\]]', words(text)[0])),
        "a space before the method": lambda text: text.lstrip(b"\r\n")[:1] == b" ",
    },
    RESPONSE: ENDS,
}
