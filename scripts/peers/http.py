"""HTTP/1.1 compared with Python's `http.server` and `http.client`, and with llhttp and httparse.

Python accepts more than the standard: several spaces, single line feeds, names that are not tokens,
folded lines. So the results are compared only if a head is accepted here: Python must then return
the same words and fields, and the same length of a response's body. Python does not parse lists of
lengths and codings, which are left out if they are rejected here, and skips responses of status
100. Whitespace around reasons is ignored.

Responses are also parsed incrementally, byte by byte: when a response is complete, Python must have
consumed the same number of bytes; if none is found, the parser of complete input must not find one
either. Chunked bodies are decoded in chunks of three bytes, with the decoder's state as numbers
between them: Python must return the same content and trailers, and leave as many bytes.
"""
import http.client
import io
import re
from http.server import BaseHTTPRequestHandler

from peers.harness import Comparison, codes, each
from peers.http_texts import body, request, response, texts
from peers.llhttp import BESIDE_OTHERS

FAULTS = (http.client.HTTPException, OSError, ValueError)


class Server(BaseHTTPRequestHandler):
    """Python's reader of a request, over bytes."""

    def __init__(self, head):
        self.rfile, self.wfile = io.BytesIO(head), io.BytesIO()
        self.client_address = ("", 0)
        self.raw_requestline = self.rfile.readline(65537)

    def log_message(self, *words):
        """Ignores the message."""


class Kept(io.BytesIO):
    """Bytes that can be read after Python closes them."""

    def close(self):
        """Does nothing."""

    def makefile(self, mode):
        """Returns itself, so that it also serves as the socket."""
        return self


class Response(http.client.HTTPResponse):
    """A response that keeps its trailers."""

    trailers = ()

    def _read_and_discard_trailer(self):
        self.trailers = http.client.parse_headers(self.fp).raw_items()


def shown(*words, fields):
    """Returns words and fields as the programs print them."""
    pairs = [part.encode("latin-1") for field in fields for part in field]
    return " ".join([*words, *(codes(it.strip(b" \t")) for it in pairs)])


def request_by_python(text):
    """Returns the head that Python reads, without the length of its body; or `none`."""
    server = Server(text)
    if not server.parse_request():
        return "none"
    method, target, version = server.raw_requestline.split()
    words = codes(method), codes(target), version.decode()[5:]
    return shown(*words, fields=server.headers.raw_items())


def response_of(text):
    """Returns the response head that Python reads, and the number of bytes it consumed; or None."""
    kept = Kept(text)
    found = http.client.HTTPResponse(kept, method="GET")
    try:
        found.begin()
    except FAULTS:
        return None
    reason = codes(found.reason.encode("latin-1").strip(b" \t"))
    return found, kept.tell(), shown(str(found.status), reason, fields=found.headers.raw_items())


def response_by_python(text):
    """Returns the head of a response, with the length of its body; or `none`."""
    if not (read := response_of(text)):
        return "none"
    found, _, said = read
    if found.status in (204, 304) or 100 <= found.status < 200:
        return f"none {said}"
    length = "close" if found.length is None else str(found.length)
    return f"{'chunked' if found.chunked else length} {said}"


def body_by_python(text):
    """Returns the chunked body that Python reads; or `none`."""
    kept = Kept(b"HTTP/1.1 200 OK\r\nTransfer-Encoding: chunked\r\n\r\n" + text)
    found = Response(kept, method="GET")
    try:
        found.begin()
        content = found.read()
    except FAULTS:
        return "none"
    return shown(str(len(kept.read())), codes(content), fields=found.trailers)


def trimmed(answer):
    """Returns the program's result for a response, without whitespace around the reason."""
    length, status, rest = answer.split(" ", 2)
    reason, end, parts = rest.partition("]")
    data = bytes(int(code) for code in re.findall(r"\d+", reason))
    return f"{length} {status} {codes(data.strip(bytes((9, 32))))}{parts}" if end else answer


def of_requests(row, ours, theirs):
    return None if ours == "none" else ours.partition(" ")[2] == theirs


def of_responses(row, ours, theirs):
    if ours == "none" or ours.startswith("refused ") or " 100 [" in ours:
        return None
    return trimmed(ours) == theirs


def of_bodies(row, ours, theirs):
    return None if ours == "none" else ours == theirs


def kind(row, ours, theirs):
    return "none" if ours == "none" else "read"


CLIENT, WITH = "Python's http.client", {"given": bytes, "kind": kind, "seed": 9112}
COMPARISONS = [
    Comparison(
        "http/requests", "Python's http.server", "format_http", "http_requests", texts(request),
        peer=each(request_by_python), judge=of_requests, **WITH,
    ),
    Comparison(
        "http/responses", CLIENT, "format_http", "http_responses", texts(response),
        peer=each(response_by_python), judge=of_responses, **WITH,
    ),
    Comparison(
        "http/chunked", CLIENT, "format_http format_http_chunked", "http_chunked", texts(body),
        peer=each(body_by_python), judge=of_bodies, **WITH,
    ),
    *BESIDE_OTHERS,
]
