"""A small HTTP/1.1 server for pages and short calls, which withstands slow, numerous and hostile clients.

It reads no file and keeps no state of a client. A request's head and body are limited in size and time, and so is the
time in which a client takes an answer. If there are too many connections, the one whose request or answer began longest
ago is aborted, so idle and slow clients never keep others out.
"""
import asyncio
import collections
import contextlib
import re
import traceback
import urllib.parse

from queue_client.journal import ERROR, report

LARGEST_HEAD = 8192
LARGEST_BODY = 4096

# How long a request may take to arrive, and an answer to be sent, in seconds.
REQUEST_WITHIN = 10
ANSWER_WITHIN = 20

# The largest number of connections at the same time.
MOST_CONNECTIONS = 256

# How many bytes are written at once, which is what a slow client keeps in memory.
PIECE = 1 << 16

# The headers of every answer. The policy forbids anything from another origin, and any script or style within a page.
HEADERS = {
    "Content-Security-Policy": "default-src 'none'; script-src 'self'; style-src 'self'; connect-src 'self'; img-src 'self'; "
                               "base-uri 'none'; form-action 'none'; frame-ancestors 'none'",
    "X-Content-Type-Options": "nosniff",
    "X-Frame-Options": "DENY",
    "Referrer-Policy": "no-referrer",
    "Cross-Origin-Resource-Policy": "same-origin",
    "Cross-Origin-Opener-Policy": "same-origin",
    "Cache-Control": "no-store",
}

REASONS = {200: "OK", 400: "Bad Request", 403: "Forbidden", 404: "Not Found", 405: "Method Not Allowed", 409: "Conflict",
           413: "Content Too Large", 415: "Unsupported Media Type", 421: "Misdirected Request",
           431: "Request Header Fields Too Large", 500: "Internal Server Error", 501: "Not Implemented",
           503: "Service Unavailable"}

# `peer` is the address of the client, empty at a Unix socket.
Request = collections.namedtuple("Request", "method path words headers body peer")

Answer = collections.namedtuple("Answer", "status kind body")

REQUEST_LINE = re.compile(r"([A-Z]{1,16}) (/[!-~]*) HTTP/1\.([01])")
HEADER = re.compile(r"([!#$%&'*+.^_`|~0-9A-Za-z-]+):[ \t]*([ -~\t]*?)[ \t]*")


class Bad(Exception):
    """A request that is answered with this status; then its connection is closed."""

    def __init__(self, status, why):
        super().__init__(why)
        self.answer = text(status, why)


def text(status, what):
    """Returns an answer of one line of text."""
    return Answer(status, "text/plain; charset=utf-8", what.encode() + b"\n")


def head_of(data):
    """Reads a request's line and headers. Returns the method, the path with its parameters, the headers, and whether
    the connection is kept."""
    try:
        lines = data.decode("ascii").split("\r\n")[:-2]
    except UnicodeDecodeError:
        raise Bad(400, "the request is not ASCII") from None
    line = REQUEST_LINE.fullmatch(lines[0])
    if not line:
        raise Bad(400, "the request line is none of HTTP/1.1")
    headers = {}
    for it in lines[1:]:
        found = HEADER.fullmatch(it)
        name = found and found[1].lower()
        if not found or name in headers and name in ("host", "content-length", "origin"):
            raise Bad(400, "a header is malformed")
        headers[name] = found[2]
    stays = line[3] == "1" and headers.get("connection", "").lower() != "close"
    return line[1], line[2], headers, stays


def body_size(headers):
    """Returns the length of the body."""
    if "transfer-encoding" in headers:
        raise Bad(501, "a body wants a Content-Length")
    size = headers.get("content-length", "0")
    if not re.fullmatch("[0-9]{1,19}", size):
        raise Bad(400, "the Content-Length is malformed")
    if int(size) > LARGEST_BODY:
        raise Bad(413, f"a body has at most {LARGEST_BODY} bytes")
    return int(size)


def words_of(target):
    """Returns the path and the parameters after its question mark; each may occur only once."""
    path, _, query = target.partition("?")
    try:
        pairs = urllib.parse.parse_qsl(query, keep_blank_values=True, strict_parsing=bool(query), errors="strict")
    except ValueError:
        raise Bad(400, "the words behind the ? are malformed") from None
    return path, dict(pairs)


class Connections:
    """Serves HTTP. `answer` is a coroutine that answers a request."""

    def __init__(self, answer):
        self.answer = answer
        # The connections, ordered by when their request or answer began, the oldest first.
        self.open = collections.OrderedDict()

    async def listen(self, place):
        """Listens at a path, or at a host and a port. Returns the server."""
        if isinstance(place, str):
            return await asyncio.start_unix_server(self._serve, place, limit=LARGEST_HEAD, backlog=128)
        return await asyncio.start_server(self._serve, *place, limit=LARGEST_HEAD, backlog=128)

    async def _serve(self, reader, writer):
        self._begins(writer)
        try:
            if len(self.open) > MOST_CONNECTIONS:
                _, longest = self.open.popitem(last=False)
                longest.abort()
            while await self._one(reader, writer):
                pass
        except (asyncio.TimeoutError, asyncio.IncompleteReadError, OSError, asyncio.CancelledError):
            # The client is too slow or has disconnected, or bqd-web ends.
            pass
        finally:
            self.open.pop(writer, None)
            await closed(writer)

    def _begins(self, writer):
        """Records that a request or an answer of this connection begins."""
        self.open[writer] = writer.transport
        self.open.move_to_end(writer)

    async def _one(self, reader, writer):
        """Answers the next request. Returns whether the connection is kept."""
        request, stays = None, False
        try:
            request, stays = await self._request(reader, writer)
            answer = await self._answered(request)
        except Bad as bad:
            answer = bad.answer
        self._begins(writer)
        await asyncio.wait_for(sent(writer, answer, request, stays), ANSWER_WITHIN)
        self._begins(writer)
        return stays

    async def _request(self, reader, writer):
        """Reads the next request, and whether the connection is kept after it."""
        try:
            data = await asyncio.wait_for(reader.readuntil(b"\r\n\r\n"), REQUEST_WITHIN)
        except asyncio.LimitOverrunError:
            raise Bad(431, f"a request's head has at most {LARGEST_HEAD} bytes") from None
        method, target, headers, stays = head_of(data)
        size = body_size(headers)
        body = await asyncio.wait_for(reader.readexactly(size), REQUEST_WITHIN) if size else b""
        peer = writer.get_extra_info("peername")
        return Request(method, *words_of(target), headers, body, peer[0] if isinstance(peer, tuple) else ""), stays

    async def _answered(self, request):
        """Returns the answer to a request. An error in this program ends neither it nor the connection."""
        try:
            return await self.answer(request)
        except Bad:
            raise
        except Exception:
            report(ERROR, traceback.format_exc())
            return text(500, "bqd-web has a fault; its log tells more")


async def sent(writer, answer, request, stays):
    """Writes an answer in pieces, as the client takes it. A HEAD request gets no body."""
    writer.write(head_bytes(answer, stays))
    view = memoryview(b"" if request and request.method == "HEAD" else answer.body)
    for first in range(0, len(view), PIECE):
        writer.write(bytes(view[first : first + PIECE]))
        await writer.drain()
    await writer.drain()


def head_bytes(answer, stays):
    """Returns the status line and the headers of an answer."""
    fields = {"Content-Type": answer.kind, "Content-Length": len(answer.body), **HEADERS}
    fields["Connection"] = "keep-alive" if stays else "close"
    if answer.status == 405:
        fields["Allow"] = "GET, HEAD"
    lines = [f"HTTP/1.1 {answer.status} {REASONS[answer.status]}", *(f"{name}: {value}" for name, value in fields.items())]
    return ("\r\n".join(lines) + "\r\n\r\n").encode()


async def closed(writer):
    """Closes a connection, at once if its client does not take the rest."""
    with contextlib.suppress(OSError, asyncio.TimeoutError, asyncio.CancelledError):
        writer.close()
        await asyncio.wait_for(writer.wait_closed(), 1)
    writer.transport.abort()
