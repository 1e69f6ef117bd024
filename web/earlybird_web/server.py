"""Requests: read within limits, and answered. What is asked for is the matter of who uses the server.

Who is slow holds nobody: a head has a time, a body and an answer have a rate, what all connections leave unread is bounded, and where there is no
room for a connection the one that has kept the server waiting longest is ended. A connection is always ended by an abort: what it hasn't
read is thrown away."""
import asyncio
import json
import re
import socket
import time
import urllib.parse

from . import limits

# bytes that are read at once
PIECE = 1 << 16
REASONS = {200: "OK", 204: "No Content", 303: "See Other", 400: "Bad Request", 401: "Unauthorized", 403: "Forbidden", 404: "Not Found",
           405: "Method Not Allowed", 408: "Request Timeout", 409: "Conflict", 411: "Length Required", 413: "Content Too Large",
           421: "Misdirected Request", 431: "Request Header Fields Too Large", 500: "Internal Server Error", 503: "Service Unavailable"}
ALWAYS = (
    "X-Content-Type-Options: nosniff\r\nReferrer-Policy: no-referrer\r\nCache-Control: no-store\r\nCross-Origin-Resource-Policy: same-origin\r\n"
    "Content-Security-Policy: default-src 'none'; script-src 'self'; style-src 'self'; img-src 'self'; connect-src 'self'; "
    "form-action 'self'; base-uri 'none'; frame-ancestors 'none'\r\n")
NAME = re.compile(r"[!#$%&'*+.^_`|~0-9A-Za-z-]+")


class Fault(Exception):
    """A request that can't be answered as it is asked."""

    def __init__(self, status, name, **more):
        super().__init__(name)
        self.status = status
        self.told = {"error": name, **more}


class Request:
    """One request, its body not read yet."""

    def __init__(self, head, connection):
        first, *lines = head.decode("latin-1").split("\r\n")
        try:
            self.method, target, version = first.split(" ")
            self.headers = {}
            for line in filter(None, lines):
                name, value = line.split(":", 1)
                name, value = name.lower(), value.strip(" \t")
                if not NAME.fullmatch(name) or name in self.headers and name in ("host", "content-length", "origin", "sec-fetch-site"):
                    raise ValueError(name)
                self.headers[name] = value
            split = urllib.parse.urlsplit(target)
            self.path = split.path
            self.query = dict(urllib.parse.parse_qsl(split.query, keep_blank_values=True, errors="strict", max_num_fields=16))
        except ValueError as fault:
            raise Fault(400, "bad request") from fault
        if version not in ("HTTP/1.1", "HTTP/1.0"):
            raise Fault(400, "bad request")
        self.keeps = version == "HTTP/1.1" and self.headers.get("connection", "").lower() != "close"
        self.connection = connection
        # whether an answer without a known end was begun
        self.begun = False
        self.left = self.length = 0
        self.left = self.length = self._length()

    def _length(self):
        if "transfer-encoding" in self.headers:
            raise Fault(411, "the body's length is needed")
        length = self.headers.get("content-length", "0")
        if not (length.isascii() and length.isdigit() and len(length) < 16):
            raise Fault(400, "bad request")
        return int(length)

    async def pieces(self):
        """The body, piece by piece. The time in which who reads it makes room isn't the sender's."""
        if self.length > limits.BODY:
            raise Fault(413, "a body has at most %d bytes" % limits.BODY)
        if self.left and self.headers.get("expect", "").lower() == "100-continue":
            self.connection.writer.write(b"HTTP/1.1 100 Continue\r\n\r\n")
        patience = limits.PATIENCE + self.length / limits.RATE
        while self.left:
            begun = time.monotonic()
            piece = await self.connection.read(min(self.left, PIECE), patience)
            patience -= time.monotonic() - begun
            self.left -= len(piece)
            yield piece

    async def body(self, most=limits.HEAD):
        """A short body, as text."""
        if self.length > most:
            raise Fault(413, "a body has at most %d bytes here" % most)
        try:
            return b"".join([piece async for piece in self.pieces()]).decode()
        except UnicodeDecodeError as fault:
            raise Fault(400, "the body isn't UTF-8") from fault

    def begin(self, kind, more=""):
        """Begins an answer that has no end but that of the connection."""
        self.keeps, self.begun = False, True
        self.connection.writer.write(("HTTP/1.1 200 OK\r\nContent-Type: %s\r\n%s%sConnection: close\r\n\r\n" % (kind, ALWAYS, more)).encode())

    async def more(self, data):
        """More of such an answer."""
        await self.connection.send(data)

    def _put_head(self, status, length, kind, more):
        self.connection.left = self.left
        keeps = self.keeps = self.keeps and not self.left
        head = "HTTP/1.1 %d %s\r\nContent-Type: %s\r\nContent-Length: %d\r\n%s%sConnection: %s\r\n\r\n" % (
            status, REASONS[status], kind, length, ALWAYS, more, "keep-alive" if keeps else "close")
        self.connection.put(head.encode("latin-1"))

    async def answer(self, status, data=b"", kind="application/json", more=""):
        """Answers. Where some of the body isn't read, the connection ends behind the answer, and the rest is passed over before that."""
        self._put_head(status, len(data), kind, more)
        if self.method != "HEAD":
            self.connection.put(data)

    async def answer_pieces(self, status, pieces, kind="application/json"):
        """Answers with data that are made of pieces, which are removed from their list. Others have their turn between them: a large answer at
        once is copied for so long that they would notice it."""
        self._put_head(status, sum(map(len, pieces)), kind, "")
        pieces.reverse()
        while pieces and self.method != "HEAD":
            self.connection.put(pieces.pop())
            await asyncio.sleep(0)

    async def answer_json(self, status, value, more=""):
        """Answers with a value."""
        await self.answer(status, json.dumps(value, ensure_ascii=False).encode("utf-8", "replace"), more=more)


class Refusing(Request):
    """Stands for a request that can't be read."""

    def __init__(self, connection):  # pylint: disable=super-init-not-called
        self.method, self.keeps, self.begun, self.left, self.length, self.connection = "GET", False, False, 1, 1, connection


class Connection:
    """One connection. `waits` is since when the server waits for its other side, or None."""

    def __init__(self, server, reader, writer):
        self.server = server
        self.reader = reader
        self.writer = writer
        self.waits = None
        # what isn't read of the last request's body
        self.left = 0
        self.task = asyncio.current_task()

    @property
    def unread(self):
        """The bytes that wait for the other side."""
        return self.writer.transport.get_write_buffer_size()

    async def _wait(self, what, patience):
        self.waits = time.monotonic()
        try:
            return await asyncio.wait_for(what, max(patience, 0.01))
        except asyncio.TimeoutError:
            self.server.ended["slow"] += 1
            raise
        finally:
            self.waits = None

    async def read(self, most, patience):
        """Some bytes that the other side sends."""
        piece = await self._wait(self.reader.read(most), patience)
        if not piece:
            raise ConnectionResetError
        return piece

    async def head(self):
        """The head of the next request, or None where none comes; a beginning of it has less time than silence."""
        self.waits = time.monotonic()
        try:
            first = await asyncio.wait_for(self.reader.read(1), limits.IDLE)
        except asyncio.TimeoutError:
            return None
        finally:
            self.waits = None
        if not first:
            return None
        try:
            return first + await self._wait(self.reader.readuntil(b"\r\n\r\n"), limits.PATIENCE)
        except asyncio.LimitOverrunError as fault:
            raise Fault(431, "a head has at most %d bytes" % limits.HEAD) from fault

    def put(self, data):
        """Hands data to the other side, without waiting: who made them needn't hold them until they are read."""
        if self.writer.transport.is_closing():
            raise ConnectionResetError
        self.writer.write(data)
        self.server.make_room(self)

    async def send(self, data):
        """Sends, and waits until what is sent is nearly all read."""
        self.put(data)
        del data
        await self.read_on()

    async def read_on(self):
        """Waits until what was put is nearly all read."""
        await self._wait(self.writer.drain(), limits.PATIENCE + self.unread / limits.RATE)

    async def closed(self):
        """Waits until the other side ends the connection, or sends what nobody asked for."""
        try:
            await self.reader.read(1)
        except ConnectionError:
            pass

    async def end(self):
        """Ends it: what is still sent is read for a moment, so that the answer isn't lost with it, and what is still unread has a time."""
        end = time.monotonic() + limits.PATIENCE
        try:
            for _ in range(limits.PASSED // PIECE if self.left else 0):
                if time.monotonic() > end or not await asyncio.wait_for(self.reader.read(PIECE), 1):
                    break
        except asyncio.TimeoutError:
            pass
        transport = self.writer.transport
        end = time.monotonic() + limits.PATIENCE + self.unread / limits.RATE
        while not transport.is_closing() and self.unread and time.monotonic() < end:
            self.waits = self.waits or time.monotonic()
            await asyncio.sleep(0.05)
        self.abort()

    def abort(self):
        """Ends it at once."""
        transport = self.writer.transport
        if self.unread:
            transport.abort()
        else:
            # (an orderly end, so that what the kernel has is read; nothing of it is the server's any more)
            self.writer.close()


class Server:
    """Listens, and hands each request to `handle`."""

    def __init__(self, handle):
        self._handle = handle
        self._server = None
        self.connections = set()
        self.ended = {"slow": 0, "room": 0, "unread": 0}

    async def start(self, host, port):
        """Listens there, and gives the port."""
        self._server = await asyncio.start_server(self._connected, host, port, limit=limits.HEAD, backlog=512)
        return self._server.sockets[0].getsockname()[1]

    async def close(self):
        """Ends all connections."""
        self._server.close()
        tasks = [each.task for each in self.connections]
        for each in list(self.connections):
            each.writer.transport.abort()
            each.task.cancel()
        await asyncio.gather(*tasks, return_exceptions=True)

    def _end_longest(self, among, why):
        """Ends the connection that has kept the server waiting longest; whether there was one."""
        waiting = [each for each in among if each.waits is not None]
        if not waiting:
            return False
        longest = min(waiting, key=lambda each: each.waits)
        longest.writer.transport.abort()
        longest.task.cancel()
        self.connections.discard(longest)
        self.ended[why] += 1
        return True

    def _end_one(self):
        """Ends a connection for another one, where there is no room; whether there is."""
        patient = [each for each in self.connections if each.waits is not None and time.monotonic() - each.waits > limits.GRACE]
        return self._end_longest(patient, "room") or len(self.connections) < limits.CONNECTIONS + limits.SPARE

    def make_room(self, asking):
        """Bounds what all connections leave unread."""
        if asking.unread < PIECE:
            return
        while sum(each.unread for each in self.connections) > limits.UNREAD:
            if not self._end_longest([each for each in self.connections if each is not asking and each.unread], "unread"):
                break

    async def _connected(self, reader, writer):
        connection = Connection(self, reader, writer)
        if len(self.connections) >= limits.CONNECTIONS and not self._end_one():
            # (all of them are being answered, or have only just come)
            writer.transport.abort()
            return
        self.connections.add(connection)
        # (what the kernel holds isn't counted, so it is bounded)
        writer.get_extra_info("socket").setsockopt(socket.SOL_SOCKET, socket.SO_SNDBUF, limits.KERNEL)
        try:
            while await self._one(connection):
                await connection.read_on()
            await connection.end()
        except (ConnectionError, asyncio.IncompleteReadError, asyncio.TimeoutError, asyncio.CancelledError):
            writer.transport.abort()
        finally:
            self.connections.discard(connection)
            connection.abort()

    async def _one(self, connection):
        """Reads and answers one request; whether another may follow."""
        request = None
        try:
            head = await connection.head()
            if head is None:
                return False
            request = Request(head[:-4], connection)
            await self._handle(request)
        except Fault as fault:
            request = request or Refusing(connection)
            if request.begun:
                # (its reader has to know that this isn't all)
                raise ConnectionAbortedError from fault
            await request.answer_json(fault.status, fault.told)
        except (ConnectionError, asyncio.IncompleteReadError, asyncio.TimeoutError, asyncio.CancelledError):
            raise
        except Exception as fault:  # pylint: disable=broad-exception-caught
            asyncio.get_running_loop().call_exception_handler({"message": "a request", "exception": fault})
            request = request or Refusing(connection)
            if request.begun:
                raise ConnectionAbortedError from fault
            request.keeps = False
            await request.answer_json(500, {"error": "a fault of the server: %s" % type(fault).__name__})
        return request.keeps
