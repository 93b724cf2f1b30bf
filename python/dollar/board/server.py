"""A small web server for the pages: it answers those who know a secret, and holds against those who don't.

Each connection brings one request and gets one answer. Whoever is slow, sends too much or sends nonsense is dropped. Strangers and
guests, who know the secret, are counted apart: when there are too many of either, the address that has most makes room. Whatever is asked
without the secret, from another origin or for another host is answered alike: there is nothing here."""
from __future__ import annotations

import asyncio
import contextlib
import fcntl
import hmac
import ipaddress
import json
import os
import re
import resource
import secrets
import socket
import struct
from collections import Counter
from typing import Any, Awaitable, Callable, Iterable, Tuple, cast

from dollar.board.texts import speak, t

MOST_HEAD, MOST_HEADERS, MOST_STRANGERS, MOST_GUESTS, MOST_FILES = 8192, 64, 300, 600, 4096
TO_ASK, TO_SEND, TO_TAKE = 5.0, 8.0, 20.0
TOKEN = re.compile(r"[A-Za-z0-9!#$%&'*+.^_`|~-]{1,64}\Z")
VALUE = re.compile(r"[\t -~]*\Z")
TARGET = re.compile(r"(GET|POST) (/[A-Za-z0-9/._~?=&-]*) HTTP/1\.[01]\Z")
POLICY = ("default-src 'none'; script-src 'self'; style-src 'self'; img-src 'self' data:; connect-src 'self'; "
          "base-uri 'none'; form-action 'self'; frame-ancestors 'none'")
ALWAYS = {
    "Content-Security-Policy": POLICY, "X-Content-Type-Options": "nosniff", "X-Frame-Options": "DENY", "Referrer-Policy": "no-referrer",
    "Cross-Origin-Resource-Policy": "same-origin", "Cross-Origin-Opener-Policy": "same-origin", "Cache-Control": "no-store", "Connection": "close"}
REASONS = {200: "OK", 400: "Bad Request", 404: "Not Found", 409: "Conflict", 413: "Content Too Large", 429: "Too Many Requests",
           503: "Service Unavailable"}
HOST = re.compile(r"(\[[0-9a-f:.]+\]|[^:\[\]]+)(?::([0-9]{1,5}))?\Z")
ANY = "0.0.0.0", "::"
# What Linux is asked for the address of a network card and for its state, a state that is on, and how bridges and tunnels are called.
ADDRESS_OF, FLAGS_OF, IS_UP = 0x8915, 0x8913, 1
APART = "br", "docker", "lxc", "ppp", "tailscale", "tap", "tun", "veth", "virbr", "wg", "zt"
# A status, a kind of content, and the content.
Answer = Tuple[int, str, Any]
Answers = Callable[["Request"], Awaitable[Answer]]
LETTERS, LONG = "abcdefghijkmnpqrstuvwxyz23456789", 26


def new_secret() -> str:
    """A secret of 130 bits, as it stands in an address: in groups of letters and digits that are not easily taken for others."""
    letters = "".join(secrets.choice(LETTERS) for _ in range(LONG))
    return "-".join(letters[i:i + 4] for i in range(0, LONG, 4))


def same(given: str, secret: str) -> bool:
    """Whether a text is the secret, in a time that does not tell how much of it is right. Capitals and dashes don't count."""
    return hmac.compare_digest(given.replace("-", "").lower().encode(), secret.replace("-", "").encode())


def addresses_of(host: str) -> list[str]:
    """The addresses at which others may find a server that listens on a host, the likeliest first: on 0.0.0.0 those that this machine has
    in its networks. There are none if it has only those that no other machine reaches."""
    if host not in ANY:
        return [host]
    found, way_out = {}, None
    with socket.socket(socket.AF_INET6 if host == "::" else socket.AF_INET, socket.SOCK_DGRAM) as probe:
        for _, card in socket.if_nameindex() if host != "::" else ():
            with contextlib.suppress(OSError):
                asked = struct.pack("40s", card.encode())
                if struct.unpack_from("H", fcntl.ioctl(probe, FLAGS_OF, asked), 16)[0] & IS_UP:
                    found[socket.inet_ntoa(fcntl.ioctl(probe, ADDRESS_OF, asked)[20:24])] = card
        with contextlib.suppress(OSError):
            # No packet is sent: this only asks the system which of its addresses it would send from.
            probe.connect(("2001:db8::1" if host == "::" else "192.0.2.1", 9))
            way_out = probe.getsockname()[0]
            found.setdefault(way_out, "")
    return sorted((place for place in found if not is_loopback([place])), key=lambda place: unlikely(place, found[place], place == way_out))


def unlikely(place: str, card: str, leads_out: bool) -> tuple[int, bool, bool]:
    """How unlikely it is that a class finds this machine at an address: a real card is likelier than one that was made up, and that than a
    bridge or a tunnel. Of several cards it is one that leads to no internet, but to the class alone, and of several bridges one that does."""
    is_apart = card.startswith(APART)
    made_up = 2 if is_apart else 0 if os.path.exists("/sys/class/net/%s/device" % card) else 1
    return made_up, not ipaddress.ip_address(place).is_private, leads_out != is_apart


class Refused(Exception):
    """A request that gets a status and words in place of what it asked."""

    def __init__(self, status: int, words: str) -> None:
        super().__init__(status, words)
        self.status, self.words = status, words


class Nothing(Refused):
    """What all get who must not learn more."""

    def __init__(self) -> None:
        super().__init__(404, t("requests.nothing"))


class Request:
    """What was asked: the method, the parts of the path, what stands after `?`, and a way to read the body."""

    def __init__(self, method: str, target: str, headers: dict[str, str], reader: asyncio.StreamReader,
                 is_guest: Callable[[], None], known: Callable[[], None]) -> None:
        path, _, query = target.partition("?")
        self.method, self.parts, self.headers, self.reader = method, path.split("/")[1:], headers, reader
        # To be called once it has the secret, and once it is known whose the request is.
        self.is_guest, self.known = is_guest, known
        # Whether it comes from this machine, and through no tunnel; and whether from a program of this user.
        self.is_local, self.peer = False, ""
        self.is_own: Callable[[], bool] = lambda: False
        self.query = dict(pair.partition("=")[::2] for pair in query.split("&") if pair)

    async def json(self, most: int) -> dict[str, Any]:
        """The body, an object of JSON with at most so many bytes."""
        length = self.headers.get("content-length", "")
        if not re.match(r"[0-9]{1,9}\Z", length):
            raise Refused(400, t("requests.length"))
        if int(length) > most:
            raise Refused(413, t("requests.long"))
        if self.headers.get("content-type", "").partition(";")[0].strip().lower() != "application/json":
            raise Refused(400, t("requests.form"))
        data = await asyncio.wait_for(self.reader.readexactly(int(length)), TO_SEND)
        try:
            given = json.loads(data.decode())
        except (ValueError, RecursionError):
            raise Refused(400, t("requests.form")) from None
        if not isinstance(given, dict):
            raise Refused(400, t("requests.object"))
        return given


def text_in(given: dict[str, Any], name: str, most: int) -> str:
    """A text of a request, of at most so many letters. Raises Refused where there is none."""
    text = given.get(name)
    if not isinstance(text, str) or len(text) > most:
        raise Refused(400, t("requests.text", name, most))
    try:
        text.encode()
    except UnicodeEncodeError:
        raise Refused(400, t("requests.letters", name)) from None
    return text


class Crowd:
    """Connections by their tasks, no more than so many."""

    def __init__(self, most: int) -> None:
        self.most = most
        self.writers: dict[asyncio.Task[Any], tuple[asyncio.StreamWriter, str]] = {}

    def take(self, task: asyncio.Task[Any], writer: asyncio.StreamWriter) -> None:
        """Takes one more. If there are too many, the address of the network that has most of them loses its oldest."""
        self.writers[task] = writer, peer_of(writer)
        if len(self.writers) > self.most:
            most = Counter(peer for _, peer in self.writers.values()).most_common(1)[0][0]
            oldest = next(task for task, (_, peer) in self.writers.items() if peer == most)
            self.writers.pop(oldest)[0].transport.abort()
            oldest.cancel()

    def leave(self, task: asyncio.Task[Any]) -> None:
        self.writers.pop(task, None)


def peer_of(writer: asyncio.StreamWriter) -> str:
    """The address of the network from which a connection comes; of the sixth version the half that is the network's."""
    peer = str((writer.get_extra_info("peername") or [""])[0])
    return ":".join(ipaddress.ip_address(peer.partition("%")[0]).exploded.split(":")[:4]) if ":" in peer else peer


class Server:
    """Serves on an address and a port, 0 for any that is free. `answer` is asked for each request of this host and origin, and gives a status,
    a kind of content, and bytes, or a function: that gets a future, which is done when the other side has gone, and gives an iterator over
    bytes that come by and by. `names` are other names of this host, and `fronts` those, maybe with ports, of what leads here, as a tunnel."""

    def __init__(self, answer: Answers, address: str, port: int = 0, names: Iterable[str] = (), fronts: Iterable[str] = ()) -> None:
        self.answer: Answers = answer
        self.address, self.port, self.names = address, port, {name.lower() for name in [*names, *fronts]}
        self.fronts = set(fronts)
        self.strangers, self.guests, self.listener = Crowd(MOST_STRANGERS), Crowd(MOST_GUESTS), cast(asyncio.AbstractServer, None)
        self.tasks: set[asyncio.Task[Any]] = set()

    async def start(self) -> None:
        more_files()
        listener = self.listener = await asyncio.start_server(self.serve, self.address, self.port, limit=MOST_HEAD, backlog=1024)
        self.port = listener.sockets[0].getsockname()[1]

    async def stop(self) -> None:
        self.listener.close()
        for task in list(self.tasks):
            task.cancel()
        await asyncio.gather(*self.tasks, return_exceptions=True)

    async def serve(self, reader: asyncio.StreamReader, writer: asyncio.StreamWriter) -> None:
        """One connection, from its request to its end."""
        task = cast("asyncio.Task[Any]", asyncio.current_task())
        self.tasks.add(task)
        writer.transport.set_write_buffer_limits(high=0)
        self.strangers.take(task, writer)
        try:
            await self.exchange(task, reader, writer)
        except (asyncio.TimeoutError, asyncio.IncompleteReadError, asyncio.CancelledError, OSError):
            pass
        finally:
            self.leave(task)
            self.tasks.discard(task)
            if writer.transport.get_write_buffer_size():
                writer.transport.abort()
            writer.close()

    def leave(self, task: asyncio.Task[Any]) -> None:
        """A connection is in no crowd any more."""
        self.strangers.leave(task)
        self.guests.leave(task)

    def welcome(self, task: asyncio.Task[Any], writer: asyncio.StreamWriter) -> None:
        """A connection that had the secret is one of the guests."""
        self.leave(task)
        self.guests.take(task, writer)

    async def exchange(self, task: asyncio.Task[Any], reader: asyncio.StreamReader, writer: asyncio.StreamWriter) -> None:
        try:
            request = await asyncio.wait_for(self.request(task, reader, writer), TO_ASK)
            speak(request.query.get("lang", ""), request.headers.get("accept-language", ""))
            status, kind, content = await self.answer(request)
        except (asyncio.LimitOverrunError, Refused) as error:
            refused = error if isinstance(error, Refused) else Nothing()
            status, kind, content = refused.status, "text/plain", refused.words.encode()
        whole = isinstance(content, bytes)
        writer.write(head(status, kind, len(content) if whole else None))
        if whole:
            writer.write(content)
            await drained(writer)
        else:
            gone = asyncio.ensure_future(reader.read(1))
            pieces = content(gone)
            try:
                async for piece in pieces:
                    writer.write(piece)
                    await drained(writer)
            finally:
                gone.cancel()
                await pieces.aclose()
                await asyncio.gather(gone, return_exceptions=True)
        if task not in self.strangers.writers:
            self.welcome(task, writer)
        if writer.can_write_eof():
            writer.write_eof()
        await asyncio.wait_for(self.swallow(reader), 1.0)

    async def swallow(self, reader: asyncio.StreamReader) -> None:
        """Lets go of what the other side still sends, so that it may read the answer."""
        left = 1 << 20
        while left > 0 and (got := await reader.read(MOST_HEAD)):
            left -= len(got)

    async def request(self, task: asyncio.Task[Any], reader: asyncio.StreamReader, writer: asyncio.StreamWriter) -> Request:
        """The request of a connection. Raises Refused where it is none for this host from this origin."""
        data = await reader.readuntil(b"\r\n\r\n")
        try:
            first, *lines = data[:-4].decode("ascii").split("\r\n")
        except UnicodeDecodeError:
            raise Nothing from None
        target, headers = TARGET.match(first), headers_of(lines)
        if not target or "transfer-encoding" in headers or not self.is_here(headers.get("host"), writer):
            raise Nothing
        own = "http://" + headers["host"], "https://" + headers["host"]
        if headers.get("origin", own[0] if target[1] == "GET" else None) not in own[:2 if self.is_front(headers["host"]) else 1]:
            raise Nothing
        if headers.get("sec-fetch-site", "none") not in ("none", "same-origin") and headers.get("sec-fetch-dest") != "document":
            raise Nothing
        request = Request(target[1], target[2], headers, reader, lambda: self.welcome(task, writer), lambda: self.leave(task))
        request.peer = peer_of(writer)
        request.is_own = lambda: is_own(*map(writer.get_extra_info, ("peername", "sockname")))
        request.is_local = not self.is_front(headers["host"]) and all(is_loopback(writer.get_extra_info(end)) for end in ("peername", "sockname"))
        return request

    def is_front(self, host: str) -> bool:
        """Whether a Host is a name, maybe with a port, that was given for what leads here."""
        return host.lower() in self.fronts

    def is_here(self, host: str | None, writer: asyncio.StreamWriter) -> bool:
        """Whether a Host names this server: by the address that was called, or by a name that was given to it."""
        if self.is_front(host or ""):
            return True
        found = HOST.match((host or "").lower())
        if not found or int(found[2] or 80) != self.port:
            return False
        name = found[1]
        called = ipaddress.ip_address(writer.get_extra_info("sockname")[0].partition("%")[0])
        if name in self.names or (name == "localhost" and called.is_loopback):
            return True
        try:
            return ipaddress.ip_address(name.strip("[]")) == called
        except ValueError:
            return False


def is_loopback(place: Any) -> bool:
    """Whether an address, as a socket has it, is one that only this machine has."""
    return ipaddress.ip_address(place[0].partition("%")[0]).is_loopback


def is_own(peer: Any, here: Any) -> bool:
    """Whether the other end of a connection is on this machine, and of this user."""
    ends = ["%04X" % place[1] for place in (peer, here)]
    for table in "/proc/net/tcp", "/proc/net/tcp6":
        with contextlib.suppress(OSError), open(table) as lines:
            for words in map(str.split, lines):
                if [word[-4:] for word in words[1:3]] == ends:
                    return peer[0] == here[0] and words[7] == str(os.getuid())
    return False


def headers_of(lines: list[str]) -> dict[str, str]:
    """The headers by their names in small letters. Raises Refused where a line is none, or one comes twice."""
    if len(lines) > MOST_HEADERS:
        raise Nothing
    headers = {}
    for line in lines:
        name, colon, value = line.partition(":")
        if not colon or not TOKEN.match(name) or not VALUE.match(value) or name.lower() in headers:
            raise Nothing
        headers[name.lower()] = value.strip(" \t")
    return headers


def head(status: int, kind: str, length: int | None) -> bytes:
    """The head of an answer; without a length it goes on until the connection ends."""
    headers = {"Content-Type": kind + "; charset=utf-8", **ALWAYS, **({} if length is None else {"Content-Length": str(length)})}
    lines = ["HTTP/1.1 %d %s" % (status, REASONS[status]), *("%s: %s" % pair for pair in headers.items())]
    return ("\r\n".join(lines) + "\r\n\r\n").encode()


def more_files() -> None:
    """Lets this process have as many connections as there may be, if the system permits it."""
    now, most = resource.getrlimit(resource.RLIMIT_NOFILE)
    if now != resource.RLIM_INFINITY and now < MOST_FILES:
        resource.setrlimit(resource.RLIMIT_NOFILE, (MOST_FILES if most == resource.RLIM_INFINITY else min(MOST_FILES, most), most))


async def drained(writer: asyncio.StreamWriter) -> None:
    """Waits until the other side has taken what was written, and drops it if that takes too long."""
    if not writer.transport.get_write_buffer_size() and not writer.transport.is_closing():
        return
    try:
        await asyncio.wait_for(writer.drain(), TO_TAKE)
    except asyncio.TimeoutError:
        writer.transport.abort()
        raise


def as_json(thing: Any) -> Answer:
    """An answer of JSON."""
    return 200, "application/json", json.dumps(thing).encode()
