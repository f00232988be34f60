"""Counts for others: Prometheus, once or as an exporter, and a line a second."""
import asyncio
import threading
import time
from collections.abc import AsyncIterator, Callable, Iterable
from contextlib import suppress
from dataclasses import dataclass
from functools import partial
from http import HTTPStatus

from hugetlb_session import Ended, Node, Refused, Session, Unreadable

CONTENT = "text/plain; version=0.0.4; charset=utf-8"
# What a server that does not answer raises, by its session.
FAULTS = (Ended, Unreadable, Refused, OSError)

# Seconds that a client has to send its request, and again to take its answer.
CLIENT_SECONDS = 5.0
# Bytes of a line of a request, and lines.
LINE_BYTES, LINES = 8192, 100
# Clients at a time that have not sent a request. One more ends the first of them.
SILENT = 64
# Seconds that a client waits for the server: where it is asked for this client, and where another waits and
# counts are there.
ASKED_SECONDS, BESIDE_SECONDS = 5.0, 0.2


def metric(name: str, what: str, values: Iterable[tuple[str, float]]) -> list[str]:
    """A gauge with its values: pairs of labels, or of nothing, and a number."""
    lines = [f"{name}{labels} {number}" for labels, number in values]
    return [f"# HELP {name} {what}", f"# TYPE {name} gauge", *lines]


def prometheus(session: Session) -> str:
    """The counts in Prometheus' text form.

    Those by node add up to the pool's; what is reserved belongs to no node.
    """
    in_use = "Huge pages that files and maps hold, by node."
    counts, nodes = session.meminfo(), session.nodes()

    def by_node(pages: Callable[[Node], int]) -> list[tuple[str, float]]:
        return [(f'{{node="{it.node}"}}', pages(it)) for it in nodes]

    free = "Huge pages that are not in use, by node; those that are reserved are among them."
    surplus = "Huge pages above the persistent ones, by node."
    reserved = "Huge pages that are promised and not yet in use, of the whole pool."
    lines = [
        *metric("hugetlb_pages", "Huge pages of the pool, by node.", by_node(lambda it: it.total)),
        *metric("hugetlb_pages_free", free, by_node(lambda it: it.free)),
        *metric("hugetlb_pages_in_use", in_use, by_node(lambda it: it.total - it.free)),
        *metric("hugetlb_pages_surplus", surplus, by_node(lambda it: it.surp)),
        *metric("hugetlb_pages_reserved", reserved, [("", counts.rsvd)]),
        *metric("hugetlb_page_size_bytes", "Bytes of a huge page.", [("", counts.page_kilobytes * 1024)]),
    ]
    return "\n".join(lines) + "\n"


@dataclass(frozen=True)
class Counts:
    """What a server answered, and when it was asked."""

    text: str
    asked: float

    def with_age(self) -> str:
        age = [("", round(time.monotonic() - self.asked, 3))]
        lines = metric(
            "hugetlb_counts_age_seconds", "Seconds since the server was asked for these counts.", age
        )
        return self.text + "\n".join(lines) + "\n"


class Asking:
    """Asks a server for its counts over one session that stays open, one question at a time."""

    def __init__(self, opens: Callable[[], Session]) -> None:
        self._opens = opens
        self._session: Session | None = opens()
        self._last: Counts | None = None
        self._answer: asyncio.Future[Counts] | None = None

    async def counts(self) -> Counts:
        """The counts as the server tells them now.

        Where another's question is not answered yet, the last ones.
        """
        is_first = self._answer is None
        if self._answer is None:
            self._answer = asyncio.get_running_loop().create_future()
            self._answer.add_done_callback(self._answered)
            given = (self._answer, asyncio.get_running_loop())
            threading.Thread(target=self._asks, args=given, daemon=True).start()
        seconds = ASKED_SECONDS if is_first or self._last is None else BESIDE_SECONDS
        done, _ = await asyncio.wait({self._answer}, timeout=seconds)
        if done:
            return done.pop().result()
        if self._last is None:
            raise TimeoutError(f"no reply came in {ASKED_SECONDS:g} seconds")
        return self._last

    def _answered(self, answer: asyncio.Future[Counts]) -> None:
        """A server that failed has no counts, and those from before are of one that is gone."""
        self._answer = None
        self._last = None if answer.exception() else answer.result()

    def _asks(self, answer: asyncio.Future[Counts], loop: asyncio.AbstractEventLoop) -> None:
        """In a thread of its own, since the server may be held for long."""
        asked, tells = time.monotonic(), answer.set_result
        try:
            told = partial(tells, Counts(self._text(), asked))
        except FAULTS as error:
            told = partial(answer.set_exception, error)
        # (the loop is gone where the exporter has ended meanwhile)
        with suppress(RuntimeError):
            loop.call_soon_threadsafe(told)

    def _text(self) -> str:
        """What the server says.

        Over a new session where the one before had ended, as when it was started again.
        """
        try:
            if self._session is not None:
                return prometheus(self._session)
        except (Ended, ConnectionError):
            self.close()
        except FAULTS:
            self.close()
            raise
        self._session = self._opens()
        try:
            return prometheus(self._session)
        except FAULTS:
            self.close()
            raise

    def close(self) -> None:
        """Ends the session, and leaves its worker to others."""
        session, self._session = self._session, None
        if session is not None:
            session.close()


@dataclass(frozen=True)
class Reply:
    status: HTTPStatus
    text: str
    kind: str = "text/plain; charset=utf-8"

    def whole(self) -> bytes:
        body = self.text.encode()
        lines = [f"HTTP/1.1 {self.status.value} {self.status.phrase}", f"Content-Type: {self.kind}"]
        return (
            "\r\n".join([*lines, f"Content-Length: {len(body)}", "Connection: close", "", ""]).encode() + body
        )


class BadRequest(Exception):
    """What a client sent is no request of HTTP."""


async def head_of(reader: asyncio.StreamReader) -> AsyncIterator[str]:
    """The lines of a request before the empty one."""
    for _ in range(LINES):
        try:
            line = (await reader.readuntil(b"\n")).decode("latin-1").rstrip("\r\n")
        except (asyncio.IncompleteReadError, asyncio.LimitOverrunError):
            raise BadRequest("it ends early, or has a line that is too long") from None
        if not line:
            return
        yield line
    raise BadRequest("it has too many lines")


@dataclass(frozen=True)
class Request:
    method: str
    path: str
    hosts: list[str]

    @classmethod
    async def of(cls, reader: asyncio.StreamReader) -> "Request":
        """The request that a client sends, without what comes behind its head."""
        first, *fields = [line async for line in head_of(reader)] or [""]
        words = first.split(" ")
        if len(words) != 3 or not words[2].startswith("HTTP/1."):
            raise BadRequest("its first line is no method, path and version")
        named = [line.partition(":") for line in fields]
        return cls(words[0], words[1], [value.strip() for name, _, value in named if name.lower() == "host"])

    def is_for(self, port: int) -> bool:
        """Whether the client asks this server by its own name, and not by one of a page's that leads here."""
        names = {name for it in ("127.0.0.1", "localhost") for name in (it, f"{it}:{port}")}
        return len(self.hosts) == 1 and self.hosts[0].lower() in names


class Exporter:
    """Answers /metrics over HTTP, at 127.0.0.1 alone.

    Clients that are silent cost it no thread, and are ended.
    """

    def __init__(self, opens: Callable[[], Session]) -> None:
        self.asking = Asking(opens)
        self.port = 0
        # (in order of their coming)
        self.silent: dict[asyncio.Task[None], None] = {}

    async def serves(self, port: int) -> None:
        """Serves at a port, or at one that the system chooses, for ever."""
        async with await asyncio.start_server(self._client, "127.0.0.1", port, limit=LINE_BYTES) as server:
            self.port = server.sockets[0].getsockname()[1]
            print(f"metrics at http://127.0.0.1:{self.port}/metrics", flush=True)
            await server.serve_forever()

    async def _client(self, reader: asyncio.StreamReader, writer: asyncio.StreamWriter) -> None:
        """Reads one request and answers it, within its time."""
        try:
            with suppress(OSError, TimeoutError, asyncio.CancelledError):
                request = await self._sent(reader)
                reply = request if isinstance(request, Reply) else await self._reply(request)
                writer.write(reply.whole())
                async with asyncio.timeout(CLIENT_SECONDS):
                    await writer.drain()
                    writer.close()
                    await writer.wait_closed()
        finally:
            writer.transport.abort()

    async def _sent(self, reader: asyncio.StreamReader) -> "Request | Reply":
        """What a client sends, which is silent up to then."""
        task = asyncio.current_task()
        assert task is not None
        if len(self.silent) >= SILENT:
            first = next(iter(self.silent))
            del self.silent[first]
            first.cancel()
        self.silent[task] = None
        try:
            async with asyncio.timeout(CLIENT_SECONDS):
                return await self._request(reader)
        finally:
            self.silent.pop(task, None)

    async def _request(self, reader: asyncio.StreamReader) -> Request | Reply:
        try:
            return await Request.of(reader)
        except BadRequest as error:
            return Reply(HTTPStatus.BAD_REQUEST, f"this is no request: {error}\n")

    async def _reply(self, request: Request) -> Reply:
        if not request.is_for(self.port):
            name = f"http://127.0.0.1:{self.port}/metrics"
            return Reply(HTTPStatus.FORBIDDEN, f"the counts are at {name}, and under no other name\n")
        if request.method != "GET":
            return Reply(HTTPStatus.METHOD_NOT_ALLOWED, "the counts can be got, and nothing else\n")
        if request.path.split("?")[0] not in ("/", "/metrics"):
            return Reply(HTTPStatus.NOT_FOUND, "the counts are at /metrics\n")
        try:
            counts = await self.asking.counts()
        except FAULTS as error:
            text = f"the server of huge pages does not answer: {error}\n"
            return Reply(HTTPStatus.SERVICE_UNAVAILABLE, text)
        return Reply(HTTPStatus.OK, counts.with_age(), CONTENT)


def exports(opens: Callable[[], Session], port: int) -> None:
    """Serves the counts at a port until Ctrl-C or SIGTERM."""
    exporter = Exporter(opens)
    try:
        asyncio.run(exporter.serves(port))
    finally:
        exporter.asking.close()


def watches(session: Session, seconds: float, times: int | None) -> None:
    """A line of counts each so many seconds, so many times or until the server ends."""
    print(f"{'':8} {'Total':>8} {'Free':>8} {'Rsvd':>8} {'Surp':>8} {'in use':>8}", flush=True)
    while times is None or times > 0:
        counts = session.meminfo()
        numbers = (*counts[:4], counts.total - counts.free)
        print(time.strftime("%H:%M:%S"), " ".join(f"{number:8}" for number in numbers), flush=True)
        times = None if times is None else times - 1
        if times != 0:
            time.sleep(seconds)
