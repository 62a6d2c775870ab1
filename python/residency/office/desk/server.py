"""The desk's server: it answers browsers of this computer alone, and tells nothing of what the desk has without its token.

One thread hears all connections, so that one that says nothing costs no other; a few threads answer what was asked whole. The token is in
a header, which no other site's page can send without asking first, and nobody answers that question."""
import argparse
import hmac
import json
import queue
import re
import secrets
import select
import selectors
import socket
import threading
import time
from http import HTTPStatus
from pathlib import Path
from typing import Any, Dict, Optional, Tuple
from urllib.parse import quote, unquote

from ...errors import ResidencyError
from ..faults import OfficeError
from ..sentences import faults_at_desk, said_by
from ..settings import TABLES, from_values
from ..steps import TablesError
from ..tables import Given
from ..text import MOST_BYTES, refuse_odd
from .calls import CALLS, Desk, Refused, Said

HOST = "127.0.0.1"
# So many bytes the head of a request may have, and what a call says; so many connections may wait, be answered, and tell of a window.
MOST_HEAD, MOST_CALL, MOST_WAITING, MOST_ANSWERED, MOST_WINDOWS = 1 << 14, 1 << 20, 64, 8, 4
# How long a head may take, and each part of what follows; how long the desk stays when its last window is closed, and its end may take.
SECONDS_HEAD, SECONDS_PART, SECONDS_AWAY, SECONDS_END = 10.0, 30.0, 30.0, 5.0
REQUEST, FIELD = re.compile(r"([A-Z]{1,16}) (/[!-~]*) HTTP/1\.1"), re.compile(r"([\w-]+):[ \t]*([ -~\t\x80-\xff]*?)[ \t]*", re.ASCII)
KINDS = {"html": "text/html", "css": "text/css", "js": "text/javascript", "svg": "image/svg+xml", "txt": "text/plain"}
POLICY = ("default-src 'none'; script-src 'self'; style-src 'self'; connect-src 'self'; img-src 'self'; frame-src 'self'; form-action 'none'; "
          "base-uri 'none'; frame-ancestors 'none'; require-trusted-types-for 'script'")
# A page of a match has its styles in it, no script, and nothing of the desk's.
SHOWN = "sandbox; default-src 'none'; style-src 'unsafe-inline'; base-uri 'none'; form-action 'none'; frame-ancestors 'self'"
ALWAYS = ("X-Content-Type-Options: nosniff", "Referrer-Policy: no-referrer", "Cache-Control: no-store", "Cross-Origin-Resource-Policy: same-origin",
          "Cross-Origin-Opener-Policy: same-origin", "Connection: close")


class Asked:
    """A request, and its answer: whole, or in lines as they come."""

    def __init__(self, connection: socket.socket, head: bytes, rest: bytes, is_over: threading.Event) -> None:
        self.connection, self.rest, self.is_over, self.is_begun = connection, rest, is_over, False
        first, *lines = head.decode("latin-1").split("\r\n")
        found, parts = REQUEST.fullmatch(first), [FIELD.fullmatch(line) for line in lines]
        self.fields: Dict[str, str] = {part[1].lower(): part[2] for part in parts if part}
        self.method, self.path = (found[1], found[2]) if found and len(self.fields) == len(lines) else ("", "")

    def guard(self, port: int) -> None:
        """Refuses what the desk's own page doesn't ask. A window may be opened from anywhere: it has no token."""
        said = self.fields
        if not self.method:
            raise Refused(400, "this is no request")
        if said.get("host") not in (f"{HOST}:{port}", f"localhost:{port}"):
            raise Refused(421, "the desk answers at its own address alone")
        is_window = self.path == "/" and (said.get("sec-fetch-dest"), said.get("sec-fetch-mode")) == ("document", "navigate")
        if said.get("origin", f"http://{said['host']}") != f"http://{said['host']}" \
                or said.get("sec-fetch-site", "none") not in ("same-origin", "none") and not is_window:
            raise Refused(403, "another site's page asks this")
        if self.method not in ("GET", "POST"):
            raise Refused(405, "the desk knows GET and POST alone")

    def body(self, most: int) -> bytes:
        """What is sent after the head."""
        size = self.fields.get("content-length", "")
        if "transfer-encoding" in self.fields or not (size.isascii() and size.isdecimal() and len(size) < 16):
            raise Refused(411, "the length is wanted")
        if int(size) > most:
            raise Refused(413, f"this has more than {most >> 20} MB")
        data = bytearray(self.rest[:int(size)])
        while len(data) < int(size):
            part = self.connection.recv(min(1 << 20, int(size) - len(data)))
            if not part:
                raise Refused(400, "what is sent ends too early")
            data += part
        return bytes(data)

    def send(self, status: int, kind: str, data: bytes, policy: str = POLICY, *more: str) -> None:
        """Sends an answer, or the begin of one whose lines follow."""
        self.is_begun = True
        lines = [f"HTTP/1.1 {status} {HTTPStatus(status).phrase}", f"Content-Type: {kind}", f"Content-Security-Policy: {policy}", *ALWAYS, *more]
        self.connection.sendall("\r\n".join([*lines, "", ""]).encode("ascii") + data)

    def line(self, status: int = 200, **what: Any) -> None:
        data = json.dumps(what).encode("ascii") + b"\n"
        self.connection.sendall(data) if self.is_begun else self.send(status, "application/json", data)

    def is_gone(self, seconds: float = 0) -> bool:
        """Whether the desk is over, or whoever asked is gone."""
        return self.is_over.is_set() or bool(select.select([self.connection], [], [], seconds)[0]) and not self.connection.recv(1, socket.MSG_PEEK)

    def tell(self, what: object) -> None:
        """Tells what is going on. ConnectionError where nobody hears it, which ends the step."""
        if self.is_gone():
            raise ConnectionAbortedError
        self.line(progress=what)


class Server:
    """Hears and answers at a port that the system chose."""

    def __init__(self, desk: Desk) -> None:
        self.desk, self.token = desk, secrets.token_urlsafe(32)
        self.files = {path.name: path.read_bytes() for path in Path(__file__).parent.iterdir() if path.suffix[1:] in KINDS}
        self.listener = socket.create_server((HOST, 0), backlog=MOST_WAITING)
        self.port = self.listener.getsockname()[1]
        self.address = f"http://{HOST}:{self.port}/#{self.token}"
        # The requests whose heads are whole; none where a thread is to end.
        self.asked: "queue.Queue[Optional[Tuple[socket.socket, bytes, bytes]]]" = queue.Queue()
        # By each connection whose head isn't whole, in their order, what it said, and when it is given up.
        self.waiting: Dict[socket.socket, Tuple[bytes, float]] = {}
        # How many windows are open, and when the last one was, if any was.
        self.windows, self.last = 0, float("inf")
        self.selector = selectors.DefaultSelector()
        self.selector.register(self.listener, selectors.EVENT_READ)

    def serve(self) -> None:
        """Answers until the desk is closed, by its button or with its last window."""
        threads = [threading.Thread(target=self.work, daemon=True) for _ in range(MOST_ANSWERED)]
        for thread in threads:
            thread.start()
        while not self.desk.over.is_set() and (self.windows or time.monotonic() < self.last + SECONDS_AWAY):
            for key, _ in self.selector.select(0.5):
                try:
                    self.hear(key.fileobj) if key.fileobj in self.waiting else self.accept()
                except OSError:
                    pass
            late = [peer for peer, (_, end) in self.waiting.items() if end < time.monotonic()]
            for connection in {*late, *list(self.waiting)[:-MOST_WAITING]}:
                self.take(connection).close()
        self.desk.over.set()
        threads_end = time.monotonic() + SECONDS_END
        self.selector.close()
        for waits in (self.listener, *self.waiting):
            waits.close()
        for thread in threads:
            self.asked.put(None)
        for thread in threads:
            thread.join(max(0.0, threads_end - time.monotonic()))

    def accept(self) -> None:
        connection, _ = self.listener.accept()
        connection.setblocking(False)
        self.waiting[connection] = (b"", time.monotonic() + SECONDS_HEAD)
        self.selector.register(connection, selectors.EVENT_READ)

    def take(self, connection: socket.socket) -> socket.socket:
        self.selector.unregister(connection)
        del self.waiting[connection]
        return connection

    def hear(self, connection: Any) -> None:
        """Takes in what a connection says; a request whose head is whole is for the other threads."""
        before, end = self.waiting[connection]
        data = connection.recv(MOST_HEAD)
        head, is_whole, rest = (before + data).partition(b"\r\n\r\n")
        if not data:
            self.take(connection).close()
        elif is_whole or len(head) >= MOST_HEAD:
            self.asked.put((self.take(connection), head if len(head) < MOST_HEAD else b"", rest))
        else:
            self.waiting[connection] = (head, end)

    def work(self) -> None:
        """Answers one request after the other."""
        for connection, head, rest in iter(self.asked.get, None):
            connection.settimeout(SECONDS_PART)
            with connection:
                try:
                    self.answer(Asked(connection, head, rest, self.desk.over))
                    connection.shutdown(socket.SHUT_WR)
                except OSError:
                    pass

    def answer(self, asked: Asked) -> None:
        """Answers a request, or says why not."""
        try:
            asked.guard(self.port)
            what, _, name = asked.path[1:].partition("/")
            if asked.method == "GET":
                self.get(asked, what, name)
            elif what not in ("alive", "close", "call", "table"):
                raise Refused(404, "there is no such page")
            elif not hmac.compare_digest(asked.fields.get("x-desk-token", "").encode("latin-1"), self.token.encode("ascii")):
                raise Refused(401, "the desk's token is wanted")
            elif what == "alive":
                self.window(asked)
            elif what == "close":
                asked.line(answer="closed")
                self.desk.over.set()
            else:
                data = asked.body(MOST_CALL if what == "call" else MOST_BYTES)
                with self.desk.turn:
                    asked.line(answer=self.post(asked, what, name, data))
        except Refused as refused:
            asked.line(refused.args[0], error=refused.args[1])
        except argparse.ArgumentTypeError as error:
            asked.line(400, error=str(error))
        except TablesError as error:
            asked.line(error="the tables are at fault", faults=faults_at_desk(error.faults, error.read.sheets()))
        except (OfficeError, ResidencyError) as error:
            asked.line(error=said_by(error).replace(f"{self.desk.room}/", ""))
        except (ConnectionError, socket.timeout):
            raise
        except Exception as error:  # A mistake of the desk itself costs one answer, and no thread.
            asked.line(500, error=f"the desk failed: {error!r}")

    def window(self, asked: Asked) -> None:
        """Tells by an answer that never ends that a window is open."""
        self.windows += 1
        try:
            if self.windows > MOST_WINDOWS:
                raise Refused(503, f"the desk has {MOST_WINDOWS} windows already")
            asked.send(200, "text/plain", b"")
            while not asked.is_gone(1):
                pass
        finally:
            self.windows, self.last = self.windows - 1, time.monotonic()

    def get(self, asked: Asked, what: str, name: str) -> None:
        """Sends a file of the desk, or what a ticket is for, once."""
        path, found = asked.path[1:] or "desk.html", self.desk.tickets.pop(name, None) if what == "view" else None
        if found is not None:
            data, path = found
            ending = path.rpartition(".")[2]
            more = [] if ending in ("html", "txt") else [f"Content-Disposition: attachment; filename*=UTF-8''{quote(path.rpartition('/')[2])}"]
            asked.send(200, f"{KINDS.get(ending, 'application/octet-stream')}; charset=utf-8", data, SHOWN, *more)
        elif path in self.files:
            asked.send(200, f"{KINDS[path.rpartition('.')[2]]}; charset=utf-8", self.files[path])
        else:
            raise Refused(404, "there is no such page")

    def post(self, asked: Asked, what: str, name: str, data: bytes) -> Any:
        """Does what is asked with the token."""
        if what == "table" and name in TABLES:
            title = unquote(asked.fields.get("x-name", "")).rpartition("/")[2][:200] or name
            self.desk.given[name] = Given(title, data)
            return title
        if what != "call" or name not in CALLS:
            raise Refused(404, "there is no such call")
        try:
            said = json.loads(data)
            found = said.pop("settings", None)
            if not all(isinstance(value, str) for value in said.values()):
                raise TypeError
        except (ValueError, TypeError, AttributeError, RecursionError):
            raise Refused(400, "a call says texts by their names") from None
        try:
            settings = self.desk.settings if found is None else from_values(found)
        except ValueError as error:
            raise Refused(400, f"there is no such setting: {error}") from None
        refuse_odd({"reading": found})
        self.desk.settings = settings
        return getattr(self.desk, name)(Said(said), asked.tell)
