"""A desk for the tests, in this process: what its page may ask, and raw requests."""
from __future__ import annotations

import contextlib
import json
import socket
import tempfile
import threading
from pathlib import Path
from typing import Any, Dict, Iterator, List, NamedTuple, Optional
from urllib.parse import quote

from residency.office import steps
from residency.office.desk.calls import Desk
from residency.office.desk.server import Server

# How long an answer may take, on a busy machine.
SECONDS = 200.0


class Answer(NamedTuple):
    """An answer of the server: its status, its headers by their names, and what follows."""

    status: int
    headers: Dict[str, str]
    data: bytes

    def lines(self) -> List[Dict[str, Any]]:
        return [json.loads(line) for line in self.data.splitlines()]


class Running:
    """A desk that runs: the desk, its server, and the folder where it was started."""

    def __init__(self, desk: Desk, server: Server, thread: threading.Thread) -> None:
        self.desk, self.server, self.thread = desk, server, thread
        self.host = f"127.0.0.1:{server.port}"

    def raw(self, request: bytes, ends: bool = True) -> bytes:
        """All that is answered to these bytes."""
        with socket.create_connection(("127.0.0.1", self.server.port), SECONDS) as connection:
            connection.sendall(request)
            if ends:
                connection.shutdown(socket.SHUT_WR)
            return b"".join(iter(lambda: connection.recv(1 << 16), b""))

    def ask(self, method: str, path: str, data: bytes = b"", **more: Optional[str]) -> Answer:
        """An answer to what the desk's own page asks, but for the headers that are given; one of None is left out."""
        fields: Dict[str, Optional[str]] = {"Host": self.host, "X-Desk-Token": self.server.token, "Content-Length": str(len(data)),
                                            **{name.replace("_", "-"): value for name, value in more.items()}}
        lines = [f"{method} {path} HTTP/1.1", *(f"{name}: {value}" for name, value in fields.items() if value is not None)]
        return answer_of(self.raw("\r\n".join([*lines, "", ""]).encode("latin-1") + data, False))

    def said(self, name: str, /, **words: Any) -> List[Dict[str, Any]]:
        """Each line that is answered to a call."""
        return self.ask("POST", f"/call/{name}", json.dumps(words).encode()).lines()

    def call(self, name: str, /, **words: Any) -> Any:
        """What is answered to a call at its end."""
        last = self.said(name, **words)[-1]
        if "answer" not in last:
            raise AssertionError(f"{name}: {last}")
        return last["answer"]

    def give(self, table: str, data: bytes, name: str = "") -> Any:
        """Gives a table."""
        return self.ask("POST", f"/table/{table}", data, X_Name=quote(name or f"{table}.csv")).lines()[-1]["answer"]

    def fetched(self, address: str) -> Answer:
        """What stands at an address that was answered."""
        return self.ask("GET", address, X_Desk_Token=None, Content_Length=None)


def answer_of(data: bytes) -> Answer:
    head, _, rest = data.partition(b"\r\n\r\n")
    first, *lines = head.decode("latin-1").split("\r\n")
    return Answer(int(first.split(" ")[1]), dict(line.split(": ", 1) for line in lines), rest)


@contextlib.contextmanager
def running(home: Path) -> Iterator[Running]:
    """A desk that was started in a folder, and ends."""
    with tempfile.TemporaryDirectory() as around:
        before, tempfile.tempdir = tempfile.tempdir, around
        try:
            with steps.room_for("desk") as room:
                desk = Desk(room, home)
                server = Server(desk)
                thread = threading.Thread(target=server.serve, daemon=True)
                thread.start()
                try:
                    yield Running(desk, server, thread)
                finally:
                    desk.over.set()
                    thread.join(SECONDS)
        finally:
            tempfile.tempdir = before
