"""What the desk's server answers to raw requests: hostile ones, each with its status and text, and those of its own page."""
import contextlib
import json
import os
import re
import socket
import threading
import time
from pathlib import Path
from typing import Any, Dict, NamedTuple
from unittest import mock
from urllib.parse import quote

import desks
from desks import Answer, answer_of
from residency.office import running, steps
from residency.office.desk import server as servers
from support import PROGRAMMES, RESIDENTS, OfficeTest

FOLDER = Path(servers.__file__).parent

# What each refusal says, by its status.
NONE, ELSEWHERE, OTHERS, KNOWN = "this is no request", "the desk answers at its own address alone", "another site's page asks this", "the desk knows GET and POST alone"
TOKEN, PAGE, CALL, LENGTH, EARLY, NO_FOLDER, TEXTS = (
    "the desk's token is wanted", "there is no such page", "there is no such call", "the length is wanted", "what is sent ends too early",
    "no such folder is open", "a call says texts by their names")
PHRASES = {200: "OK", 400: "Bad Request", 401: "Unauthorized", 403: "Forbidden", 404: "Not Found", 405: "Method Not Allowed", 411: "Length Required",
           413: "Request Entity Too Large", 421: "Misdirected Request", 503: "Service Unavailable"}
# Every header of an answer, but for its kind.
POLICY = ("default-src 'none'; script-src 'self'; style-src 'self'; connect-src 'self'; img-src 'self'; frame-src 'self'; form-action 'none'; base-uri 'none'; "
          "frame-ancestors 'none'; require-trusted-types-for 'script'")
SHOWN = "sandbox; default-src 'none'; style-src 'unsafe-inline'; base-uri 'none'; form-action 'none'; frame-ancestors 'self'"
HEADERS = {"X-Content-Type-Options": "nosniff", "Referrer-Policy": "no-referrer", "Cache-Control": "no-store", "Cross-Origin-Resource-Policy": "same-origin",
           "Cross-Origin-Opener-Policy": "same-origin", "Connection": "close"}


class Hostile(NamedTuple):
    """A request with the marks HOST and TOKEN in it, and the status and the text that it is to be answered."""

    request: bytes
    status: int
    text: str


def post(path: str, body: bytes = b"{}", *more: str) -> bytes:
    """A call as the page makes it, with headers added."""
    lines = [f"POST {path} HTTP/1.1", "Host: HOST", "X-Desk-Token: TOKEN", f"Content-Length: {len(body)}", *more, "", ""]
    return "\r\n".join(lines).encode("latin-1") + body


def get(path: str, *more: str) -> bytes:
    return "\r\n".join([f"GET {path} HTTP/1.1", "Host: HOST", *more, "", ""]).encode("latin-1")


def at(host: str) -> bytes:
    return post("/call/state").replace(b"HOST", host.encode("latin-1"))


def without(name: str) -> bytes:
    return b"\r\n".join(line for line in post("/call/state").split(b"\r\n") if not line.startswith(name.encode()))


WINDOW = ("Sec-Fetch-Dest: document", "Sec-Fetch-Mode: navigate")
HOSTILE: Dict[str, Hostile] = {
    "nothing": Hostile(b"\r\n\r\n", 400, NONE),
    "no HTTP": Hostile(b"hello\r\n\r\n", 400, NONE),
    "TLS": Hostile(b"\x16\x03\x01\x02\x00\x01\x00\r\n\r\n", 400, NONE),
    "an old version": Hostile(get("/").replace(b"1.1", b"1.0"), 400, NONE),
    "a newer version": Hostile(b"PRI * HTTP/2.0\r\n\r\n", 400, NONE),
    "no version": Hostile(b"GET /\r\n\r\n", 400, NONE),
    "a whole address": Hostile(get("http://127.0.0.1/"), 400, NONE),
    "a path without its begin": Hostile(get("desk.js"), 400, NONE),
    "a blank in the path": Hostile(get("/desk.js /"), 400, NONE),
    "another letter in the path": Hostile(get("/\xe9"), 400, NONE),
    "a small method": Hostile(b"get / HTTP/1.1\r\nHost: HOST\r\n\r\n", 400, NONE),
    "a header without a colon": Hostile(get("/", "X-One"), 400, NONE),
    "a header that goes on": Hostile(get("/", "X-One: a", " b"), 400, NONE),
    "a header with a blank before its colon": Hostile(get("/", "X-One : a"), 400, NONE),
    "a line end of one sign": Hostile(get("/", "X-One: a\nX-Two: b"), 400, NONE),
    "a sign that is none": Hostile(get("/", "X-One: a\0b"), 400, NONE),
    "two lengths": Hostile(post("/call/state", b"{}", "Content-Length: 3"), 400, NONE),
    "two hosts": Hostile(get("/", "Host: HOST"), 400, NONE),
    "a head without an end": Hostile((b"GET / HTTP/1.1\r\nX-One: " + b"a" * 16384)[:16384], 400, NONE),
    "no host": Hostile(b"GET / HTTP/1.1\r\n\r\n", 421, ELSEWHERE),
    "a name that leads here": Hostile(at("evil.example:PORT"), 421, ELSEWHERE),
    "a name without a port": Hostile(at("localhost"), 421, ELSEWHERE),
    "another port": Hostile(at("127.0.0.1:1"), 421, ELSEWHERE),
    "another loopback address": Hostile(at("127.0.0.2:PORT"), 421, ELSEWHERE),
    "this address of version 6": Hostile(at("[::1]:PORT"), 421, ELSEWHERE),
    "a name with ours before it": Hostile(at("localhost.evil.example:PORT"), 421, ELSEWHERE),
    "a user before the name": Hostile(at("evil@127.0.0.1:PORT"), 421, ELSEWHERE),
    "another origin": Hostile(post("/call/state", b"{}", "Origin: http://evil.example"), 403, OTHERS),
    "no origin": Hostile(post("/call/state", b"{}", "Origin: null"), 403, OTHERS),
    "our name, and another port": Hostile(post("/call/state", b"{}", "Origin: http://127.0.0.1:1"), 403, OTHERS),
    "our origin, safe": Hostile(post("/call/state", b"{}", "Origin: https://HOST"), 403, OTHERS),
    "another site": Hostile(post("/call/state", b"{}", "Sec-Fetch-Site: cross-site"), 403, OTHERS),
    "the same site": Hostile(post("/call/state", b"{}", "Sec-Fetch-Site: same-site"), 403, OTHERS),
    "another site's frame": Hostile(get("/", "Sec-Fetch-Site: cross-site", "Sec-Fetch-Dest: iframe", "Sec-Fetch-Mode: navigate"), 403, OTHERS),
    "another site's script": Hostile(get("/desk.js", "Sec-Fetch-Site: cross-site", "Sec-Fetch-Dest: script", "Sec-Fetch-Mode: no-cors"), 403, OTHERS),
    "a window of a file": Hostile(get("/desk.js", "Sec-Fetch-Site: cross-site", *WINDOW), 403, OTHERS),
    "a window that sends": Hostile(post("/", b"{}", "Sec-Fetch-Site: cross-site", "Origin: null", *WINDOW), 403, OTHERS),
    "what may be asked": Hostile(b"OPTIONS /call/state HTTP/1.1\r\nHost: HOST\r\nOrigin: http://HOST\r\n\r\n", 405, KNOWN),
    "what another site may ask": Hostile(b"OPTIONS /call/state HTTP/1.1\r\nHost: HOST\r\nOrigin: http://evil.example\r\n\r\n", 403, OTHERS),
    "a file to be put": Hostile(b"PUT /desk.js HTTP/1.1\r\nHost: HOST\r\n\r\n", 405, KNOWN),
    "a head alone": Hostile(b"HEAD / HTTP/1.1\r\nHost: HOST\r\n\r\n", 405, KNOWN),
    "another machine through us": Hostile(b"CONNECT /evil.example HTTP/1.1\r\nHost: HOST\r\n\r\n", 405, KNOWN),
    "no token": Hostile(without("X-Desk-Token"), 401, TOKEN),
    "another token": Hostile(post("/call/state").replace(b"TOKEN", b"a" * 43), 401, TOKEN),
    "a token with a letter more": Hostile(post("/call/state").replace(b"TOKEN", b"TOKENa"), 401, TOKEN),
    "an empty token": Hostile(post("/call/state").replace(b"TOKEN", b""), 401, TOKEN),
    "a token that isn't ASCII": Hostile(post("/call/state").replace(b"TOKEN", b"\xe9"), 401, TOKEN),
    "a token in a cookie": Hostile(without("X-Desk-Token").replace(b"Content-Length", b"Cookie: token=TOKEN\r\nContent-Length"), 401, TOKEN),
    "a token in the path": Hostile(without("X-Desk-Token").replace(b"/call/state", b"/call/state?TOKEN"), 401, TOKEN),
    "a table without the token": Hostile(without("X-Desk-Token").replace(b"/call/state", b"/table/residents"), 401, TOKEN),
    "the end without the token": Hostile(without("X-Desk-Token").replace(b"/call/state", b"/close"), 401, TOKEN),
    "a window without the token": Hostile(without("X-Desk-Token").replace(b"/call/state", b"/alive"), 401, TOKEN),
    "a file above": Hostile(get("/../server.py"), 404, PAGE),
    "a file above in other signs": Hostile(get("/%2e%2e/server.py"), 404, PAGE),
    "the server's own code": Hostile(get("/server.py"), 404, PAGE),
    "a folder of the machine": Hostile(get("//etc/passwd"), 404, PAGE),
    "a file with a question": Hostile(get("/desk.js?"), 404, PAGE),
    "a page of a match that nobody asked for": Hostile(get("/view/0"), 404, PAGE),
    "a page without a ticket": Hostile(get("/view/"), 404, PAGE),
    "a call as a page": Hostile(get("/call/state"), 404, PAGE),
    "a page as a call": Hostile(post("/desk.js"), 404, PAGE),
    "an unknown call": Hostile(post("/call/shell"), 404, CALL),
    "a method of the desk that is no call": Hostile(post("/call/__init__"), 404, CALL),
    "a part of the desk": Hostile(post("/call/made"), 404, CALL),
    "another table": Hostile(post("/table/other"), 404, CALL),
    "no length": Hostile(without("Content-Length"), 411, LENGTH),
    "a length below nothing": Hostile(post("/call/state").replace(b"Length: 2", b"Length: -2"), 411, LENGTH),
    "a length of another script": Hostile(post("/call/state").replace(b"Length: 2", b"Length: \xb2"), 411, LENGTH),
    "a length of many digits": Hostile(post("/call/state").replace(b"Length: 2", b"Length: " + b"9" * 16), 411, LENGTH),
    "parts without a length": Hostile(post("/call/state", b"{}", "Transfer-Encoding: chunked"), 411, LENGTH),
    "a call that is too long": Hostile(post("/call/state").replace(b"Length: 2", b"Length: 1048577"), 413, "this has more than 1 MB"),
    "a table that is too long": Hostile(post("/table/residents").replace(b"Length: 2", b"Length: 268435457"), 413, "this has more than 256 MB"),
    "what ends too early": Hostile(post("/call/state").replace(b"Length: 2", b"Length: 3"), 400, EARLY),
    "a call of no JSON": Hostile(post("/call/state", b"{"), 400, TEXTS),
    "a list": Hostile(post("/call/state", b'["a"]'), 400, TEXTS),
    "a number where a text is wanted": Hostile(post("/call/view", b'{"folder": 1}'), 400, TEXTS),
    "settings that are none": Hostile(post("/call/check", b'{"settings": {"match": {"shell": "x"}}}'), 400, "there is no such setting: 'shell'"),
    "a folder that isn't open": Hostile(post("/call/view", b'{"folder": "/etc"}'), 404, NO_FOLDER),
    "a folder above": Hostile(post("/call/view", b'{"folder": "..", "file": "passwd"}'), 404, NO_FOLDER),
    "a day that is none": Hostile(post("/call/seal", b'{"day": "tomorrow"}'), 400, "tomorrow is no day; it is written as 2026-03-20"),
    "a match of no tables": Hostile(post("/call/match", b"{}"), 400, "both tables are wanted"),
}


class Requests(OfficeTest):
    def setUp(self) -> None:
        super().setUp()
        stack = contextlib.ExitStack()
        self.addCleanup(stack.close)
        self.running = stack.enter_context(desks.running(self.folder))

    def put(self, request: bytes) -> bytes:
        """A request with its marks filled in."""
        server = self.running.server
        return request.replace(b"PORT", str(server.port).encode()).replace(b"HOST", self.running.host.encode()).replace(b"TOKEN", server.token.encode())

    @staticmethod
    def whole(status: int, text: str) -> bytes:
        """A refusal, byte for byte."""
        headers = {"Content-Type": "application/json", "Content-Security-Policy": POLICY, **HEADERS}
        lines = [f"HTTP/1.1 {status} {PHRASES[status]}", *(f"{name}: {value}" for name, value in headers.items()), "", ""]
        return "\r\n".join(lines).encode() + json.dumps({"error": text}).encode() + b"\n"

    def test_hostile_requests_are_refused(self) -> None:
        self.assertGreaterEqual(len(HOSTILE), 80)
        for name, request in HOSTILE.items():
            with self.subTest(name):
                self.assertEqual(self.running.raw(self.put(request.request)), self.whole(request.status, request.text))
        # None of them did anything.
        self.assertEqual((self.running.desk.given, self.running.desk.folders, self.running.desk.over.is_set()), ({}, {}, False))

    def test_its_own_page_is_sent(self) -> None:
        files = {"": "text/html", "desk.html": "text/html", "desk.css": "text/css", "desk.svg": "image/svg+xml", **{f"{name}.js": "text/javascript" for name in ("call", "desk", "folders", "made", "people", "tables")}}
        self.assertEqual({*self.running.server.files}, {*files} - {""})
        for name, kind in files.items():
            answer = self.running.fetched(f"/{name}")
            data = (FOLDER / (name or "desk.html")).read_bytes()
            self.assertEqual(answer, Answer(200, {"Content-Type": f"{kind}; charset=utf-8", "Content-Security-Policy": POLICY, **HEADERS}, data), name)

    def test_a_window_may_be_opened_from_anywhere(self) -> None:
        for site in ("none", "same-origin", "same-site", "cross-site"):
            answer = answer_of(self.running.raw(self.put(get("/", f"Sec-Fetch-Site: {site}", *WINDOW))))
            self.assertEqual((answer.status, answer.data), (200, (FOLDER / "desk.html").read_bytes()), site)

    def test_the_page_has_no_script_and_no_style_of_its_own(self) -> None:
        text = (FOLDER / "desk.html").read_text(encoding="utf-8")
        self.assertEqual(re.findall(r"<style|\sstyle=|\son[a-z]+=|javascript:|https?://", text), [])
        self.assertEqual(re.findall(r"<script[^>]*>[^<]*</script>", text), ['<script type="module" src="/desk.js"></script>'])
        for name in self.running.server.files:
            if name.endswith(".js"):
                code = (FOLDER / name).read_text(encoding="utf-8")
                self.assertEqual(re.findall(r"innerHTML|outerHTML|insertAdjacent|document\.write|eval\(|Function\(|cookie|localStorage|https?://", code), [], name)

    def test_no_answer_lets_another_origin_in(self) -> None:
        for name, request in HOSTILE.items():
            self.assertNotIn(b"access-control", self.running.raw(self.put(request.request)).lower(), name)
        for answer in (self.running.fetched("/"), self.running.ask("POST", "/call/state", b"{}", Origin=f"http://{self.running.host}")):
            self.assertEqual((answer.status, {*answer.headers} & {"Access-Control-Allow-Origin", "Set-Cookie"}), (200, set()))

    def test_connections_that_say_nothing_cost_no_thread(self) -> None:
        self.assertEqual(self.running.call("state")["folders"], [])
        before = threading.active_count()
        with contextlib.ExitStack() as held:
            for begin in [b"", b"G", b"GET / HTTP/1.1\r\nHost: "] * 70:
                connection = held.enter_context(socket.create_connection(("127.0.0.1", self.running.server.port)))
                connection.sendall(begin)
            self.assertEqual(self.running.call("state")["folders"], [])
            self.assertEqual(threading.active_count(), before)
            self.assertLessEqual(len(self.running.server.waiting), servers.MOST_WAITING + 1)

    def test_a_connection_that_says_nothing_is_given_up(self) -> None:
        self.enter(mock.patch.object(servers, "SECONDS_HEAD", 0.1))
        for begin in (b"", b"GET / HTTP/1.1\r\n"):
            # What comes when it is given up already is refused by the system.
            with contextlib.suppress(ConnectionError):
                self.assertEqual(self.running.raw(begin, False), b"")

    def test_so_many_windows_and_no_more(self) -> None:
        with contextlib.ExitStack() as held:
            for _ in range(servers.MOST_WINDOWS):
                connection = held.enter_context(socket.create_connection(("127.0.0.1", self.running.server.port), desks.SECONDS))
                connection.sendall(self.put(post("/alive", b"")))
                self.assertTrue(connection.recv(1 << 12).startswith(b"HTTP/1.1 200 OK\r\n"))
            self.assertEqual(self.running.raw(self.put(post("/alive", b"")), False), self.whole(503, "the desk has 4 windows already"))
            self.assertEqual(self.running.call("state")["folders"], [])

    def test_it_ends_with_its_last_window(self) -> None:
        self.enter(mock.patch.object(servers, "SECONDS_AWAY", 0.2))
        self.running.thread.join(1)
        self.assertTrue(self.running.thread.is_alive())
        with contextlib.ExitStack() as held:
            for _ in range(2):
                held.enter_context(socket.create_connection(("127.0.0.1", self.running.server.port), desks.SECONDS)).sendall(self.put(post("/alive", b"")))
            while self.running.server.windows < 2:
                time.sleep(0.01)
            self.running.thread.join(1)
            self.assertTrue(self.running.thread.is_alive())
        self.running.thread.join(desks.SECONDS)
        self.assertFalse(self.running.thread.is_alive())

    def test_a_button_ends_it_and_all_windows_hear_of_it(self) -> None:
        with socket.create_connection(("127.0.0.1", self.running.server.port), desks.SECONDS) as connection:
            connection.sendall(self.put(post("/alive", b"")))
            self.assertTrue(connection.recv(1 << 12).startswith(b"HTTP/1.1 200 OK\r\n"))
            self.assertEqual(self.running.ask("POST", "/close").lines(), [{"answer": "closed"}])
            self.assertEqual(connection.recv(1), b"")
        self.running.thread.join(desks.SECONDS)
        self.assertFalse(self.running.thread.is_alive())

    def test_no_thread_of_a_desk_that_ended_is_left(self) -> None:
        self.running.call("state")
        before = threading.active_count()
        with desks.running(self.folder) as other:
            other.call("state")
            self.assertEqual(threading.active_count(), before + 1 + servers.MOST_ANSWERED)
        self.assertEqual(threading.active_count(), before)

    def test_a_ticket_is_for_once(self) -> None:
        out = self.run_tables()
        self.running.call("open", path="out")
        address = self.running.call("view", folder="out", file="page.html")
        self.assertRegex(address, "^/view/[0-9a-f]{48}$")
        shown = Answer(200, {"Content-Type": "text/html; charset=utf-8", "Content-Security-Policy": SHOWN, **HEADERS}, (out / "page.html").read_bytes())
        self.assertEqual(self.running.fetched(address), shown)
        self.assertEqual(self.running.fetched(address).status, 404)
        addresses = [self.running.call("view", folder="out", file="page.html") for _ in range(6)]
        self.assertEqual([self.running.fetched(path).status for path in addresses], [404, 404, 200, 200, 200, 200])

    def test_a_file_is_downloaded_by_its_name(self) -> None:
        out = self.run_tables()
        self.running.call("open", path="out")
        answer = self.running.fetched(self.running.call("view", folder="out", file="results.csv"))
        self.assertEqual((answer.headers["Content-Disposition"], answer.headers["Content-Security-Policy"]), ("attachment; filename*=UTF-8''results.csv", SHOWN))
        self.assertEqual(answer.data, (out / "results.csv").read_bytes())

    def test_a_link_in_a_folder_leads_nowhere(self) -> None:
        out = self.run_tables()
        (out / "secret.html").symlink_to("/etc/passwd")
        self.running.call("open", path="out")
        for name in ("secret.html", "../residents.csv", "letters/../../residents.csv", "/etc/passwd", "nothing"):
            answer = self.running.ask("POST", "/call/view", json.dumps({"folder": "out", "file": name}).encode())
            self.assertEqual((answer.status, answer.lines()), (404, [{"error": "there is no such file"}]), name)

    def test_who_goes_away_gets_no_folder(self) -> None:
        """A match, or its folder, is under way when whoever asked for it goes away; nothing is left of it."""
        self.give_both()
        for name in ("matched", "fill"):
            began, goes_on, does = threading.Event(), threading.Event(), getattr(running, name)

            def slow(*words: Any) -> Any:
                began.set()
                self.assertTrue(goes_on.wait(desks.SECONDS))
                return does(*words)

            with mock.patch.object(running, name, slow):
                with socket.create_connection(("127.0.0.1", self.running.server.port), desks.SECONDS) as connection:
                    connection.sendall(self.put(post("/call/match", b"{}")))
                    self.assertTrue(began.wait(desks.SECONDS))
                goes_on.set()
                # This waits for its turn, until the match has ended.
                self.assertEqual(self.running.call("state")["folders"], [])
            self.assertEqual(os.listdir(self.running.desk.room), [])

    def give_both(self) -> None:
        self.running.give("programmes", PROGRAMMES.encode())
        self.running.give("residents", RESIDENTS.encode())

    def test_a_failure_of_the_desk_costs_one_answer(self) -> None:
        self.enter(mock.patch.object(steps, "see", side_effect=RuntimeError("broken")))
        for _ in range(2 * servers.MOST_ANSWERED):
            answer = self.running.ask("POST", "/call/check", b"{}")
            self.assertEqual((answer.status, answer.lines()), (500, [{"error": "the desk failed: RuntimeError('broken')"}]))
        self.assertEqual(self.running.call("state")["folders"], [])

    def test_a_table_is_called_by_the_end_of_its_path(self) -> None:
        for name, called in (("../../Zoë's table.csv", "Zoë's table.csv"), ("a" * 300, "a" * 200), ("", "residents"), ("<img>.csv", "<img>.csv")):
            answer = self.running.ask("POST", "/table/residents", RESIDENTS.encode(), X_Name=quote(name))
            self.assertEqual(answer.lines(), [{"answer": called}])
            self.assertEqual(self.running.call("state")["tables"], {"residents": called})
