"""A server of named leases with fencing tokens, over HTTP. It replies once no crash can lose what it has done.

    python3 examples/python/leases FILE [--port PORT] [--existing]

    curl -X POST   'localhost:8000/leases/nightly?holder=7&seconds=30'    acquires: 200 with the token; 409 while another holder has it
    curl -X PUT    'localhost:8000/leases/nightly?token=1&seconds=30'     renews: 200; 404 if that token doesn't hold it
    curl -X DELETE 'localhost:8000/leases/nightly?token=1'                releases: 200, 404
    curl           'localhost:8000/leases'                                all that are held

A holder is a number of 64 bits that the client chooses. A client that got no reply, because the server was killed, asks again with the same
number, and gets the same token. 400 says what is wrong with a request; after 503 it may be made again later.

With --existing the file must have leases already. Use it from the second start on: if the file's volume isn't mounted, a new file would begin
with token 1 again, and an old holder would pass for the last one.
"""
from __future__ import annotations

import argparse
import dataclasses
import json
import signal
import sys
import threading
from concurrent.futures import ThreadPoolExecutor
from http import HTTPStatus
from http.server import BaseHTTPRequestHandler, HTTPServer
from socketserver import ThreadingMixIn
from urllib.parse import parse_qs, unquote, urlsplit

import zelamiku
from table import Full, Lease, Leases, Table

# Each has a lane of the heap, and the main thread one.
WORKERS = 24
MOST_SECONDS = 86_400


class Server(ThreadingMixIn, HTTPServer):
    """Handles requests by so many threads."""

    request_queue_size = 128

    def __init__(self, port: int, leases: Leases) -> None:
        super().__init__(("127.0.0.1", port), Handler)
        self.leases = leases
        self._workers = ThreadPoolExecutor(WORKERS)

    def process_request(self, request, client_address) -> None:
        self._workers.submit(self.process_request_thread, request, client_address)

    def server_close(self) -> None:
        super().server_close()
        self._workers.shutdown()


class Handler(BaseHTTPRequestHandler):
    server: Server

    def do_POST(self) -> None:
        self._reply(lambda: _lease_or(HTTPStatus.CONFLICT, self.server.leases.acquire(self._name(), self._number("holder"), self._seconds())))

    def do_PUT(self) -> None:
        self._reply(lambda: _lease_or(HTTPStatus.NOT_FOUND, self.server.leases.renew(self._name(), self._number("token"), self._seconds())))

    def do_DELETE(self) -> None:
        def release():
            return HTTPStatus.OK if self.server.leases.release(self._name(), self._number("token")) else HTTPStatus.NOT_FOUND, {}

        self._reply(release)

    def do_GET(self) -> None:
        self._reply(lambda: (HTTPStatus.OK, [dataclasses.asdict(lease) for lease in self.server.leases.all()]))

    def _reply(self, work) -> None:
        try:
            status, content = work()
            # A refusal waits too: it may rest on what another thread has just done.
            self.server.leases.durable()
        except ValueError as error:
            status, content = HTTPStatus.BAD_REQUEST, {"error": str(error)}
        except (Full, zelamiku.Refused, zelamiku.Stopped) as error:
            status, content = HTTPStatus.SERVICE_UNAVAILABLE, {"error": str(error)}
            if isinstance(error, zelamiku.Stopped):
                self.server.shutdown()
        body = json.dumps(content).encode()
        self.send_response(status)
        self.send_header("Content-Type", "application/json")
        self.send_header("Content-Length", str(len(body)))
        self.end_headers()
        self.wfile.write(body)

    def _name(self) -> str:
        parts = urlsplit(self.path).path.split("/")
        if len(parts) != 3 or parts[:2] != ["", "leases"]:
            raise ValueError("the path is /leases/NAME")
        return unquote(parts[2], errors="strict")

    def _word(self, key: str) -> str:
        words = parse_qs(urlsplit(self.path).query).get(key, [])
        if len(words) != 1:
            raise ValueError(f"{key}=.. must be given once")
        return words[0]

    def _number(self, key: str) -> int:
        number = int(self._word(key))
        if not 0 <= number < 2**64:
            raise ValueError(f"{key} is from 0 to 2**64 - 1")
        return number

    def _seconds(self) -> float:
        seconds = float(self._word("seconds"))
        if not 0 < seconds <= MOST_SECONDS:
            raise ValueError(f"seconds are more than 0, and {MOST_SECONDS} at most")
        return seconds

    def log_message(self, *_: object) -> None:
        """Logs nothing: one line for each request is too much."""


def _lease_or(otherwise: HTTPStatus, lease: Lease | None):
    return (HTTPStatus.OK, dataclasses.asdict(lease)) if lease is not None else (otherwise, {})


def main() -> None:
    parser = argparse.ArgumentParser(description="a server of named leases with fencing tokens")
    parser.add_argument("file")
    parser.add_argument("--port", type=int, default=8000)
    parser.add_argument("--existing", action="store_true", help="the file must have leases already")
    words = parser.parse_args()
    with zelamiku.open(words.file, table=Table, lanes=WORKERS + 1, create=not words.existing) as heap:
        leases = Leases(heap)
        with Server(words.port, leases) as server:
            signal.signal(signal.SIGTERM, lambda *_: threading.Thread(target=server.shutdown).start())
            print(f"http://127.0.0.1:{server.server_port}/leases has {len(leases.all())} leases", flush=True)
            server.serve_forever(poll_interval=0.1)


if __name__ == "__main__":
    try:
        main()
    except KeyboardInterrupt:
        sys.exit(130)
    except zelamiku.Error as error:
        sys.exit(f"leases: {error}")
