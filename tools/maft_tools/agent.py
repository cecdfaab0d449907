"""Starts and kills controllers of this machine for a bench that runs on another one: the work of tools/cluster-agent.

The first line of a connection is `node I PASS` or `kill PASS`, where PASS is NAME.PROOF: a name of 16 hexadecimal
digits, which the bench draws for each controller, and a proof that who asks knows the token, which itself never goes
over the network: the HMAC-SHA256, by the token, of `node I NAME` or of `kill NAME`. After `node` the connection is the
standard input and output of controller I; each name starts one controller alone. `kill` ends it by SIGKILL, and is
answered by `killed`. All else is answered by a line that begins with `agent: `.
"""
from __future__ import annotations

import contextlib
import dataclasses
import hashlib
import hmac
import os
import pathlib
import re
import socket
import subprocess
import threading
from collections.abc import Callable

from .json_text import printable
from .plan import WordsError

VARIABLE = "MAFT_AGENT_TOKEN"
LEAST_TOKEN = 16
LONGEST_REQUEST = 200
PATIENCE_SECONDS, LOOK_SECONDS = 10.0, 0.2
KILLED, GONE = b"killed\n", b"agent: no such controller runs\n"
_REQUEST = re.compile(rb"(?:node ([0-9]|1[0-5])|(kill)) ([0-9a-f]{16})\.([0-9a-f]{64})\n")


def address_of(text: str) -> tuple[str, int]:
    """The host and the port of HOST:PORT; a host in brackets may have colons. Raises WordsError for another text."""
    host, colon, port = text.rpartition(":")
    if not colon or not host or not port.isdecimal() or not 0 <= int(port) < 65536:
        raise WordsError(f"{printable(text)} is no HOST:PORT, as in 127.0.0.1:7001")
    return host.strip("[]"), int(port)


def token_of(path: str | None) -> str:
    """The token: what stands in a file, or else in the variable; raises WordsError where there is none, or a short
    one."""
    if path is not None:
        token, where = pathlib.Path(path).read_text(encoding="utf-8", errors="replace").strip(), printable(path)
    else:
        token, where = os.environ.get(VARIABLE, "").strip(), f"the variable {VARIABLE}"
    if len(token) < LEAST_TOKEN:
        raise WordsError(f"{where} has no token of at least {LEAST_TOKEN} characters, by which an agent knows its "
                         "bench")
    return token


def _proof(words: str, token: str) -> str:
    return hmac.new(token.encode(), words.encode(), hashlib.sha256).hexdigest()


def request(verb: str, name: str, token: str, node: int | None = None) -> bytes:
    """The first line of a connection."""
    words = verb if node is None else f"{verb} {node}"
    return f"{words} {name}.{_proof(f'{words} {name}', token)}\n".encode()


def _first_line(connection: socket.socket) -> bytes:
    """The first line, and not a byte more: what follows is the controller's."""
    line = b""
    while not line.endswith(b"\n") and len(line) < LONGEST_REQUEST:
        byte = connection.recv(1)
        if not byte:
            break
        line += byte
    return line


@dataclasses.dataclass
class Running:
    """A controller and its connection."""

    process: subprocess.Popen[bytes]
    connection: socket.socket

    def end(self) -> None:
        """Kills it, and ends its input."""
        self.process.kill()
        with contextlib.suppress(OSError):
            self.connection.shutdown(socket.SHUT_RDWR)
        self.process.wait()


class Agent:
    """The controllers that run for a bench. `say` is told who begins, is killed and ends."""

    def __init__(self, controller: str, token: str, say: Callable[[str], object]) -> None:
        self.controller, self.token, self.say = controller, token, say
        self.lock = threading.Lock()
        # the controllers that run, by name, and all names that there ever were
        self.running: dict[str, Running] = {}
        self.names: set[str] = set()
        # whether it is to end, and whether no controller begins any more
        self.is_stopped = self.is_over = False

    def stop(self, *_: object) -> None:
        """Has it end, as soon as it looks."""
        self.is_stopped = True

    def serve(self, connection: socket.socket) -> None:
        """Does what a connection asks for, to its end."""
        with connection, contextlib.suppress(OSError):
            connection.settimeout(PATIENCE_SECONDS)
            found = _REQUEST.fullmatch(_first_line(connection))
            refusal = self._refusal(found)
            if found is None or refusal is not None:
                self.say(f"refused a connection: {refusal}")
                connection.sendall(f"agent: {refusal}\n".encode())
            elif found[2]:
                self._kill(found[3].decode())
                connection.sendall(KILLED)
            else:
                connection.settimeout(None)
                self._run(connection, found[1].decode(), found[3].decode())

    def _refusal(self, found: re.Match[bytes] | None) -> str | None:
        """Why a request isn't done, None where it is; a name is taken by it."""
        if found is None:
            return "the first line is neither 'node I PASS' nor 'kill PASS'"
        node, kill, name, proof = ("" if it is None else it.decode() for it in found.groups())
        words = f"kill {name}" if kill else f"node {node} {name}"
        if not hmac.compare_digest(_proof(words, self.token), proof):
            return "the bench has another token"
        with self.lock:
            if kill:
                return None if name in self.running else "no such controller runs"
            if name in self.names:
                return "this name was used before"
            self.names.add(name)
        return None

    def _run(self, connection: socket.socket, node: str, name: str) -> None:
        """Runs a controller on a connection until it ends."""
        connection.setsockopt(socket.IPPROTO_TCP, socket.TCP_NODELAY, 1)
        connection.setsockopt(socket.SOL_SOCKET, socket.SO_KEEPALIVE, 1)
        try:
            # while it begins, nobody may look who runs
            with self.lock:
                if self.is_over:
                    return
                process = subprocess.Popen([self.controller, node], stdin=connection, stdout=connection,
                                           start_new_session=True)
                self.running[name] = Running(process, connection)
        except OSError as error:
            self.say(f"node {node}: the controller can't be run: {error.strerror}")
            connection.sendall(b"agent: the controller can't be run\n")
            return
        self.say(f"node {node} began")
        status = process.wait()
        with self.lock:
            self.running.pop(name, None)
        self.say(f"node {node} ended: " + (f"signal {-status}" if status < 0 else f"status {status}"))

    def _kill(self, name: str) -> None:
        with self.lock:
            running = self.running.get(name)
        if running is not None:
            running.end()

    def end(self) -> None:
        """Kills all that still run; none begins any more."""
        with self.lock:
            self.is_over = True
            names = list(self.running)
        for name in names:
            self._kill(name)


def listen(address: str) -> socket.socket:
    """A socket that listens; raises WordsError where it can't."""
    host, port = address_of(address)
    family = socket.AF_INET6 if ":" in host else socket.AF_INET
    try:
        return socket.create_server((host, port), family=family)
    except OSError as error:
        raise WordsError(f"can't listen on {printable(address)}: {error.strerror or error}") from None


def run(server: socket.socket, agent: Agent) -> None:
    """Serves connections, each by a thread of its own, until it is stopped; then nothing runs any more."""
    server.settimeout(LOOK_SECONDS)
    while not agent.is_stopped:
        with contextlib.suppress(socket.timeout):
            connection, _ = server.accept()
            threading.Thread(target=agent.serve, args=(connection,), daemon=True).start()
    agent.end()
