"""Controllers as their bench sees them: a wire to each, by which it is told lines and its answers come back.

A controller runs on this machine, or is started by an agent (the module `agent`) of another one. Either way its
standard input and output are the two directions of one socket.
"""
from __future__ import annotations

import collections
import contextlib
import dataclasses
import os
import signal
import socket
import subprocess
from collections.abc import Callable

from . import agent
from .json_text import printable
from .plan import WordsError

PATIENCE_SECONDS = 20.0
STATUSES = {
    0: "its input was not over",
    2: "its words are no number of a node",
    3: "the scenario is no JSON text",
    4: "it refused what it was told",
    5: "it could not read its input",
    6: "it could not write its answer",
    7: "there was not enough memory",
    8: "a line was too long",
}
RULES = {
    16: "there is no such node",
    20: "it is no event of this cluster",
    21: "it isn't allowed where it comes",
    22: "the input ends while a slot is open",
}


_NAMES = {int(it): it.name for it in signal.Signals}


@dataclasses.dataclass(frozen=True)
class Life:
    """How a controller is killed (SIGKILL), and what is known of its end: its status, negative for a signal, if any."""

    kill: Callable[[], None]
    status: Callable[[], int | None]


class Wire:
    """The bench's end of a controller."""

    def __init__(self, name: str, channel: socket.socket, life: Life) -> None:
        self.name, self._channel, self._life = name, channel, life
        self._ready: collections.deque[bytes] = collections.deque()
        self._rest = b""
        channel.settimeout(PATIENCE_SECONDS)

    def tell(self, told: bytes) -> None:
        """Hands the controller some lines. Where it ended, that is seen when its answer is read."""
        with contextlib.suppress(OSError):
            self._channel.sendall(told)

    def line(self) -> bytes:
        """The next line that it writes, without the line feed; raises WordsError where none comes."""
        if not self._ready:
            self._receive()
        return self._ready.popleft()

    def answer(self, *heads: bytes) -> bytes:
        """The next line, which must begin with one of these; raises WordsError where another comes."""
        line = self.line()
        if not line.startswith(heads):
            raise WordsError(f"{self.name} {self._strange(line, heads[0])}")
        return line

    def _receive(self) -> None:
        """Waits for at least one whole line."""
        parts = [self._rest]
        while b"\n" not in parts[-1]:
            try:
                got = self._channel.recv(1 << 16)
            except socket.timeout:
                raise WordsError(f"{self.name} gave no answer in {PATIENCE_SECONDS:g} seconds") from None
            except OSError:
                got = b""
            if not got:
                raise WordsError(f"{self.name} {self._ended()}")
            parts.append(got)
        *lines, self._rest = b"".join(parts).split(b"\n")
        self._ready.extend(lines)

    def _strange(self, line: bytes, head: bytes) -> str:
        said = printable(line.decode(errors="replace"), 80)
        words = said.split(" ")
        if words[0] == "agent:":
            return f"wasn't started; the agent says: {said[7:]}"
        if words[0] == "refused" and len(words) == 3 and words[1].isdecimal():
            why = RULES.get(int(words[1]), "the scenario breaks this rule")
            return f"refused line {words[2]} of what it was told: {why} ({said})"
        return f"answered '{said}', where '{head.decode().strip()} ..' was expected"

    def _ended(self) -> str:
        """How it ended, behind its name."""
        status = self._life.status()
        if status is None:
            return "ended before its answer"
        if status < 0:
            return f"was ended by {_NAMES.get(-status, f'signal {-status}')}"
        return f"ended with status {status}: {STATUSES.get(status, 'which is none of its own')}"

    def _is_over(self) -> bool:
        """Whether it says no more; where it lives on, it is waited for."""
        try:
            return not self._ready and not self._rest and not self._channel.recv(1)
        except socket.timeout:
            return False
        except OSError:
            return True

    def kill(self) -> None:
        """Ends it at once, whatever it does; raises WordsError where that can't be."""
        self._life.kill()
        self._channel.close()

    def close(self) -> None:
        """Leaves it, and ends it as far as that can be."""
        with contextlib.suppress(WordsError):
            self._life.kill()
        self._channel.close()

    def end_input(self) -> None:
        """Tells it that no more comes."""
        with contextlib.suppress(OSError):
            self._channel.shutdown(socket.SHUT_WR)

    def finish(self, head: bytes) -> bytes:
        """Its last line, which must begin so, once no more comes; raises WordsError for another, or another status."""
        self.end_input()
        line = self.answer(head)
        if not self._is_over():
            raise WordsError(f"{self.name} says more behind its last line")
        status = self._life.status()
        self._channel.close()
        if status:
            raise WordsError(f"{self.name} ended with status {status} behind its last line")
        return line


# starts the controller of a node
Start = Callable[[int], Wire]


def local(path: str) -> Start:
    """Starts controllers on this machine."""
    def start(node: int) -> Wire:
        ours, theirs = socket.socketpair()
        with theirs:
            try:
                process = subprocess.Popen([path, str(node)], stdin=theirs, stdout=theirs, start_new_session=True)
            except OSError as error:
                raise WordsError(f"the controller {printable(path)} can't be run: {error.strerror}") from None

        def kill() -> None:
            process.kill()
            process.wait()

        def status() -> int | None:
            try:
                return process.wait(PATIENCE_SECONDS)
            except subprocess.TimeoutExpired:
                return None

        return Wire(f"the controller of node {node}", ours, Life(kill, status))
    return start


def _connect(address: str) -> socket.socket:
    host, port = agent.address_of(address)
    try:
        made = socket.create_connection((host, port), PATIENCE_SECONDS)
    except OSError as error:
        raise WordsError(f"no agent answers at {printable(address)}: {error.strerror or error}") from None
    made.setsockopt(socket.IPPROTO_TCP, socket.TCP_NODELAY, 1)
    return made


def by_agents(addresses: list[str], token: str) -> Start:
    """Starts controllers by agents, by turns: node i by that of number i mod their count."""
    def start(node: int) -> Wire:
        address, name = addresses[node % len(addresses)], os.urandom(8).hex()
        channel = _connect(address)
        channel.sendall(agent.request("node", name, token, node))

        def kill() -> None:
            with _connect(address) as other:
                other.sendall(agent.request("kill", name, token))
                said = other.recv(200)
            if said not in (agent.KILLED, agent.GONE):
                raise WordsError(f"the agent at {printable(address)} did not kill node {node}: "
                                 f"{printable(said.decode(errors='replace').strip())}")

        return Wire(f"the controller of node {node} at {printable(address)}", channel, Life(kill, lambda: None))
    return start
