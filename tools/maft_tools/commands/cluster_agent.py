"""Starts controllers of this machine for a tools/cluster on another one.

    tools/cluster-agent --listen 10.0.0.7:7001 --token-file token
    MAFT_AGENT_TOKEN=.. tools/cluster-agent                on 127.0.0.1:7001, for this machine alone

Who knows the token can start and kill controllers, and nothing else; what a controller and its bench say is not
encrypted. It belongs on a bench's own network. It prints the address that it listens on, says on standard error who
begins and ends, and ends itself, with all its controllers, by Ctrl-C or SIGTERM.
"""
from __future__ import annotations

import signal
import threading

from .. import agent, program
from . import parser, say

NAME = "cluster-agent"


def main() -> int:
    """The command."""
    options = parser(NAME, __doc__ or "")
    options.add_argument("--listen", default="127.0.0.1:7001", metavar="HOST:PORT",
                         help="where it listens (127.0.0.1:7001); port 0 takes a free one")
    options.add_argument("--token-file", metavar="FILE",
                         help=f"the file with the token; by default the variable {agent.VARIABLE}")
    options.add_argument("--controller", help="the program controller; by default the one that ./maft runs")
    options.add_argument("--quiet", action="store_true", help="don't say who begins and ends")
    given = options.parse_args()
    token, controller = agent.token_of(given.token_file), program.find_controller(given.controller)
    lock = threading.Lock()

    def told(words: str) -> None:
        if not given.quiet:
            with lock:
                say(NAME, words)

    made = agent.Agent(controller, token, told)
    # no exception, which might come anywhere
    for it in (signal.SIGTERM, signal.SIGINT):
        signal.signal(it, made.stop)
    with agent.listen(given.listen) as server:
        host, port = server.getsockname()[:2]
        print(f"listening on {f'[{host}]' if ':' in host else host}:{port}", flush=True)
        agent.run(server, made)
    told("stopped")
    return 130
