"""Finds the program and runs it."""
from __future__ import annotations

import contextlib
import json
import os
import pathlib
import shlex
import subprocess
import sys
from collections.abc import Iterator

from . import check, json_text, log
from .plan import INPUT_LIMIT, Json, WordsError

TOP = pathlib.Path(__file__).resolve().parents[2]
STATUSES = {
    2: "its words are none of its forms; a node is numbered from 0 to 15",
    5: "the input could not be read",
    6: "its output could not be written",
    7: "there was not enough memory",
    8: "the input is longer than 4,194,304 bytes",
}


def find(given: str | None) -> str:
    """The program's path: the one given, or that of the variable PROGRAM, or what the launcher answers with."""
    return _find(given, "PROGRAM", "--program", ["which"])


def find_controller(given: str | None) -> str:
    """The same of the program controller, whose variable is CONTROLLER."""
    return _find(given, "CONTROLLER", "--controller", ["which", "controller"])


def find_judge(given: str | None) -> str:
    """The same of the program judge, whose variable is JUDGE."""
    return _find(given, "JUDGE", "--judge", ["which", "judge"])


def _find(given: str | None, variable: str, option: str, words: list[str]) -> str:
    named = given or os.environ.get(variable)
    if named:
        if not os.path.isfile(named) or not os.access(named, os.X_OK):
            raise WordsError(f"there is no program {json_text.printable(named)}")
        # what was tested is what is run: a name without a slash would be looked for on the PATH
        return os.path.abspath(named)
    launcher = TOP / "maft"
    if not launcher.exists():
        raise WordsError(f"the launcher {launcher} isn't there: give the program by {option} or the variable "
                         f"{variable}")
    done = subprocess.run([str(launcher), *words], stdin=subprocess.DEVNULL, stdout=subprocess.PIPE)
    if done.returncode:
        raise WordsError("the launcher has no program; see what it says above")
    return os.fsdecode(done.stdout).removesuffix("\n")


def input_of(scenario: Json | str | bytes) -> bytes:
    """The program's input: a scenario given as an object, as its text, or as bytes."""
    if isinstance(scenario, bytes):
        return scenario
    text = scenario if isinstance(scenario, str) else json.dumps(scenario, separators=(",", ":"))
    return text.encode()


def run(program: str, words: list[str], scenario: Json | str | bytes) -> tuple[int, str]:
    """Status and output of the program on a scenario, or on a log."""
    try:
        done = subprocess.run([program, *words], input=input_of(scenario), capture_output=True)
    except OSError as error:
        raise WordsError(f"the program {json_text.printable(program)} can't be run: {error.strerror}") from None
    return done.returncode, done.stdout.decode(errors="replace")


def why_not(scenario: Json | str | bytes, words: list[str], status: int, out: str) -> str:
    """In words, why the program ended with a status other than 0 on this input."""
    if status in (3, 4):
        return check.explain(input_of(scenario), words, status, out.strip())
    return f"the program ended with {status}: {STATUSES.get(status, 'which is none of its statuses')}"


def run_well(program: str, words: list[str], scenario: Json | str | bytes) -> str:
    """The output; raises WordsError where the status isn't 0."""
    status, out = run(program, words, scenario)
    if status:
        what = "the log is " if words[:1] == ["node"] else "the scenario is "
        raise WordsError((what if status == 4 else "") + why_not(scenario, words, status, out))
    return out


def load_object(path: str) -> Json:
    """The object in a file, a scenario's or a log's, or in standard input for `-`."""
    data = json_text.bytes_of(path)
    if len(data) > INPUT_LIMIT:
        raise WordsError(f"{json_text.printable(path)} is longer than {INPUT_LIMIT} bytes, which is what the program "
                         "reads at most")
    try:
        scenario = json_text.read(data)
    except json_text.BrokenJson as error:
        raise WordsError(f"{json_text.printable(path)} is no JSON text: {error}") from None
    if not isinstance(scenario, dict):
        raise WordsError(f"{json_text.printable(path)} isn't a scenario, which is an object")
    return scenario


def load(path: str) -> Json:
    """The scenario in a file, or in standard input for `-`; raises WordsError for a log, with what sums that up."""
    scenario = load_object(path)
    if check.is_log(scenario):
        found = log.silent(scenario)
        node = str(found[0]) if found is not None and len(found) == 1 else "I"
        raise WordsError(
            f"{json_text.printable(path)} is the log of {'one node' if node == 'I' else f'node {node}'}, and no "
            "scenario; it is summed up by: "
            f"./maft node {node} < {shlex.quote(json_text.printable(path))} | tools/summary")
    return scenario


def byte_lines(path: str) -> Iterator[bytes]:
    """The lines of a file, one at a time, or of standard input for `-`.

    Raises WordsError where a line is longer than any that the program prints.
    """
    if path == "-" and sys.stdin is None:
        raise WordsError("standard input is closed")
    with contextlib.ExitStack() as stack:
        file = sys.stdin.buffer if path == "-" else stack.enter_context(open(path, "rb"))
        while True:
            line = file.readline(INPUT_LIMIT)
            if not line:
                return
            if len(line) == INPUT_LIMIT:
                raise WordsError(f"{json_text.printable(path)} has a line of {INPUT_LIMIT} bytes or more, which is no "
                                 "text of maft")
            yield line


def text_lines(path: str) -> Iterator[str]:
    """The lines of the file of a text, or of standard input for `-`.

    A byte that isn't UTF-8 stands as one that no text has.
    """
    for line in byte_lines(path):
        yield line.decode(errors="replace")
