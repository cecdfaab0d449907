"""Writes rows to CSV files as they come, and reads back those that a run that was stopped has written.

A file begins with a line of the options, behind `# `, and one of the names of the columns. Beside FILE.csv with the
rows of runs stand FILE.illnesses.csv and, where the scenarios have clocks, FILE.skews.csv. What belongs to a run is
written before its own row.
"""
from __future__ import annotations

import csv
import dataclasses
import functools
import os
import pathlib
import stat
import sys
from collections.abc import Callable, Iterable, Iterator, Mapping
from typing import Any, TextIO, TypeVar

from .json_text import printable
from .plan import WordsError
from .rows import Illness, Judged, Run

T = TypeVar("T")
# what a column is called where the field can't have its name
NAMES = {"initial": "class"}
SKEWS = ("name", "case", "period", "skew")


def columns(kind: type) -> list[str]:
    """The names of the columns of a kind of row."""
    return [NAMES.get(it.name, it.name) for it in dataclasses.fields(kind)]


def shown(text: str) -> str:
    """A text from a file's name or a scenario, with escapes for what a terminal would act on."""
    return printable(text, 4000)


def cell(value: Any) -> str:
    """A value as a cell. A text that a spreadsheet would reckon with has a `'` before it."""
    if value is None:
        return ""
    if isinstance(value, bool):
        return "yes" if value else "no"
    return _text(value) if isinstance(value, str) else str(value)


@functools.lru_cache(maxsize=1024)
def _text(value: str) -> str:
    text = shown(value)
    return "'" + text if text[:1] in tuple("=+-@") and not text[1:].replace(".", "", 1).isdecimal() else text


def _value(text: str, kind: str) -> Any:
    """What a cell of a field of this type says; raises ValueError where it can't be one."""
    if kind == "str":
        return text[1:] if text[:1] == "'" and text[1:2] in tuple("=+-@") else text
    if kind == "bool":
        return {"yes": True, "no": False}[text]
    return None if text == "" and "None" in kind else int(text)


def _row(kind: type, cells: list[str]) -> Any:
    fields = dataclasses.fields(kind)
    if len(cells) < len(fields):
        raise ValueError("too few cells")
    return kind(*(_value(text, str(field.type)) for text, field in zip(cells, fields)))


def beside(path: str, what: str) -> str:
    """The name of the file for illnesses or skews, beside that for runs."""
    whole = pathlib.Path(path)
    return str(whole.with_name(f"{whole.stem}.{what}{whole.suffix}"))


def _is_device(path: str) -> bool:
    return path == "-" or os.path.exists(path) and not stat.S_ISREG(os.stat(path).st_mode)


class _Table:
    """One file: its first lines are written when it is opened, unless it goes on behind rows that it has."""

    def __init__(self, out: TextIO, names: list[str], first: str | None) -> None:
        self.out = out
        self.writer = csv.writer(out, lineterminator="\n")
        if first is not None:
            out.write(first + "\n")
            self.writer.writerow(names)
            out.flush()

    def write(self, rows: Iterable[list[str]]) -> None:
        """Some rows, which are at the device when this returns."""
        self.writer.writerows(rows)
        self.out.flush()


def _run_of(cells: list[str]) -> Run:
    run: Run = _row(Run, cells)
    return run


def _illness_of(cells: list[str]) -> Illness:
    illness: Illness = _row(Illness, cells)
    return illness


class _Written:
    """A file of rows that were written, read from its front: up to `size` they are taken. Raises WordsError where it
    isn't a file of these options and columns, or has a line that is no row; one that is cut short isn't read."""

    def __init__(self, path: str, first: str, names: list[str]) -> None:
        self.path = path
        try:
            self.file = open(path, "rb")
            lines = [self.file.readline().decode("utf-8") for _ in range(2)]
        except (OSError, ValueError):
            raise WordsError(f"{path} can't be read, so nothing can go on behind it") from None
        if lines[0] != first + "\n":
            raise WordsError(f"{path} has rows of other options, or none: its first line isn't '{first}'")
        if list(csv.reader(lines[1:])) != [names]:
            raise WordsError(f"{path} has other columns")
        self.size = self.file.tell()
        self.line = self.file.readline()

    def _take(self, row_of: Callable[[list[str]], T], run: Run | None) -> T | None:
        """The next row, which is of this run if one is given; None where there is none."""
        if not self.line.endswith(b"\n"):
            return None
        try:
            cells = next(csv.reader([self.line.decode("utf-8")]))
            if run is not None and (_value(cells[0], "str"), _value(cells[1], "str")) != (run.name, run.case):
                return None
            row = row_of(cells)
        except (ValueError, KeyError, IndexError, StopIteration):
            raise WordsError(f"{self.path} has a line that is no row: {self.line[:80]!r}") from None
        self.size += len(self.line)
        self.line = self.file.readline()
        return row

    def all(self, row_of: Callable[[list[str]], T]) -> Iterator[T]:
        """The rows that are left."""
        while (row := self._take(row_of, None)) is not None:
            yield row

    def of(self, run: Run, row_of: Callable[[list[str]], T]) -> Iterator[T]:
        """The next rows, as far as they are of a run."""
        while (row := self._take(row_of, run)) is not None:
            yield row

    def cut(self) -> None:
        """Cuts the file behind what was taken."""
        self.file.close()
        os.truncate(self.path, self.size)


class Tables:
    """Where rows go: FILE and what stands beside it, or standard output for `-`, which has the rows of runs alone, as
    a device has."""

    def __init__(self, path: str, options: str, extra: list[str]) -> None:
        self.path, self.first = path, "# " + options
        self.is_alone = _is_device(path)
        self.extra = extra
        self.open_files: list[_Table] = []
        self.skews: _Table | None = None

    def start(self) -> None:
        """Opens the files anew; raises OSError where one can't be written."""
        self.runs = self._open(self.path, [*columns(Run), *self.extra], "w")
        if not self.is_alone:
            self.illnesses = self._open(beside(self.path, "illnesses"), columns(Illness), "w")
            if os.path.exists(beside(self.path, "skews")):
                os.remove(beside(self.path, "skews"))

    def resume(self) -> Iterator[Judged]:
        """The rows that the files have, run by run, behind which they go on; raises WordsError where they aren't of
        these options."""
        if self.is_alone:
            raise WordsError("resume needs csv with a file that has the rows so far")
        if not os.path.exists(self.path):
            self.start()
            return
        runs = _Written(self.path, self.first, [*columns(Run), *self.extra])
        illnesses = _Written(beside(self.path, "illnesses"), self.first, columns(Illness))
        has_skews = os.path.exists(beside(self.path, "skews"))
        skews = _Written(beside(self.path, "skews"), self.first, list(SKEWS)) if has_skews else None
        for run in runs.all(_run_of):
            judged = Judged(run, list(illnesses.of(run, _illness_of)))
            if skews is not None:
                judged.skews += [skew for skew, in skews.of(run, lambda cells: (_value(cells[3], "int | None"),))]
            yield judged
        for it in (runs, illnesses, skews):
            if it is not None:
                it.cut()
        self.runs, self.illnesses = self._open(runs.path, [], "a"), self._open(illnesses.path, [], "a")
        self.skews = self._open(skews.path, [], "a") if skews is not None else None

    def _open(self, path: str, names: list[str], mode: str) -> _Table:
        out = sys.stdout if path == "-" else open(path, mode, newline="", encoding="utf-8")
        table = _Table(out, names, self.first if mode == "w" else None)
        self.open_files.append(table)
        return table

    def write(self, judged: Judged, values: Mapping[str, str]) -> None:
        """The rows of a scenario; `values` are those of the further columns."""
        if not self.is_alone:
            self.illnesses.write(map(cells, judged.illnesses))
            if judged.skews:
                self._write_skews(judged)
        self.runs.write([[*cells(judged.run), *(cell(values.get(it, "")) for it in self.extra)]])

    def _write_skews(self, judged: Judged) -> None:
        if self.skews is None:
            self.skews = self._open(beside(self.path, "skews"), list(SKEWS), "w")
        names = [cell(judged.run.name), cell(judged.run.case)]
        self.skews.write([*names, str(period), cell(skew)] for period, skew in enumerate(judged.skews))

    def close(self) -> None:
        """Lets go of the files."""
        for table in self.open_files:
            if table.out is not sys.stdout:
                table.out.close()


def cells(row: Run | Illness) -> list[str]:
    """A row's cells."""
    return ["" if it is None else str(it) if it.__class__ is int else cell(it) for it in vars(row).values()]

