"""The statements of crates/*/specs and crates/*/proofs: a name, its type, and what stands below it as its proof.

A reading of the sources by their lines and words, without the toolchain. Two statements are the same where their types
are alike but for the names that these bind, and the names that they bring in come from the same crates. An answer to a
goal states nothing of its own.
"""
from __future__ import annotations

import collections
import dataclasses
import pathlib
import re
from typing import Dict, Iterator, List, Set, Tuple

import specs

HEAD = re.compile(r"^(?:pub )?(?P<name>[^\s:(){}]+) : (?P<type>.*)$")
WORD = re.compile(r"[^\s(){},;]+|[(){},;]")
NAME = re.compile(r"^[A-Za-z_α-ω][\w'\-]*$")
TOP_NAME = re.compile(r"^(?:(?:pub|abbrev|unfoldable|data|record)\s+)*(?P<name>[\w◌][^\s:(){}]*)")

# of each name that a type brings in, the crate it comes from
Origins = Tuple[Tuple[str, str], ...]


@dataclasses.dataclass(frozen=True)
class Statement:
    """One statement: where it stands, its name, and what two that say the same have in common."""

    crate: str
    file: str
    name: str
    meaning: Tuple[str, Origins]


def bound_in(words: List[str]) -> Set[str]:
    """The names that the words of a type bind: before a colon in brackets, and after a λ."""
    bound: Set[str] = set()
    for at, word in enumerate(words):
        if word in "({":
            end = at + 1
            while end < len(words) and NAME.match(words[end]):
                end += 1
            if end < len(words) and words[end] == ":":
                bound |= set(words[at + 1 : end])
        if word == "λ":
            end = at + 1
            while end < len(words) and NAME.match(words[end]):
                end += 1
            bound |= {it.rstrip(".") for it in words[at + 1 : end + 1]}
    return bound


def without_bound_names(text: str) -> str:
    """A type with the names that it binds numbered in the order in which they occur."""
    words = WORD.findall(text)
    bound = bound_in(words)
    numbers: Dict[str, str] = {}
    found = []
    for word in words:
        first, dot, rest = word.partition(".")
        if first in bound:
            first = numbers.setdefault(first, f"_{len(numbers)}")
        found.append(first + dot + rest)
    return " ".join(found)


def declared(text: str) -> Iterator[Tuple[str, str]]:
    """The names with their types that a file states and proves, each at the beginning of a line."""
    lines = text.split("\n")
    for at, line in enumerate(lines):
        found = HEAD.match(line)
        if not found or line.startswith("--"):
            continue
        end = at + 1
        while end < len(lines) and lines[end].startswith(" "):
            end += 1
        if end < len(lines) and lines[end].split(" ", 1)[0] == found["name"]:
            yield found["name"], " ".join([found["type"], *map(str.strip, lines[at + 1 : end])])


def origins(text: str, crate: str, names: specs.Names, own: Set[str]) -> Origins:
    """The crates from which the words of a type come, as far as it isn't the standard library."""
    found = set()
    for word in {it.split(".", 1)[0] for it in WORD.findall(text)}:
        if word in names.single:
            path, there = names.single[word]
            if path[0] != "std":
                found.add((there, path[0]))
        elif word in own:
            found.add((word, crate))
    return tuple(sorted(found))


def statements(crates: pathlib.Path) -> Iterator[Statement]:
    """All statements of a repository's crates."""
    for path in sorted([*crates.glob("*/specs/**/*.antt"), *crates.glob("*/proofs/**/*.antt")]):
        text = "\n".join(map(specs.without_comment, path.read_text(encoding="utf-8").split("\n")))
        file = path.relative_to(crates)
        names = specs.names_in(text)
        own = {found["name"] for line in text.split("\n") if (found := TOP_NAME.match(line))} - {"use"}
        for name, of_type in declared(text):
            if "goal." not in of_type:
                meaning = without_bound_names(of_type), origins(of_type, file.parts[0], names, own - {name})
                yield Statement(file.parts[0], file.as_posix(), name, meaning)


def standing_twice(crates: pathlib.Path, rows: Dict[str, List[str]]) -> Iterator[List[Statement]]:
    """The statements that stand in several crates, though one of these, or one below all of them, could have them."""
    alike: Dict[Tuple[str, Origins], List[Statement]] = collections.defaultdict(list)
    for it in statements(crates):
        alike[it.meaning].append(it)
    for found in alike.values():
        reached = [{it.crate, *rows.get(it.crate, [])} & rows.keys() for it in found]
        if len({it.crate for it in found}) > 1 and set.intersection(*reached):
            yield found
