"""What one node makes of the relayed items of a period: what it heard by path, what it should have, how it settles.

The rules stand in docs/PROTOCOL.md, sections 3 and 4. A value is a number as in the module `frames`.
"""
from __future__ import annotations

import dataclasses
from collections import Counter

from .frames import Path, fault, paths, unwrapped, wrapped


@dataclasses.dataclass
class Heard:
    """Claims or rows as a node heard them. `own` is what it said itself, None where that is nothing or isn't known."""

    node: int
    members: Path
    m: int
    is_full: bool
    own: int | None
    told: dict[Path, int] = dataclasses.field(default_factory=dict)
    _settled: dict[Path, int] = dataclasses.field(default_factory=dict)

    def take(self, sender: int, length: int, entries: Path | None) -> None:
        """Notes what a member's frame of a round says, None where it wasn't well."""
        if sender not in self.members:
            return
        for at, path in enumerate([()] if length == 0 else paths(self.members, sender, length)):
            self.told[(*path, sender)] = fault(0) if entries is None else entries[at]

    def of(self, path: Path) -> int | None:
        """What it heard for a path, or said itself for one that ends with it; None where that isn't known."""
        if path[-1] != self.node:
            return self.told.get(path, fault(0))
        if not self.is_full:
            return fault(0)
        if len(path) == 1:
            return self.own
        before = self.of(path[:-1])
        return None if before is None else wrapped(before)

    def differing(self, sender: int, length: int) -> list[tuple[Path, int, int]]:
        """The entries of a member's relay frame that differ from what the path's last node said here.

        Each is the path, the entry, and that wrapped.
        """
        found = []
        for path in paths(self.members, sender, length):
            entry, here = self.told[(*path, sender)], self.of(path)
            if here is not None and entry != wrapped(here):
                found.append((path, entry, wrapped(here)))
        return found

    def places(self, path: Path) -> dict[int, int]:
        """What stands at the places of the majority for a path that is shorter than m + 1, by node."""
        found = {}
        for node in self.members:
            if node in path:
                continue
            if node == self.node:
                heard = self.of(path)
                found[node] = wrapped(fault(0) if heard is None else heard) if self.is_full else fault(0)
            else:
                found[node] = self.settled((*path, node))
        return found

    def settled(self, path: Path) -> int:
        """What it settles for a path of others."""
        if len(path) == self.m + 1:
            return self.told.get(path, fault(0))
        if path not in self._settled:
            there = Counter(it for it in self.places(path).values() if it != fault(0))
            value, count = there.most_common(1)[0] if there else (fault(1), 0)
            self._settled[path] = unwrapped(value) if 2 * count > sum(there.values()) else unwrapped(fault(1))
        return self._settled[path]

    def conviction(self, accused: int) -> Conviction | None:
        """Whom the relays of round 1 say to have told others something else; None where the node isn't convicted."""
        if self.m < 1 or accused == self.node or accused not in self.members:
            return None
        here = wrapped(self.told.get((accused,), fault(0)))
        relays = {it: self.told.get((accused, it), fault(0)) for it in self.members if it not in (accused, self.node)}
        relays = {it: value for it, value in relays.items() if value != fault(0)}
        voices = len(relays) + (self.is_full and self.node in self.members)
        tolerated = max(0, voices - self.m) // 2
        otherwise = [it for it, value in relays.items() if value != here]
        return Conviction(accused, otherwise, voices, tolerated) if len(otherwise) > tolerated else None


@dataclasses.dataclass
class Conviction:
    """Who is convicted, by whose relays, of how many voices, and how many of these are tolerated."""

    accused: int
    relays: list[int]
    voices: int
    tolerated: int
