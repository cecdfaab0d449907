"""The definitions of crates/*/specs: which of them a contract reaches, and which crates a crate's files name.

A reading of the sources by their lines and words, without the toolchain. A definition is an item of a specs/*.antt
file, or a public type of an .rt file, which clauses see. What it names is found by the lines that bring names in; a
name that a file doesn't bring in is its own.
"""
from __future__ import annotations

import dataclasses
import pathlib
import re
from typing import Dict, Iterable, Iterator, List, Optional, Sequence, Set, Tuple

WORD = r"[^\s(){},;.λ:\[\]=]+"
HEAD = re.compile(rf"^\s*(?:(?:abbrev|unfoldable)(?: pub)?\s+(?P<short>{WORD})\s*:"
                  rf"|(?:pub )?(?P<shape>record|data)\s+(?P<long>{WORD})(?=[\s:]))")
LEMMA = re.compile(rf"^\s*pub\s+(?P<name>{WORD})\s+:\s")
IMPORT = re.compile(r"^\s*(?:pub\s+|ghost\s+)?use\s+Rattle\.(?P<path>[\w.\-]+?)(?:\.\{(?P<names>[^}]*)\})?"
                    r"(?:\s+as\s+(?P<alias>\w+))?\s*;?\s*$", re.M)
TOKEN = re.compile(r"[^\s(){},;\[\]→×⊎λ]+")
TYPE = re.compile(r"^pub(?:\([a-z]+\))?\s+(?:struct|enum|trait|type)\s+(\w+)")
SKIPPED = re.compile(r"^(?:pub )?use |^pub mod |^infix|^unfolding |^syntax |^\s*module ")

# the function that each program is about, the headline's first
TOP_CALLS = ("maft", "control", "judge")

Path = Tuple[str, ...]


@dataclasses.dataclass(eq=False)
class Definition:
    """One definition: where it stands, its lines without comments and blanks, and the comment before it."""

    crate: str
    file: str
    name: str
    is_type: bool
    comment: str = ""
    lines: List[str] = dataclasses.field(default_factory=list)
    names: Set["Definition"] = dataclasses.field(default_factory=set)

    @property
    def place(self) -> str:
        """Its file as docs/DEFINITIONS.md writes it."""
        return f"{self.crate}/{self.file}"


@dataclasses.dataclass
class Names:
    """What a text brings in: names with the module and the name there, and modules by a name of their own."""

    single: Dict[str, Tuple[Path, str]]
    modules: Dict[str, Path]


def without_comment(line: str) -> str:
    """The line before its comment."""
    return line.split("--", 1)[0]


def names_in(text: str) -> Names:
    """The names that the lines of a text bring in."""
    names = Names({}, {})
    for found in IMPORT.finditer(text):
        path = tuple(found["path"].strip(".").split("."))
        if found["names"] is None:
            names.modules[found["alias"] or path[-1]] = path
            continue
        for word in filter(None, map(str.strip, found["names"].split(","))):
            there, _, here = word.partition(" as ")
            names.single[here.strip() or there] = (path, there.strip())
    return names


class Specs:
    """All definitions of a repository."""

    def __init__(self, top: pathlib.Path) -> None:
        self.crates = top / "crates"
        self.files: Dict[Tuple[str, str], Dict[str, Definition]] = {}
        self.brought: Dict[Tuple[str, str], Names] = {}
        self.types: Dict[Tuple[str, str], Definition] = {}
        self._sources: Dict[pathlib.Path, str] = {}
        for path in sorted(self.crates.glob("*/specs/*.antt")):
            self._read_specs(path)
        for path in sorted(self.crates.glob("*/src/**/*.rt")):
            self._read_types(path)
        for key, own in self.files.items():
            for it in own.values():
                it.names = set(self._named(it.lines, own, self.brought[key])) - {it}
        for path, source in self._sources.items():
            self._link_types(path, source)

    def _read_specs(self, path: pathlib.Path) -> None:
        text = path.read_text(encoding="utf-8")
        key = path.parts[-3], path.stem
        own = self.files.setdefault(key, {})
        self.brought[key] = names_in(text)
        now: Optional[Definition] = None
        before: List[str] = []
        for line in text.split("\n"):
            bare = without_comment(line)
            if line.strip().startswith("--"):
                before.append(line.strip().lstrip("- "))
                continue
            if SKIPPED.match(line):
                now, before = None, []
                continue
            name = self._begins(bare, now)
            if name:
                now = own.setdefault(name, Definition(key[0], key[1], name, False, " ".join(before)))
            if bare.strip():
                before = []
                if now:
                    now.lines.append(bare.rstrip())

    @staticmethod
    def _begins(line: str, now: Optional[Definition]) -> Optional[str]:
        """The name of the definition that begins in this line, if one does. A field of a record isn't one."""
        found = HEAD.match(line)
        if found:
            return found["short"] or found["long"]
        lemma = LEMMA.match(line)
        in_record = now is not None and re.match(r"\s*(?:pub )?(?:record|data)\b", now.lines[0] if now.lines else "")
        return lemma["name"] if lemma and not in_record else None

    def _read_types(self, path: pathlib.Path) -> None:
        source = path.read_text(encoding="utf-8")
        self._sources[path] = source
        crate, lines = path.relative_to(self.crates).parts[0], source.split("\n")
        for at, line in enumerate(lines):
            found = TYPE.match(line)
            if not found:
                continue
            end = at
            while end < len(lines) and not re.match(r"^}", lines[end]) and not lines[end].rstrip().endswith(";"):
                end += 1
            body = lines[at : end + 1]
            model = re.search(rf"^impl<?[^\n]*?Model for {found[1]}\b.*?^}}", source, re.M | re.S)
            body += [it for it in (model[0].split("\n") if model else []) if "ghost use" not in it]
            kept = [it for it in body if it.strip() and not it.strip().startswith("//")]
            self.types.setdefault((crate, found[1]), Definition(crate, path.stem, found[1], True, "", kept))

    def _link_types(self, path: pathlib.Path, source: str) -> None:
        crate = path.relative_to(self.crates).parts[0]
        own = {name: it for (other, name), it in self.types.items() if other == crate}
        brought = names_in(source)
        plain = {name: self.types[key] for name, key in self._plain_uses(source, crate) if key in self.types}
        for it in own.values():
            if it.file != path.stem:
                continue
            it.names |= set(self._named(it.lines, own, brought)) - {it}
            words = {word for line in it.lines if "ghost" not in line
                     for word in re.findall(r"\w+", line.split("//")[0])}
            it.names |= {plain[word] for word in words & plain.keys()} - {it}

    @staticmethod
    def _plain_uses(source: str, crate: str) -> Iterator[Tuple[str, Tuple[str, str]]]:
        """The names that code brings in by `use`, each with the crate and the name there."""
        for found in re.finditer(r"^(?:pub )?use (\w+)(?:::\w+)*::(?:\{([^}]*)\}|(\w+));", source, re.M):
            for word in (found[2] or found[3]).split(","):
                name = word.strip().split("::")[-1]
                yield name, (crate if found[1] == "crate" else found[1], name)

    def resolve(self, path: Path, name: str) -> Optional[Definition]:
        """The definition of this name in a module, followed through modules that pass it on."""
        if len(path) < 3 or not (self.crates / path[0]).is_dir():
            return None
        if path[1:3] == ("specs", "declared"):
            words = [name, *(it for it in reversed(path[3:]) if it != "TheVariants")]
            return next((self.types[(path[0], it)] for it in words if (path[0], it) in self.types), None)
        own = self.files.get((path[0], path[2]))
        if own is not None:
            if len(path) > 3:
                return own.get(path[3]) or own.get(name)
            brought = self.brought[(path[0], path[2])].single.get(name)
            return own.get(name) or (self.resolve(*brought) if brought else None)
        passed = self.brought.get((path[0], "Lib"))
        on = passed.modules.get(path[2]) if passed else None
        return self.resolve(on + path[3:], name) if on and on != path else None

    def _named(self, lines: Iterable[str], own: Dict[str, Definition], names: Names) -> Iterator[Definition]:
        for token in {token for line in lines for token in TOKEN.findall(without_comment(line))}:
            first, _, rest = token.partition(".")
            for part in {token.rstrip(":;"), first.rstrip(":;")}:
                if part in own:
                    yield own[part]
                elif part in names.single:
                    found = self.resolve(*names.single[part])
                    if found:
                        yield found
            if rest and first in names.modules:
                found = self.resolve(names.modules[first], rest.split(".")[0])
                if found:
                    yield found

    def of_contract(self, source: str, function: str = "") -> Set[Definition]:
        """The definitions that clauses name: those of one function, or all clauses and ghost items of a source."""
        if function:
            found = re.search(rf"pub fn {function}\b.*?\n{{", source, re.S)
            text = found[0] if found else ""
        else:
            text = "\n".join(clauses_of(source))
        return set(self._named(text.split("\n"), {}, names_in(source)))

    def reach(self, roots: Iterable[Definition]) -> Set[Definition]:
        """These definitions and all that they name, and so on."""
        seen: Set[Definition] = set()
        left = list(roots)
        while left:
            it = left.pop()
            if it not in seen:
                seen.add(it)
                left.extend(it.names)
        return seen

    def top_call(self, function: str = TOP_CALLS[0]) -> Set[Definition]:
        """What the contract of a top call reaches: nothing, where there is no such call."""
        for source in self._sources.values():
            if re.search(rf"^pub fn {function}\b", source, re.M):
                ends = {self.types[key] for key in (("span_io", "Source"), ("span_io", "Sink")) if key in self.types}
                return self.reach(self.of_contract(source, function) | ends)
        return set()

    def top_calls(self) -> Set[Definition]:
        """What the contracts of all top calls reach."""
        return set().union(*(self.top_call(function) for function in TOP_CALLS))

    def cited(self) -> Set[Definition]:
        """What the contracts of public functions cite."""
        found: Set[Definition] = set()
        for source in self._sources.values():
            for function in public_contracts(source):
                found |= set(self._named(function.split("\n"), {}, names_in(source)))
        return found


def clauses_of(source: str) -> Iterator[str]:
    """The text of each clause and ghost item of a source."""
    kept = "\n".join(line for line in source.split("\n") if not line.strip().startswith("//")
                     and "ghost use" not in line)
    for found in re.finditer(r"\b(?:requires|ensures|invariant|decreases)\*?(?:\s+\w+)?\s*\{|\bghost\s+\w+\s*[=:]\s*\{",
                             kept):
        at, depth = found.end(), 1
        while at < len(kept) and depth:
            depth += {"{": 1, "}": -1}.get(kept[at], 0)
            at += 1
        yield kept[found.end() : at - 1]


def end_of_contract(source: str, at: int) -> int:
    """Where the contract of a function ends that begins before this place: at its body, or at the `;` in its place."""
    depth = 0
    while at < len(source):
        letter = source[at]
        if letter == "{" and depth == 0:
            before = source[source.rfind("\n", 0, at) + 1 : at]
            if not re.search(r"\b(?:requires|ensures|invariant|decreases|ghost)\b", before):
                return at
        elif letter == ";" and depth == 0:
            return at
        depth += {"(": 1, "[": 1, "{": 1, ")": -1, "]": -1, "}": -1}.get(letter, 0)
        at += 1
    return at


def public_contracts(source: str) -> Iterator[str]:
    """The clauses of each public function of a source."""
    for found in re.finditer(r"^ *pub fn ", source, re.M):
        yield "\n".join(clauses_of(source[found.start() : end_of_contract(source, found.end())]))


def rows_of(text: str) -> Dict[str, List[str]]:
    """The rows of crates.txt: each crate with the names in its row."""
    rows = {}
    for line in text.split("\n"):
        name, colon, rest = line.split("#", 1)[0].partition(":")
        if colon:
            rows[name.split()[0]] = rest.split()
    return rows


def crates_named(folder: pathlib.Path) -> Set[str]:
    """The crates that the files of a crate name, in clauses, proofs and code. A module of its own isn't one."""
    found: Set[str] = set()
    called: Set[str] = set()
    modules: Set[str] = set()
    for path in sorted(folder.glob("*/**/*")):
        if path.suffix not in (".rt", ".antt") or path.relative_to(folder).parts[0] not in ("src", "specs", "proofs"):
            continue
        text = path.read_text(encoding="utf-8")
        if path.suffix == ".rt":
            text = re.sub(r"//[^\n]*", "", text)
            called |= set(re.findall(r"\b(\w+)::", text))
            modules |= set(re.findall(r"\bmod (\w+);", text))
        else:
            text = "\n".join(map(without_comment, text.split("\n")))
        found |= set(re.findall(r"\bRattle\.(\w+)", text))
    return found | (called - modules)


def in_order(found: Iterable[Definition]) -> Sequence[Definition]:
    """Definitions in the order of crates, files and lines."""
    return sorted(found, key=lambda it: (it.crate, it.file, it.name))
