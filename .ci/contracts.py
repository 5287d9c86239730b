"""Reads the functions of Rattle sources with their contracts. The scripts that read contracts share it."""
from __future__ import annotations

import re
from dataclasses import dataclass, field
from pathlib import Path
from typing import Iterator

NOT_CODE = re.compile(r"""//[^\n]*|/\*.*?\*/|(?<!\w)b?r(#*)".*?"\1|b?"(?:\\.|[^"\\])*"|'(?:\\(?:u\{[^}]*\}|x..|.)|[^'\\\n])'""", re.DOTALL)
HEAD = re.compile(r"(pub(?:\([^)]*\))?\s+)?((?:(?:unsafe|const(?=\s+(?:unsafe\s+)?fn\b)|async|ghost)\s+)*)"
                  r"(fn|struct|enum|union|trait|impl|mod|use|type|static|const|macro_rules!)?\s*(\w*)")
CLAUSE = re.compile(r"(requires|ensures|ghost)\b\s*(\w*)")
OPEN, CLOSE = "([{", ")]}"


@dataclass
class Clause:
    """A clause of a contract, `requires`, `ensures` or `ghost`; the name is empty where it has none."""
    word: str
    name: str
    start: int
    end: int


@dataclass
class Item:
    """A function, type, trait or impl. `public` is said of the word `pub` alone. An impl is named by its type, and `of` is its trait."""
    kind: str
    name: str
    public: bool
    module: tuple[str, ...]
    source: "Source"
    start: int
    of: str = ""
    clauses: list[Clause] = field(default_factory=list)
    items: list["Item"] = field(default_factory=list)

    def names(self, word: str) -> list[str]:
        return [clause.name for clause in self.clauses if clause.word == word]


@dataclass
class Source:
    """A file: its text, the same with comments and literals blanked out, its items, and what each module uses (whether it is public,
    its name here, and its path)."""
    path: Path
    text: str
    code: str
    items: list[Item] = field(default_factory=list)
    uses: dict[tuple[str, ...], list[tuple[bool, str, tuple[str, ...]]]] = field(default_factory=dict)

    def line(self, place: int) -> int:
        return self.text.count("\n", 0, place) + 1


def blank(found: re.Match[str]) -> str:
    return re.sub(r"[^\n]", " ", found[0])


def behind(code: str, place: int) -> int:
    """The place behind the bracket that closes the one at this place."""
    depth = 0
    for at in range(place, len(code)):
        if code[at] in OPEN:
            depth += 1
        elif code[at] in CLOSE:
            depth -= 1
            if depth == 0:
                return at + 1
    raise ValueError("a bracket that isn't closed")


def next_of(code: str, place: int, ends: str) -> int:
    """The place of the first of these characters outside of brackets."""
    while place < len(code) and code[place] not in ends:
        place = behind(code, place) if code[place] in OPEN else place + 1
    return place


def spaces(code: str, place: int) -> int:
    while place < len(code) and code[place].isspace():
        place += 1
    return place


def generics(code: str, place: int) -> int:
    """The place behind `<..>`, where that stands there."""
    if code[place:place + 1] != "<":
        return place
    depth = 0
    for at in range(place, len(code)):
        if code[at] == "<":
            depth += 1
        elif code[at] == ">" and code[at - 1] not in "-=":
            depth -= 1
            if depth == 0:
                return at + 1
    raise ValueError("generics that aren't closed")


def last_name(path: str) -> str:
    """The name of a type or trait: of `&mut a::Name<T>` that is `Name`."""
    return re.sub(r"<.*", "", path.strip().lstrip("&"), flags=re.DOTALL).strip().split("::")[-1].split(" ")[-1]


def paths_of(tree: str) -> Iterator[tuple[str, tuple[str, ...]]]:
    """What a `use` brings: each name with its path."""
    tree = " ".join(tree.split())
    if tree.endswith("}"):
        front, inner = tree[:-1].split("{", 1)
        depth, part = 0, ""
        for letter in inner + ",":
            depth += (letter == "{") - (letter == "}")
            if letter == "," and depth == 0:
                if part.strip():
                    yield from paths_of(front + part.strip())
                part = ""
            else:
                part += letter
        return
    path, _, name = tree.partition(" as ")
    steps = tuple(step for step in path.split("::") if step not in ("self", "crate"))
    yield name or steps[-1], steps


class Reader:
    """Reads the items of a file."""

    def __init__(self, source: Source) -> None:
        self.source = source
        self.code = source.code

    def contract(self, item: Item, place: int) -> int:
        """Reads a function from behind its name on, and gives the place behind it."""
        code = self.code
        place = generics(code, spaces(code, place))
        while place < len(code) and code[place] not in "{;" and not CLAUSE.match(code, place):
            if code[place] in OPEN:
                place = behind(code, place)
            else:
                word = re.compile(r"\w+|.", re.DOTALL).match(code, place)
                place = word.end() if word else place + 1
        while found := CLAUSE.match(code, spaces(code, place)):
            end = behind(code, code.index("{", found.end()))
            item.clauses.append(Clause(found[1], found[2], found.start(), end))
            place = end
        place = spaces(code, place)
        if code[place] not in "{;":
            raise ValueError(f"line {self.source.line(place)}: neither a clause nor a body")
        return behind(code, place) if code[place] == "{" else place + 1

    def members(self, place: int, end: int, module: tuple[str, ...]) -> list[Item]:
        """The items between these places, without those of tests; those of a module inside stand among them."""
        items: list[Item] = []
        while (place := spaces(self.code, place)) < end:
            attributes = place
            while self.code[place:place + 1] == "#":
                place = spaces(self.code, behind(self.code, self.code.index("[", place)))
            is_test = re.search(r"#\[(cfg\()?test\)?]", self.code[attributes:place])
            if place >= end:
                break
            item, place = self.item(place, module)
            if item and not is_test:
                items += item.items if item.kind == "mod" else [item]
        return items

    def item(self, place: int, module: tuple[str, ...]) -> tuple[Item | None, int]:
        """The item that stands there, if it is one that matters, and the place behind it."""
        code = self.code
        found = HEAD.match(code, place)
        assert found
        kind, ghost = found[3] or "", "ghost" in found[2]
        item = Item(kind, found[4], (found[1] or "").strip() == "pub", module, self.source, place)
        if kind == "fn":
            return item, self.contract(item, found.end())
        if kind in ("type", "static", "const", "use") or ghost:
            end = next_of(code, found.end(), ";")
            if kind == "use" and not ghost:
                brought = [(item.public, name, path) for name, path in paths_of(code[found.start(4):end])]
                self.source.uses.setdefault(module, []).extend(brought)
            item.kind = kind or "ghost"
            return item if item.kind in ("type", "ghost") else None, end + 1
        end = next_of(code, found.end(), "{;")
        inner, end = (end + 1, behind(code, end)) if code[end] == "{" else (end + 1, end + 1)
        if kind in ("trait", "impl", "mod"):
            if kind == "impl":
                head = code[found.start(4):inner - 1]
                of, _, name = re.split(r"\bwhere\b", head[generics(head, 0):])[0].rpartition(" for ")
                item.name, item.of = last_name(name), last_name(of)
            item.items = self.members(inner, end - 1, (*module, item.name) if kind == "mod" else module)
        return item if kind and kind != "macro_rules!" else None, end


def read_source(path: Path, module: tuple[str, ...]) -> Source:
    text = path.read_text(encoding="utf-8")
    source = Source(path, text, NOT_CODE.sub(blank, text))
    try:
        source.items = Reader(source).members(0, len(source.code), module)
    except (ValueError, AssertionError, IndexError) as error:
        raise SystemExit(f"{path}: not understood: {error}") from error
    return source


class Crate:
    """A crate's sources, and what it exports."""

    def __init__(self, folder: Path) -> None:
        self.name = folder.name
        self.folder = folder
        self.sources: list[Source] = []
        for path in sorted((folder / "src").rglob("*.rt")):
            module = path.relative_to(folder / "src").with_suffix("").parts
            self.sources.append(read_source(path, () if module in (("lib",), ("main",)) else module))
        self.items = [item for source in self.sources for item in source.items]
        self.uses: dict[tuple[str, ...], list[tuple[bool, str, tuple[str, ...]]]] = {}
        for source in self.sources:
            for module, brought in source.uses.items():
                self.uses.setdefault(module, []).extend(brought)

    def stands(self, name: str, module: tuple[str, ...]) -> Item | None:
        """The public item of this name in a module, also where the module has it from another module of the crate."""
        for item in self.items:
            if item.module == module and item.name == name and item.public and item.kind not in ("impl", "ghost"):
                return item
        for _, brought, path in self.uses.get(module, []):
            if brought == name and path[:-1] != module:
                for inner in (module + path[:-1], path[:-1]):
                    if found := self.stands(path[-1], inner) if inner != module else None:
                        return found
        return None

    def exported(self, name: str) -> Item | None:
        """What the crate exports under this name and has itself."""
        brought = any(public and it == name for public, it, _ in self.uses.get((), []))
        found = self.stands(name, ())
        return found if found and (brought or found.module == ()) else None

    def functions(self) -> Iterator[tuple[str, Item]]:
        """All functions of the crate with their full names, those of tests left out."""
        for item in self.items:
            if item.kind == "fn":
                yield item.name, item
            for inner in item.items:
                if inner.kind == "fn" and item.kind in ("trait", "impl"):
                    yield f"{item.name}::{inner.name}", inner


def read_crates(top: Path) -> dict[str, Crate]:
    folders = sorted(folder for folder in (top / "crates").iterdir() if (folder / "src").is_dir())
    return {folder.name: Crate(folder) for folder in folders}
