#!/usr/bin/env python3
"""Makes the tables of docs/PROOFS.md from docs/promises.txt and from the contracts in the crates' sources.

    .ci/proofs_tables.py [--check] [TOP]

It writes each table into the page, between `<!-- table NAME -->` and `<!-- end -->`. With --check it writes nothing. TOP is the
repository's top, if it isn't the one that this script stands in. What is wrong is told line by line, and the status is then 1:

  - a call, a clause, a field or a definition that isn't in the sources, a call that its crate doesn't export, or of another crate;
  - a clause of `eql_main` that no row names;
  - a row of the page that is wider than 200 columns;
  - with --check, a page that isn't what would be written.

docs/promises.txt has the promises as people write them. `== NAME: COLUMN | COLUMN ..` begins a table; the columns `call`, `law`,
`clauses`, `clause` and `crate` are made, and each other one is text. Blank lines stand between promises. Of a promise, a line at the
margin is a row's text (the texts of several columns stand behind each other with ` | `), and an indented one is one of these:

    by DEFINITIONS          on which definitions it stands, each name in backquotes, with the file in brackets behind: (Chains) is
                            specs/Chains.antt of the promise's crate, (eql_values: Chains) that of another, (src/run.rt) a source
    not WHAT                what isn't claimed
    CRATE CALL, ..: CLAUSE, ..
                            the calls that carry it, and which of their clauses say so; (FIELD, ..) behind a clause names fields of
                            its record. Without clauses it is the whole contract, which is written out. A CALL is `name`,
                            `Type::name`, `Trait::name`, a `Trait` for its laws, `Trait .. of Type ..` for impls, `Trait of *`
                            for those of all exported types, or a file `specs/NAME.antt` with theorems
"""
from __future__ import annotations

import re
import sys
from dataclasses import dataclass, field
from pathlib import Path

sys.dont_write_bytecode = True
from contracts import Crate, Item, read_crates  # noqa: E402

WIDEST = 200
HEADLINE = ("eql_cli", "eql_main")
MADE = {"call": "call", "law": "call", "clauses": "clauses", "clause": "clauses", "crate": "crate"}
LIST, PAGE = "docs/promises.txt", "docs/PROOFS.md"
RECORD = re.compile(r"^( *)pub record (\w+)\b(.*(?:\n(?:\1 +.*| *))*)", re.MULTILINE)


class Wrong(Exception):
    """Something named that isn't so."""


@dataclass
class Carried:
    """What carries a promise: calls of a crate, and their clauses, with fields."""
    crate: str
    calls: list[str]
    clauses: list[tuple[str, list[str]]]


@dataclass
class Promise:
    line: int
    texts: list[list[str]] = field(default_factory=list)
    by: list[str] = field(default_factory=list)
    but: list[str] = field(default_factory=list)
    carried: list[Carried] = field(default_factory=list)


@dataclass
class Table:
    name: str
    columns: list[str]
    promises: list[Promise] = field(default_factory=list)


def carried_of(text: str) -> Carried:
    crate, _, rest = text.partition(" ")
    calls, _, clauses = rest.partition(": ")
    named = []
    for clause in re.findall(r"[^,()]+(?:\([^()]*\))?", clauses):
        name, _, fields = clause.strip().partition(" (")
        named.append((name, [one.strip() for one in fields.rstrip(")").split(",")] if fields else []))
    return Carried(crate, [call.strip() for call in calls.split(",")], named)


def read_list(text: str) -> list[Table]:
    tables: list[Table] = []
    promise: Promise | None = None
    for number, line in enumerate(text.split("\n"), 1):
        if line.startswith("--"):
            continue
        if line.startswith("== "):
            name, _, columns = line[3:].partition(": ")
            tables.append(Table(name, columns.split(" | ")))
            promise = None
        elif not line.strip():
            promise = None
        else:
            if not tables:
                raise Wrong(f"line {number}: stands in no table")
            if promise is None:
                promise = Promise(number)
                tables[-1].promises.append(promise)
            word, _, rest = line.strip().partition(" ")
            if not line.startswith(" "):
                promise.texts.append(line.split(" | "))
            elif word == "by":
                promise.by.append(rest)
            elif word == "not":
                promise.but.append(rest)
            else:
                promise.carried.append(carried_of(line.strip()))
    return tables


class Sources:
    """What the crates have."""

    def __init__(self, top: Path) -> None:
        self.crates = read_crates(top)
        self.records = self.read_records()

    def read_records(self) -> dict[str, str]:
        """The records of the definitions, by their names: all that stands in those of a name."""
        records: dict[str, str] = {}
        for crate in self.crates.values():
            for path in sorted((crate.folder / "specs").glob("*.antt")):
                for found in RECORD.finditer(path.read_text(encoding="utf-8")):
                    records[found[2]] = records.get(found[2], "") + found[3]
        return records

    def crate(self, name: str) -> Crate:
        if name not in self.crates:
            raise Wrong(f"there is no crate {name}")
        return self.crates[name]

    def where_else(self, crate: Crate, name: str) -> str:
        """Why a crate doesn't export a name."""
        if any(it.name == name for it in crate.items if it.kind != "impl"):
            return f"{crate.name} has {name}, and doesn't export it"
        others = [other.name for other in self.crates.values() if other.exported(name)]
        return f"{crate.name} has no {name}" + (f", which stands in {' and '.join(others)}" if others else "")

    def exported(self, crate: Crate, name: str) -> Item:
        found = crate.exported(name)
        if not found:
            raise Wrong(self.where_else(crate, name))
        return found

    def trait(self, crate: Crate, name: str) -> Item | None:
        """A trait of the repository; the crate's own comes first. None is one of the standard library."""
        for other in [crate, *self.crates.values()]:
            found = other.exported(name)
            if found and found.kind == "trait":
                return found
        return None

    def functions(self, crate: Crate, call: str) -> list[Item]:
        """The functions that a call names, and the laws of a trait."""
        if " of " in call:
            return self.of_impls(crate, *call.split(" of "))
        owner, _, name = call.rpartition("::")
        if not owner:
            found = self.exported(crate, name)
            if found.kind not in ("fn", "trait"):
                raise Wrong(f"{call} of {crate.name} is no call")
            return [it for it in found.items if it.kind == "ghost"] if found.kind == "trait" else [found]
        found = self.exported(crate, owner)
        if found.kind == "trait":
            inner = [it for it in found.items if it.kind == "fn" and it.name == name]
        else:
            impls = [it for it in crate.items if it.kind == "impl" and not it.of and it.name == owner]
            inner = [it for one in impls for it in one.items if it.kind == "fn" and it.name == name]
        if not inner:
            raise Wrong(f"{owner} of {crate.name} has no call {name}")
        if found.kind != "trait" and not inner[0].public:
            raise Wrong(f"{call} of {crate.name} isn't public")
        return inner

    def of_impls(self, crate: Crate, of: str, name: str) -> list[Item]:
        """What a trait of a type has, and what its impl says besides."""
        if name != "*":
            self.exported(crate, name)
        impls = [it for it in crate.items if it.kind == "impl" and it.of == of]
        impls = [it for it in impls if it.name == name or name == "*" and crate.exported(it.name)]
        if not impls:
            raise Wrong(f"{crate.name} has no impl of {of} for {name}")
        trait = self.trait(crate, of)
        return [it for one in [*([trait] if trait else []), *impls] for it in one.items if it.kind in ("fn", "ghost")]

    def fields(self, clause: str) -> set[str]:
        """The fields of the records that a clause names, and of those that these name."""
        names, seen = set(re.findall(r"\w+", clause)), set()
        found: set[str] = set()
        for _ in range(3):
            bodies = [self.records[name] for name in sorted(names - seen) if name in self.records]
            seen |= names
            names = {word for body in bodies for word in re.findall(r"\w+", body)}
            found |= {word for body in bodies for word in re.findall(r"^ *pub (\w+) :", body, re.MULTILINE)}
        return found

    def clauses(self, crate: Crate, call: str, named: list[tuple[str, list[str]]]) -> list[str]:
        """The clauses as the page has them: those that are named, or all of the call."""
        if call.startswith("specs/"):
            return ["theorems"]
        of, _, types = call.partition(" of ")
        if len(pairs := [f"{trait} of {name}" for trait in of.split() for name in types.split()]) > 1:
            return [self.clauses(crate, pair, named) for pair in pairs][0]
        functions = self.functions(crate, call)
        given = [it.name for it in functions if it.kind == "ghost"]
        given += [name for it in functions for name in it.names("ensures")]
        for name, fields in named:
            if name not in given:
                has = ", ".join(one or "one without a name" for one in dict.fromkeys(given))
                raise Wrong(f"{call} of {crate.name} has no clause {name}; it has {has or 'none'}")
            promised = [(it, one) for it in functions for one in it.clauses if (one.word, one.name) == ("ensures", name)]
            text = " ".join(it.source.code[one.start:one.end] for it, one in promised)
            for missing in sorted(set(fields) - self.fields(text)):
                raise Wrong(f"the clause {name} of {call} of {crate.name} has no field {missing}")
        if named:
            return [f"`{name}`" + (f" ({', '.join(f'`{one}`' for one in fields)})" if fields else "") for name, fields in named]
        if " of " in call:
            return ["all of its trait"]
        if not given:
            raise Wrong(f"{call} of {crate.name} has no clause")
        nameless = given.count("")
        told = "the only one" if len(given) == 1 else f"{nameless} without a name"
        return [f"`{name}`" for name in given if name] + [told] * bool(nameless)

    def defined(self, text: str, home: str) -> None:
        """Looks up the definitions that a text names, each in the file behind it."""
        names: list[str] = []
        for name, file in re.findall(r"`([^`]+)`|\(([^()]*)\)", text):
            if name:
                names.append(name)
                continue
            other, _, path = file.rpartition(": ")
            crate = self.crate(other or home)
            whole = crate.folder / (path if "/" in path else f"specs/{path}.antt")
            if not whole.is_file():
                raise Wrong(f"{crate.name} has no file {whole.relative_to(crate.folder)}")
            held = whole.read_text(encoding="utf-8")
            for one in names:
                if not re.search(rf"^ *(?:[a-z]+ )*pub (?:[a-z]+ )*{re.escape(one)}(?![\w'])", held, re.MULTILINE):
                    raise Wrong(f"{whole.relative_to(crate.folder)} of {crate.name} doesn't define {one}")
            names = []
        if names:
            raise Wrong(f"no file stands behind {names[-1]}")


def shown_call(call: str, crate: Crate) -> list[str]:
    """A call as the page has it, in the parts between which a row may end."""
    if call.startswith("specs/"):
        if not (crate.folder / call).is_file():
            raise Wrong(f"{crate.name} has no file {call}")
        return [f"[{call[6:]}](../crates/{crate.name}/{call})"]
    of, _, types = call.partition(" of ")
    traits = ", ".join(f"`{name}`" for name in of.split())
    if not types:
        return [traits]
    first, *rest = ["each type" if name == "*" else f"`{name}`" for name in types.split()]
    return [f"{traits} of {first}", *rest]


def fill(parts: list[str], width: int) -> str:
    """Takes as many parts from the list as the width holds."""
    taken = ""
    while parts and len(taken) + len(parts[0]) + 2 * bool(taken) <= width:
        taken += (", " if taken else "") + parts.pop(0)
    return taken


def rows_of(table: Table, promise: Promise, sources: Sources) -> list[str]:
    """The rows of a promise: its texts, and beside them what is made, each in as many rows as it takes."""
    if not promise.carried:
        raise Wrong("no call carries it")
    columns = [MADE.get(column, "text") for column in table.columns]
    given = []
    for carried in promise.carried:
        crate = sources.crate(carried.crate)
        calls = [part for call in carried.calls for part in shown_call(call, crate)]
        clauses, *others = [sources.clauses(crate, call, carried.clauses) for call in carried.calls]
        if any(other != clauses for other in others):
            raise Wrong("calls with different clauses stand in one line")
        given.append((crate.name, calls if "call" in columns else [], clauses if "clauses" in columns else []))
    lefts = list(promise.texts)
    for text in promise.by:
        sources.defined(text, promise.carried[0].crate)
        lefts.append([f"*by* {text}"])
    lefts += [[f"*not claimed:* {text}"] for text in promise.but]
    rows: list[list[str]] = []

    def cells(**made: str) -> list[str]:
        texts = iter(lefts[len(rows)] if len(rows) < len(lefts) else [])
        return [next(texts, "") if column == "text" else made.get(column, "") for column in columns]

    for name, calls, clauses in given:
        while calls or clauses:
            call = fill(calls, 44 if "clauses" in columns else 80) or (calls.pop(0) if calls else "")
            left = WIDEST - len(shown(cells(call=call, crate=name))) - 1
            taken = fill(clauses, min(left, 64))
            if not call and not taken:
                taken = clauses.pop(0)
            rows.append(cells(call=call, clauses=taken, crate=name))
            name = ""
    while len(rows) < len(lefts):
        rows.append(cells())
    made_rows = [shown(row) for row in rows]
    if (widest := max(map(len, made_rows))) > WIDEST:
        raise Wrong(f"a row of {widest} columns, of at most {WIDEST}: break its text")
    return made_rows


def shown(row: list[str]) -> str:
    return re.sub("  +", " ", "| " + " | ".join(row) + " |")


def made_table(table: Table, sources: Sources, told: list[str]) -> list[str]:
    lines = [shown(table.columns), "|" + "---|" * len(table.columns)]
    for promise in table.promises:
        try:
            lines += rows_of(table, promise, sources)
        except Wrong as wrong:
            told.append(f"{LIST}, the promise of line {promise.line}: {wrong}")
    return lines


def unnamed(tables: list[Table], sources: Sources) -> list[str]:
    """The clauses of the headline that no row names."""
    crate, call = HEADLINE
    named = {name for table in tables for promise in table.promises for it in promise.carried
             if (it.crate, it.calls) == (crate, [call]) for name, _ in it.clauses}
    function, = sources.functions(sources.crate(crate), call)
    return [name for name in function.names("ensures") if name not in named]


def main() -> int:
    words = sys.argv[1:]
    check = "--check" in words
    words = [word for word in words if word != "--check"]
    if len(words) > 1 or any(word.startswith("-") for word in words):
        print("usage: .ci/proofs_tables.py [--check] [TOP]", file=sys.stderr)
        return 2
    top = Path(words[0]) if words else Path(__file__).resolve().parent.parent
    told: list[str] = []
    try:
        sources = Sources(top)
        tables = read_list((top / LIST).read_text(encoding="utf-8"))
        told += [f"{LIST}: no row names the clause {name} of {HEADLINE[1]}" for name in unnamed(tables, sources)]
        made = {table.name: made_table(table, sources, told) for table in tables}
    except Wrong as wrong:
        print(f"{LIST}: {wrong}")
        return 1
    page = (top / PAGE).read_text(encoding="utf-8")
    used: list[str] = []

    def put(found: re.Match[str]) -> str:
        used.append(found[1])
        if found[1] not in made:
            told.append(f"{PAGE}: {LIST} has no table {found[1]}")
            return found[0]
        return "\n".join([f"<!-- table {found[1]} -->", "", *made[found[1]], "", "<!-- end -->"])

    written = re.sub(r"^<!-- table (.*) -->\n(?:.*\n)*?<!-- end -->$", put, page, flags=re.MULTILINE)
    told += [f"{LIST}: {PAGE} has no place for the table {name}" for name in made if name not in used]
    for number, line in enumerate(written.split("\n"), 1):
        if line.startswith("|") and len(line) > WIDEST:
            told.append(f"{PAGE}, line {number}: a row of {len(line)} columns, of at most {WIDEST}: {line[:60]}..")
    if not told and written != page:
        if check:
            told.append(f"{PAGE} isn't what {LIST} and the contracts give: run .ci/proofs_tables.py")
        else:
            (top / PAGE).write_text(written, encoding="utf-8")
    print("".join(f"{line}\n" for line in told), end="")
    return 1 if told else 0


if __name__ == "__main__":
    sys.exit(main())
