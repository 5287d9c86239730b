#!/usr/bin/env python3
"""Counts the lines of the contracts in the crates' sources.

    .ci/contract_lines.py [--top TOP] [CRATE..]

A contract's lines are those of the `requires`, `ensures` and `ghost` clauses between a function's head and its body. Comments and
empty lines between them aren't counted, and neither are functions of tests and closures. It prints for each crate the lines, and how
many functions have a contract, the crates with the most lines first; then the 15 longest contracts; and last the sum over the crates
that are named, or over all. TOP is the repository's top, if it isn't the one that this script stands in.
"""
from __future__ import annotations

import argparse
import sys
from pathlib import Path

sys.dont_write_bytecode = True
from contracts import Item, read_crates  # noqa: E402

LONGEST = 15


def lines_of(function: Item) -> int:
    """How many lines a contract has."""
    source = function.source
    lines: set[int] = set()
    for clause in function.clauses:
        first = source.line(clause.start)
        for number, line in enumerate(source.code[clause.start:clause.end].split("\n"), first):
            if line.strip():
                lines.add(number)
    return len(lines)


def main() -> int:
    parser = argparse.ArgumentParser(usage=".ci/contract_lines.py [--top TOP] [CRATE..]",
                                     description="Counts the lines of the contracts in the crates' sources.")
    parser.add_argument("--top", type=Path, default=Path(__file__).resolve().parent.parent, metavar="TOP")
    parser.add_argument("named", nargs="*", metavar="CRATE")
    words = parser.parse_args()
    crates = read_crates(words.top)
    unknown = [name for name in words.named if name not in crates]
    if unknown:
        parser.error(f"no crate {unknown[0]}")
    contracts = [(lines_of(function), name, crate, function)
                 for crate in crates for name, function in crates[crate].functions() if function.clauses]

    def counted(names: list[str]) -> tuple[int, int]:
        chosen = [lines for lines, _, crate, _ in contracts if crate in names]
        return sum(chosen), len(chosen)

    counts = {crate: counted([crate]) for crate in crates}
    print(" lines  contracts  crate")
    for crate, (lines, count) in sorted(counts.items(), key=lambda it: (-it[1][0], it[0])):
        print(f"{lines:6} {count:10}  {crate}")
    print(f"\n lines  the {LONGEST} longest contracts")
    for lines, name, crate, function in sorted(contracts, key=lambda it: (-it[0], it[2], it[1]))[:LONGEST]:
        place = f"{function.source.path.relative_to(words.top)}:{function.source.line(function.start)}"
        print(f"{lines:6}  {place}  {name}")
    lines, count = counted(words.named or sorted(crates))
    print(f"\n lines  contracts  the sum\n{lines:6} {count:10}  {' '.join(words.named) or 'all crates'}")
    return 0


if __name__ == "__main__":
    sys.exit(main())
