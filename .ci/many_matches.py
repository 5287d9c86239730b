#!/usr/bin/env python3
"""Writes shards, a listing over them with places, and prints nothing: N matches of four events each, spread over all of the log.

usage: many_matches.py FOLDER SHARDS BYTES N

FOLDER gets the shards 0.json and on, which have BYTES bytes together and ascend in time, and `listing`.
"""
import os
import subprocess
import sys

TOP = os.path.dirname(os.path.dirname(os.path.abspath(__file__)))


def lines_of(name: str, shard: int) -> list[tuple[str, int, int, int]]:
    """Of each line its time, its shard, its number and where it begins."""
    found, at = [], 0
    with open(name, "rb") as file:
        for number, line in enumerate(file, 1):
            found.append((line[15:38].decode(), shard, number, at))
            at += len(line)
    return found


def main(folder: str, shards: int, size: int, count: int) -> None:
    subprocess.run([sys.executable, f"{TOP}/bench/find/make_log.py", folder, str(shards), str(size // shards), "7"], check=True)
    log = sorted(it for shard in range(shards) for it in lines_of(f"{folder}/{shard}.json", shard))
    with open(f"{folder}/listing", "w") as listing:
        for number in range(count):
            first = number * (len(log) - 40) // count
            events = "".join(f" {shard}:{line}@{at}" for _, shard, line, at in log[first:first + 40:10])
            listing.write(f'{number + 1} ["user{number % 400:03}"]{events}\n')


if __name__ == "__main__":
    main(sys.argv[1], int(sys.argv[2]), int(sys.argv[3]), int(sys.argv[4]))
