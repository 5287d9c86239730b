#!/usr/bin/env python3
"""Turns round each bit of the newer area of three checkpoints, one at a time, overwrites 134 blocks of each with other bytes, and goes on
from each. None may list or report what is wrong while its status is 0: where one does, or ends with a status other than 0 and 7, the
status of this script is 1.

usage: bench/checkpoint_flips.py [--short] [PROGRAM]      PROGRAM is the built program, crates/eql/out/eql where none is given

With --short it turns round one bit of each eighth byte, at random, and each bit of the first 22 bytes: those of the head and of the
format; and it overwrites no block. A block has up to 512 bytes, and may go on behind the end.

Each checkpoint is that of a run over made logs of 58 lines a shard, some of them late or rejected, which puts a cut after 18 rounds of a
line of each shard and one after 36. What a later run lists is right where it is an end of the listing of an unbroken run, with all lines
that a run lists from the cut as it was, since it may go on from an older cut. The report has to be that of the unbroken run. Of each
checkpoint it prints how many bits there are, and after how many of them a run refuses the checkpoint, is right, lists what is wrong,
reports what is wrong behind a right listing, or ends otherwise; and the first bits after which it is wrong. The same of blocks.
"""
import concurrent.futures
import os
import random
import subprocess
import sys
import tempfile
from collections import Counter

TOP = os.path.dirname(os.path.dirname(os.path.abspath(__file__)))
FIELDS = '{"user.name":"keyword","process.name":"keyword","n":"long","flag":"boolean","source.ip":"ip","event.sequence":"long"}'
# The bytes of an area before the text, and those of the text up to its format.
HEAD = 22
# How many blocks of each checkpoint are overwritten.
BLOCKS = 134
WRONG = ("listing", "report", "otherwise")
# Of each checkpoint its query, its options and the number of shards.
CHECKPOINTS = {
    "a sequence of three stages": (
        'sequence by user.name [any where process.name == "a"] [any where process.name == "b"] [any where process.name == "c"]',
        ["--slack", "3s"], 1),
    "keys of all kinds, an end and a tail": (
        "sequence by source.ip, n, flag, user.name with maxspan=20s [any where true] [any where true] until [any where n > 3] | tail 4",
        ["--slack", "2s", "--places"], 2),
    "a tiebreaker, a closed shard and a head": (
        'sequence by user.name with maxspan=1m [any where process.name == "a"] by n [any where process.name != "a"] by n | head 22',
        ["--slack", "3s", "--tiebreaker", "event.sequence"], 3),
}


def line_of(pick: random.Random, number: int) -> str:
    if pick.random() < 0.05:
        return pick.choice(["[]", "{", '{"@timestamp":"yesterday"}', '{"@timestamp":1,"n":"two"}', ""])
    time = number * 1000 + 1741075200000 - pick.randrange(5000) * (pick.random() < 0.3)
    user, name, flag = pick.choice(["mia", "root", "elkb\\u00e9e"]), pick.choice("abc"), pick.choice(["true", "false", "null"])
    return (f'{{"@timestamp":{time},"user":{{"name":"{user}"}},"process":{{"name":"{name}"}},"n":{pick.randrange(2)},'
            f'"flag":{flag},"source":{{"ip":"10.0.0.{pick.randrange(2)}"}},"event":{{"sequence":{pick.randrange(9)}}}}}')


def make(folder: str, query: str, shards: int) -> list[str]:
    """Makes the files of a search. Of several shards the last one has fewer lines, and so is closed in the cut."""
    pick, names = random.Random(3), [f"{shard}.json" for shard in range(shards)]
    for name in names:
        with open(f"{folder}/{name}", "w", encoding="utf-8") as log:
            for number in range(20 if name == "2.json" else 58):
                print(line_of(pick, number), file=log)
    for name, text in ("query.eql", query), ("fields.json", FIELDS):
        with open(f"{folder}/{name}", "w", encoding="utf-8") as file:
            file.write(text)
    return names


class Flips:
    def __init__(self, program: str, folder: str, query: str, options: list[str], shards: int) -> None:
        self.program, self.folder = program, folder
        self.words = ["find", "--query", "query.eql", "--fields", "fields.json", "--batch", "1", "--hands", "0", *options]
        self.shards = make(folder, query, shards)
        self.whole = self.run([])
        assert self.whole[0] == 0, self.whole
        self.run(["--checkpoint", "first", "--every", "18"])
        self.areas = [self.read("first.0"), self.read("first.1")]
        # The generation stands behind the first byte.
        self.newer = max((0, 1), key=lambda area: self.areas[area][1:9][::-1])
        self.rest = self.run_from(self.areas, "rest")[1]
        assert self.whole[1].endswith(self.rest), self.rest

    def run(self, options: list[str]) -> tuple[int, bytes, bytes]:
        command = [self.program, *self.words, *options, *self.shards]
        try:
            ended = subprocess.run(command, cwd=self.folder, capture_output=True, check=False, timeout=60)
        except subprocess.TimeoutExpired:
            return -1, b"", b""
        return ended.returncode, ended.stdout, ended.stderr

    def read(self, name: str) -> bytes:
        with open(f"{self.folder}/{name}", "rb") as file:
            return file.read()

    def run_from(self, areas: list[bytes], name: str) -> tuple[int, bytes, bytes]:
        for area, text in enumerate(areas):
            with open(f"{self.folder}/{name}.{area}", "wb") as file:
                file.write(text)
        ended = self.run(["--checkpoint", name, "--every", "1000"])
        for area in range(len(areas)):
            os.unlink(f"{self.folder}/{name}.{area}")
        return ended

    def after_bit(self, bit: int) -> str:
        """How a run ends that goes on after this bit was turned round."""
        turned = bytearray(self.areas[self.newer])
        turned[bit // 8] ^= 1 << bit % 8
        return self.after(bytes(turned), f"bit-{bit}")

    def after_block(self, number: int) -> str:
        """How a run ends that goes on after a block was overwritten, which is made by its number."""
        pick, text = random.Random(number), self.areas[self.newer]
        at, size = pick.randrange(len(text)), pick.randrange(1, 513)
        return self.after(text[:at] + pick.randbytes(size) + text[at + size:], f"block-{number}")

    def after(self, newer: bytes, name: str) -> str:
        """How a run ends that goes on from this newer area."""
        areas = list(self.areas)
        areas[self.newer] = newer
        status, listed, reported = self.run_from(areas, name)
        if status == 7:
            return "refused"
        if status != 0:
            return "otherwise"
        is_end = listed == b"" or (b"\n" + self.whole[1]).endswith(b"\n" + listed)
        if not is_end or not listed.endswith(self.rest):
            return "listing"
        return "right" if reported == self.whole[2] else "report"


def tell(name: str, ends: list[str], what: str) -> None:
    count = Counter(ends)
    wrong = count["listing"] + count["report"]
    print(f"{name}: {len(ends)} {what}: {count['refused']} refused, {count['right']} right, {wrong} wrong ({100 * wrong / len(ends):.2f} %:"
          f" {count['listing']} listings, {count['report']} reports), {count['otherwise']} otherwise")


def bits_of(size: int, short: bool) -> list[int]:
    """The bits that are turned round in an area of this size."""
    if not short:
        return list(range(8 * size))
    pick = random.Random(4)
    return [*range(8 * HEAD), *(8 * byte + pick.randrange(8) for byte in range(HEAD, size, 8))]


def main(program: str, short: bool) -> int:
    every: list[str] = []
    blocks: list[str] = []
    for name, (query, options, shards) in CHECKPOINTS.items():
        with tempfile.TemporaryDirectory() as folder:
            flips = Flips(os.path.realpath(program), folder, query, options, shards)
            bits = bits_of(len(flips.areas[flips.newer]), short)
            with concurrent.futures.ThreadPoolExecutor(os.cpu_count()) as pool:
                ends = list(pool.map(flips.after_bit, bits))
                blocks += [] if short else pool.map(flips.after_block, range(BLOCKS))
        tell(name, ends, "bits")
        wrong = [f"{bit // 8}.{bit % 8}" for bit, end in zip(bits, ends) if end in WRONG]
        if wrong:
            print(f"    wrong, as byte.bit: {' '.join(wrong[:20])}{' ..' if len(wrong) > 20 else ''}")
        every += ends
    tell("all", every, "bits")
    if blocks:
        tell("all", blocks, "blocks")
    return 1 if any(end in WRONG for end in every + blocks) else 0


if __name__ == "__main__":
    words = sys.argv[1:]
    is_short = words[:1] == ["--short"]
    words = words[is_short:]
    if len(words) > 1:
        sys.exit("usage: checkpoint_flips.py [--short] [PROGRAM]")
    sys.exit(main(words[0] if words else f"{TOP}/crates/eql/out/eql", is_short))
