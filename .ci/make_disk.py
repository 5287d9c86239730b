#!/usr/bin/env python3
"""Writes a checkpoint disk in one of the four formats, apart from the program, for tests of what it reads.

    .ci/make_disk.py FORMAT NAME CUTS [SHARD..]

FORMAT is 1 to 4. The areas are the files NAME.0 and NAME.1. CUTS is a JSON file with a list of at most two cuts: the first
area has the first one with generation 1, the second area the second one with generation 2, or nothing. Format 4 has for each
shard the digest of its bytes before the offset, and wants the files of all shards for that. Of a cut, times are in milliseconds
since the epoch, shards count from 0, lines and stages from 1:

    {"query": TEXT, "mapping": {NAME: KIND, ..}, "tiebreaker": NAME or null, "slack": MS, "mark": MS,
     "lanes": [{"offset": BYTES, "closed": BOOL, "best": MS or null, "counts": [LINES, ACCEPTED, LATE, REJECTED],
                "first": null or [LINE, REASON], "items": [{"event": EVENT, "routes": [ROUTE, ..]}, ..]}, ..],
     "holders": [{"key": KEY, "chain": [EVENT, ..]}, ..],
     "found": N, "listed": N, "pipes": [{"head": PASSED} or {"tail": [[NUMBER, KEY, [EVENT, ..]], ..]}, ..]}

An EVENT is [MS, TIEBREAKER or null, SHARD, LINE, PLACE], a ROUTE is [KEY, [STAGE, ..], WHETHER IT ENDS THE KEY], a KEY is a list of
null, true, false, numbers, texts and {"ip": NUMBER}. What a format has no room for, places, stages above 128, digests or a
checksum, is left out. Of lists that have an order, that of the file is kept.
"""
import json
import sys

ONES = 2**64 - 1


def number(size):
    return lambda value: value.to_bytes(size, "little", signed=size == 16)


u32, u64 = number(4), number(8)
REASONS = ["Long", "NotJson", "NotObject", "NoTime", "BadTime", "Kind", "Fraction", "Range"]


def checksum(text):
    """CRC-64/XZ: the rest of one long division, bit by bit."""
    rest = ONES
    for byte in text:
        rest ^= byte
        for _ in range(8):
            rest = rest >> 1 ^ (0xC96C5795D7870F42 if rest & 1 else 0)
    return rest ^ ONES


def digest(read):
    """The ten numbers of a digest: the eight lanes, the one that takes the next word first, the bytes behind the last word, the length."""
    # the eight words with which SHA-512 begins
    lanes = [0x6A09E667F3BCC908, 0xBB67AE8584CAA73B, 0x3C6EF372FE94F82B, 0xA54FF53A5F1D36F1,
             0x510E527FADE682D1, 0x9B05688C2B3E6C1F, 0x1F83D9ABFB41BD6B, 0x5BE0CD19137E2179]
    words, end = divmod(len(read), 8)
    for word in range(words):
        mixed = lanes[word % 8] ^ int.from_bytes(read[8 * word:8 * word + 8], "little")
        lanes[word % 8] = (mixed ^ mixed >> 37) * 0x9E3779B97F4A7C15 & ONES
    first = words % 8
    return [*lanes[first:], *lanes[:first], int.from_bytes(read[8 * words:8 * words + end], "little"), len(read)]


def time(ms):
    return number(16)(ms * 1_000_000)


def long(value):
    return value.to_bytes(8, "little", signed=True)


def text(value):
    return u64(len(value.encode())) + value.encode()


def items(write, values):
    return u64(len(values)) + b"".join(write(value) for value in values)


def option(write, value):
    return b"\0" if value is None else b"\1" + write(value)


def value_of(value, version):
    if value is None:
        return b"\0"
    if isinstance(value, bool):
        return bytes([1, value])
    if isinstance(value, int):
        return b"\2" + long(value)
    if isinstance(value, str):
        return b"\3" + text(value)
    # format 4 has 16 bytes, those of an address of IPv4 in IPv6, the highest first
    return b"\4" + (u32(value["ip"]) if version < 4 else (0xFFFF << 32 | value["ip"]).to_bytes(16, "big"))


def cut_of(cut, version, texts):
    def key(values):
        return items(lambda value: value_of(value, version), values)

    def event(parts):
        ms, tie, shard, line, place = parts
        return time(ms) + option(long, tie) + u32(shard) + u32(line) + (u64(place) if version > 1 else b"")

    def route(parts):
        mask = sum(1 << (stage - 1) for stage in parts[1])
        return key(parts[0]) + mask.to_bytes(32, "little")[: 32 if version > 2 else 16] + bytes([parts[2]])

    def item(value):
        return event(value["event"]) + items(route, value["routes"])

    def lane(shard):
        value = cut["lanes"][shard]
        first = option(lambda bad: u32(bad[0]) + bytes([REASONS.index(bad[1])]), value["first"])
        counts = b"".join(map(u32, value["counts"])) + first
        offset = value["offset"]
        digested = b"".join(map(u64, digest(texts[shard][:offset]))) if version > 3 else b""
        read = u64(offset) + digested + bytes([value["closed"]])
        return read + option(time, value["best"]) + counts + items(item, value["items"])

    def holder(value):
        return key(value["key"]) + u32(len(value["chain"])) + items(event, value["chain"])

    def pipe(state):
        if "head" in state:
            return b"\0" + u32(state["head"])
        return b"\1" + items(lambda kept: u64(kept[0]) + key(kept[1]) + items(event, kept[2]), state["tail"])

    kinds = ["boolean", "long", "keyword", "ip"]
    mapping = items(lambda name: text(name[0]) + bytes([kinds.index(name[1])]), list(cut["mapping"].items()))
    head = text(cut["query"]) + mapping + option(text, cut["tiebreaker"]) + u64(cut["slack"]) + u32(len(cut["lanes"]))
    book = u64(cut["found"]) + u64(cut["listed"]) + items(pipe, cut["pipes"])
    lanes = items(lane, range(len(cut["lanes"])))
    whole = b"EQLC" + bytes([version]) + head + time(cut["mark"]) + lanes + items(holder, cut["holders"]) + book
    return whole + u64(checksum(whole)) if version > 3 else whole


def read(name):
    with open(name, "rb") as file:
        return file.read()


def main():
    version, name, path = int(sys.argv[1]), sys.argv[2], sys.argv[3]
    cuts, texts = json.loads(read(path)), [read(shard) for shard in sys.argv[4:]]
    for area in range(2):
        written = b""
        if area < len(cuts):
            cut = cut_of(cuts[area], version, texts)
            written = b"\1" + u64(area + 1) + u64(len(cut)) + cut
        with open(f"{name}.{area}", "wb") as file:
            file.write(written)


main()
