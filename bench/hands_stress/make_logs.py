#!/usr/bin/env python3
"""Writes logs that are hard to search, the same for the same seed: each a folder with shards, a query, a mapping and options.

usage: make_logs.py FOLDER LOGS SEED

FOLDER/N, from 0 on, gets the shards 0.json and on (one of them may be empty), `query`, `fields`, and `options`, which has the words
of a search but for batch and hands, a line each. A log that can have a checkpoint has `keeps`. The first three logs are those of
`eql made`, as files. Each third log behind them has 2 to 5 shards of some 8 MB, since over small files a search starts no hands.
Their lines are long, so that they are few, and a run over them with a batch of one line doesn't take long.
"""
import json
import os
import random
import sys

QUERIES = [
    'sequence by user.name [process where process.name == "attrib"] [process where process.name == "bash"] [process where process.name == "cat"]',
    'sequence by user.name with maxspan=40ms [process where true] [file where true] until [network where true]',
    'sequence with maxspan=5s [any where process.pid > 5] with runs=3 [file where process.name : "c*"]',
    'sequence by ?user.name, ?process.pid [any where true] [any where true] [any where true]',
    'sequence [process where true] by process.pid [file where true] by process.pid [process where true] by process.pid',
    'any where true',
    'any where length(process.name) > 3 and not process.pid in (1, 2, 3)',
    'sequence by user.name [any where true] [any where true] | tail 7 | head 3',
    'any where process.pid % 3 == 0 | head 40',
    'sequence [any where true] with runs=20',
]
FIELDS = {"process.name": "keyword", "process.pid": "long", "user.name": "keyword"}
MADE_QUERY = QUERIES[0]
NAMES = ["attrib", "bash", "cat", "cp", "é", "a\u2028b"]


def made(folder, events):
    """The events of `eql made`, an event for each line, over four shards."""
    for shard in range(4):
        with open(f"{folder}/{shard}.json", "w") as log:
            for i in range(shard, events, 4):
                name = ("attrib", "bash", "cat")[i // 100 % 3]
                log.write(json.dumps({"@timestamp": i, "event": {"category": "process"}, "user": {"name": f"u{i % 100}"}, "process": {"name": name}}) + "\n")
    return MADE_QUERY, []


def broken(pick):
    """A line that is rejected, or blank."""
    return pick.choice([
        b"", b" \t", b"\r", b"{", b"[1]", b'"x"', b"null", b"{}", b'{"@timestamp":null}', b'{"@timestamp":"soon"}', b'{"@timestamp":[1,2]}',
        b'{"@timestamp":1.5}', b'{"@timestamp":7,"process":{"pid":"x"}}', b'{"@timestamp":7,"process.pid":1.5}', b"\xff\xfe", b"\x00" * 9,
        b'{"@timestamp":7,"process.pid":99999999999999999999}', b'{"@timestamp":3,"a":' + b"[" * 200 + b"]" * 200 + b"}",
        b'{"@timestamp":5,"event":{"cat', b'{"@timestamp":1e999}', b'{"a":"\\ud800"}', b"x" * pick.randrange(1, 5000),
    ])


def event(pick, time, users, width):
    """A line with an event, in one of several forms. Its padding has up to so many bytes."""
    line = {"@timestamp": time}
    if pick.random() < 0.95:
        kinds = ["process", "file", "network"]
        line["event"] = {"category": pick.choice(kinds) if pick.random() < 0.8 else pick.sample(kinds, 2)}
    if pick.random() < 0.3:
        line["event.sequence"] = pick.randrange(4)
    if pick.random() < 0.9:
        line["user"] = {"name": f"u{pick.randrange(users)}"}
    line["process"] = {"name": pick.choice(NAMES), "pid": pick.choice([pick.randrange(12), str(pick.randrange(12))])}
    if width or pick.random() < 0.02:
        line["padding"] = "y" * pick.randrange(width or 200000)
    return json.dumps(line, ensure_ascii=pick.random() < 0.5).encode()


def write_shard(pick, name, lines, width, users, spread, ends):
    time = pick.randrange(-1000, 1000)
    with open(name, "wb") as log:
        for number in range(lines):
            time += pick.choice([0, 0, 1, 3, pick.randrange(50)])
            if pick.random() < 0.002:
                time += pick.randrange(100000)
            if pick.random() < 0.08:
                log.write(broken(pick))
            else:
                log.write(event(pick, time - (pick.randrange(spread) if pick.random() < 0.2 else 0), users, width))
            if number < lines - 1 or ends:
                log.write(b"\r\n" if pick.random() < 0.1 else b"\n")
        if lines and pick.random() < 0.1:
            log.write(b"\n" + b"x" * 1048577 + b"\n" + event(pick, time, users, width))


def hostile(folder, pick, is_large):
    users, spread = pick.choice([1, 3, 40, 5000]), pick.choice([1, 20, 2000])
    for shard in range(pick.choice([2, 3, 5] if is_large else [1, 2, 3, 5, 8])):
        lines = 900 if is_large else pick.choice([0, 1, 7, 150, 150, 900, 900, 2500])
        write_shard(pick, f"{folder}/{shard}.json", lines, 20000 if is_large else 0, users, spread, pick.random() < 0.7)
    options = []
    slack = pick.choice([None, "0ms", "20ms", "2s", "1d"])
    if slack:
        options += ["--slack", slack]
        open(f"{folder}/keeps", "w").close()
    if pick.random() < 0.4:
        options += ["--tiebreaker", "event.sequence"]
    if pick.random() < 0.5:
        options += ["--places"]
    return pick.choice(QUERIES), options


def write_log(folder, number, seed):
    os.makedirs(folder)
    if number < 3:
        query, options = made(folder, (0, 201, 3001)[number])
    else:
        query, options = hostile(folder, random.Random(f"{seed}/{number}"), number % 3 == 0)
    for name, text in (("query", query), ("fields", json.dumps(FIELDS)), ("options", "\n".join(options))):
        with open(f"{folder}/{name}", "w") as file:
            file.write(text)


if __name__ == "__main__":
    top, logs, seed = sys.argv[1:]
    for number in range(int(logs)):
        write_log(f"{top}/{number}", number, seed)
