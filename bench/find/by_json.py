#!/usr/bin/env python3
"""The search of query.eql by Python's json, in the plainest way: the listing on the output.

usage: by_json.py SHARD..
"""
import json
import sys
from datetime import datetime

SPAN = 300.0


def stage_of(event):
    """The stage, from 1 to 3, that an event fits, or 0."""
    categories = event["event"]["category"]
    if "authentication" in categories:
        return 1 if event["event"].get("outcome") == "success" else 0
    if "process" in categories:
        return 2 if event["process"].get("name") == "bash" else 0
    if "network" in categories:
        return 3 if event["destination"].get("port") == 8443 else 0
    return 0


def events_of(names):
    """The events that fit a stage, as (time, shard, line, stage, user)."""
    for shard, name in enumerate(names):
        with open(name, "rb") as lines:
            for number, line in enumerate(lines, 1):
                event = json.loads(line)
                stage = stage_of(event)
                if stage:
                    time = datetime.fromisoformat(event["@timestamp"].replace("Z", "+00:00")).timestamp()
                    yield time, shard, number, stage, event["user"]["name"]


def main(names):
    slots, number = {}, 0
    for time, shard, line, stage, user in sorted(events_of(names)):
        pending = slots.setdefault(user, {})
        here = (time, f"{shard}:{line}")
        if stage == 1:
            pending[1] = [here]
            continue
        chain = pending.pop(stage - 1, None)
        if chain is None or time - chain[0][0] > SPAN:
            continue
        if stage == 2:
            pending[2] = chain + [here]
            continue
        number += 1
        print(number, json.dumps([user]), *(place for _, place in chain + [here]))


main(sys.argv[1:])
