#!/usr/bin/env python3
"""Writes shards of made-up log lines in ECS form, of some 300 bytes each: the same for the same seed.

usage: make_log.py FOLDER SHARDS BYTES SEED

FOLDER/0.json and on get whole lines up to BYTES bytes each. Each shard is a host; its lines ascend in time, a tenth of a
second apart on average. Users and their keys stand in all shards.
"""
import random
import sys

USERS = [f"user{number:03}" for number in range(400)]
PROGRAMS = ["bash", "cron", "sshd", "python3", "curl", "nginx", "postgres", "vim", "git", "systemd"]
DAYS = [f"{month:02}-{day:02}" for month in (3, 4) for day in range(1, 31) if (month, day) >= (3, 4)]
PORTS = [443, 443, 443, 80, 53, 53, 22, 5432, 8443, 3306]


def clock(ms):
    """The timestamp so many milliseconds after the first day began."""
    seconds, ms = divmod(ms, 1000)
    days, seconds = divmod(seconds, 86400)
    return f"2025-{DAYS[days]}T{seconds // 3600:02}:{seconds // 60 % 60:02}:{seconds % 60:02}.{ms:03}Z"


def event(pick, host):
    """The category of an event and what it has beside its time, host and user."""
    kind = pick.random()
    program, process = pick.choice(PROGRAMS), pick.randrange(1000, 60000)
    if kind < 0.12:
        outcome = "success" if pick.random() < 0.7 else "failure"
        return "authentication", "start", f'"outcome":"{outcome}","action":"ssh_login"', f'"source":{{"ip":"10.{host}.{pick.randrange(256)}.{pick.randrange(1, 255)}","port":{pick.randrange(1024, 65536)}}}'
    if kind < 0.45:
        return "process", "start", '"action":"exec"', f'"process":{{"name":"{program}","pid":{process},"executable":"/usr/bin/{program}","args_count":{pick.randrange(1, 9)},"parent":{{"name":"systemd","pid":1}}}}'
    if kind < 0.80:
        address = f"198.51.100.{pick.randrange(1, 255)}"
        return "network", "connection", '"action":"connection_attempted"', f'"process":{{"name":"{program}","pid":{process}}},"destination":{{"ip":"{address}","port":{pick.choice(PORTS)}}},"network":{{"bytes":{pick.randrange(60, 900000)},"transport":"tcp"}}'
    return "file", "change", '"action":"modification"', f'"file":{{"path":"/var/lib/app/{pick.randrange(100000)}.db","size":{pick.randrange(1 << 20)}}},"process":{{"name":"{program}","pid":{process}}}'


def write_shard(name, host, size, seed):
    pick, written, time = random.Random(f"{seed}/{host}"), 0, 6 * 3600 * 1000
    with open(name, "wb") as shard:
        while True:
            time += pick.randrange(200)
            category, kind, more, rest = event(pick, host % 256)
            line = f'{{"@timestamp":"{clock(time)}","ecs":{{"version":"8.11.0"}},"host":{{"id":"host-{host}","os":{{"family":"debian"}}}},"event":{{"category":["{category}"],"type":["{kind}"],{more},"dataset":"system.{category}"}},"user":{{"name":"{pick.choice(USERS)}"}},{rest}}}\n'.encode()
            if written + len(line) > size:
                return
            written += shard.write(line)


if __name__ == "__main__":
    folder, shards, size, seed = sys.argv[1:]
    for host in range(int(shards)):
        write_shard(f"{folder}/{host}.json", host, int(size), int(seed))
