#!/usr/bin/env python3
"""Whether a machine that goes down can take lines of a listing that the last cut of a checkpoint counts.

    .ci/power_cuts.py PROGRAM

A built program searches a made log under strace and puts some 300 cuts, most of them behind new lines. It is killed at a moment in the
middle, and a second run goes on to the end. What both asked of the system is read from the traces:

- Where a cut is put, the listing was synced since it was last written.
- A run whose listing can't be synced ends with status 5, and puts no further cut.
- The machine goes down at 100 moments of each run. Of each file what was synced is left, and of each write since then all, a front or
  nothing; its length is one that it had since. The program goes on from these files. The listings of all runs, joined as
  docs/OPERATIONS.md says, are that of an unbroken run, and so is the report.

The moments, and what is left, are the same each time. It is taken for granted that files keep their names, and that a device keeps what
it said that it keeps. Prints what fails; the last line is 'N passed, M failed', and the status is 0 where M is 0. Where strace isn't
there or may not trace, one line says so, and the status is 0.
"""
import copy
import os
import random
import re
import subprocess
import sys
import tempfile
from typing import Optional

TOP = os.path.dirname(os.path.dirname(os.path.abspath(__file__)))
AREAS = ["run.0", "run.1"]
FIND = ["find", "--query", "query.eql", "--fields", "fields.json", "--slack", "20ms", "--hands", "0"]
SHARDS = ["0.json", "1.json"]
# Of each number the line that was written last. A line of fewer than three words may have been cut off.
JOIN = "NF > 2 { line[$1] = $0 } $1 > most { most = $1 } END { for (n = 1; n <= most; n++) if (n in line) print line[n] }"
TRACE = "trace=open,openat,creat,close,dup,dup2,dup3,fcntl,lseek,write,writev,pwrite64,pwritev,ftruncate,fsync,fdatasync,sync,syncfs"
CALL = re.compile(r"\d+ +(\w+)\((.*)\) += (-?\d+)(?: .*)?\n")
TEXT = re.compile(r'"((?:\\x[0-9a-f]{2})*)"')

# A place in a file, and the bytes that were written there; or, without bytes, the length that it was given.
Change = tuple[int, Optional[bytes]]


def changed(text: bytes, changes: list[Change]) -> bytes:
    found = bytearray(text)
    for at, data in changes:
        if data != b"":
            found.extend(bytes(max(0, at - len(found))))
        if data is None:
            del found[at:]
        else:
            found[at:at + len(data)] = data
    return bytes(found)


class File:
    """What was synced of a file, and what was done to it since."""

    def __init__(self) -> None:
        self.synced = b""
        self.changes: list[Change] = []

    def now(self) -> bytes:
        return changed(self.synced, self.changes)

    def sync(self) -> None:
        self.synced, self.changes = self.now(), []

    def left(self, pick: random.Random) -> bytes:
        """What may be left where the machine goes down."""
        odds, kept, lengths = pick.choice([0.1, 0.5, 0.9]), [], [len(self.synced)]
        for at, data in self.changes:
            lengths.append(at if data is None else max(lengths[-1], at + len(data)))
            if pick.random() < odds:
                kept.append((at, data))
            elif data and pick.random() < 0.5:
                kept.append((at, data[:pick.randrange(len(data))]))
        found = changed(self.synced, kept)
        return changed(found, [(pick.choice([len(found), pick.choice(lengths)]), None)])


class Trace:
    """The calls of a run on its listing and the two areas, in their order: what was called, of which file, and the change."""

    def __init__(self, listing: str) -> None:
        # Of each descriptor its file and the place where it goes on. Those that were copied from each other share both.
        self.opened: dict[int, list] = {1: [listing, 0]}
        self.names = {area.encode(): area for area in AREAS} | {b"/dev/stdout": listing, b"/proc/self/fd/1": listing}
        self.calls: list[tuple[str, str, Optional[Change]]] = []
        # The calls that sync one file, of any file, and whether it is the listing.
        self.syncs: list[tuple[str, bool]] = []
        with open("trace", encoding="ascii") as lines:
            for line in lines:
                if not re.match(r"\d+ +(---|\+\+\+) ", line):
                    call = CALL.fullmatch(line)
                    assert call, f"a call that isn't understood: {line[:200]}"
                    self.take(call[1], call[2], int(call[3]))

    def take(self, call: str, words: str, result: int) -> None:
        first, last = words.split(",")[0], words.split(",")[-1]
        it = self.opened.get(int(first)) if first.isdigit() else None
        if call in ("fsync", "fdatasync"):
            self.syncs.append((call, bool(it) and it[0] not in AREAS))
            if it:
                self.calls.append(("sync" if result == 0 else "failed", it[0], None))
        elif call in ("sync", "syncfs"):
            self.calls += [("sync", name, None) for name in set(self.names.values())]
        elif result >= 0 and call in ("open", "openat", "creat"):
            self.take_open(bytes_of(words), words, result)
        elif result >= 0 and it:
            self.take_use(it, call, words, int(last) if last.strip().isdigit() else 0, result)

    def take_open(self, path: bytes, words: str, result: int) -> None:
        self.opened.pop(result, None)
        if path in self.names:
            assert "O_APPEND" not in words, words
            self.opened[result] = [self.names[path], 0]
            if "O_TRUNC" in words:
                self.calls.append(("change", self.names[path], (0, None)))

    def take_use(self, it: list, call: str, words: str, last: int, result: int) -> None:
        if call.startswith("dup") or "F_DUPFD" in words:
            self.opened[result] = it
        elif call == "close":
            self.opened = {number: file for number, file in self.opened.items() if number != int(words)}
        elif call == "lseek":
            it[1] = result
        elif call == "ftruncate":
            self.calls.append(("change", it[0], (last, None)))
        elif call.startswith("pwrite"):
            self.calls.append(("change", it[0], (last, bytes_of(words)[:result])))
        elif call.startswith("write"):
            self.calls.append(("change", it[0], (it[1], bytes_of(words)[:result])))
            it[1] += result


def bytes_of(words: str) -> bytes:
    return b"".join(bytes.fromhex(text.replace("\\x", "")) for text in TEXT.findall(words))


def play(files: dict[str, File], calls: list) -> None:
    for call, name, change in calls:
        if call == "sync":
            files[name].sync()
        elif call == "change":
            files[name].changes.append(change)


def read(name: str) -> bytes:
    with open(name, "rb") as file:
        return file.read()


def write(name: str, text: bytes) -> None:
    with open(name, "wb") as file:
        file.write(text)


def make_log() -> None:
    pick = random.Random(1)
    for shard in SHARDS:
        with open(shard, "w", encoding="ascii") as log:
            for number in range(600):
                time, user, name = 1000 + number * 10 + pick.randrange(-15, 15), pick.randrange(7), pick.choice("ab")
                log.write(f'{{"@timestamp":{time},"user":{{"name":"u{user}"}},"process":{{"name":"{name}"}}}}\n')
    write("query.eql", b'sequence by user.name with maxspan=2s [any where process.name == "a"] [any where process.name == "b"]')
    write("fields.json", b'{"process.name":"keyword","user.name":"keyword"}')


def run(listing: str, *command: str) -> tuple[int, bytes]:
    """The status of a command and its error output."""
    with open(listing, "wb") as out, open("report", "wb") as err:
        status = subprocess.run(command, stdin=subprocess.DEVNULL, stdout=out, stderr=err, check=False).returncode
    return status, read("report")


class Tests:
    def __init__(self, program: str) -> None:
        self.program, self.passed, self.failed = program, 0, 0
        self.pick = random.Random(2)
        self.ended = run("whole", program, *FIND, *SHARDS)
        self.whole = read("whole")
        # The files at the moment, and those of them that are listings.
        self.files = {area: File() for area in AREAS}
        self.listings: list[str] = []

    def judge(self, name: str, fault: str) -> None:
        if fault:
            print(f"FAILED: {name}: {fault}")
        self.passed, self.failed = self.passed + (fault == ""), self.failed + (fault != "")

    def traced(self, *options: str) -> tuple[tuple[int, bytes], Trace]:
        for area in AREAS:
            write(area, self.files[area].now())
        strace = ["strace", "-f", "-xx", "-s", "10000000", "-o", "trace", "-e", TRACE, *options]
        words = [*FIND, "--batch", "2", "--checkpoint", "run", "--every", "1", *SHARDS]
        return run(self.listings[-1], *strace, self.program, *words), Trace(self.listings[-1])

    def next_run(self, name: str) -> list:
        """Tests a run that goes on from the files. Returns its calls up to its end."""
        self.listings.append(name)
        self.files[name] = File()
        ended, trace = self.traced()
        files = copy.deepcopy(self.files)
        play(files, trace.calls)
        differ = [it for it in [*AREAS, name] if read(it) != files[it].now()]
        self.judge(f"the {name} run", "" if ended == self.ended else f"status {ended[0]}: {ended[1]!r}")
        self.judge(f"the {name} run, its calls", f"they don't tell what {differ} hold" if differ else "")
        self.order(name, trace)
        self.no_sync(name, trace)
        self.power_cuts(name, trace.calls)
        return trace.calls

    def order(self, name: str, trace: Trace) -> None:
        puts = early = 0
        new, synced = False, True
        for call, file, _ in trace.calls:
            if file not in AREAS:
                new, synced = new or call == "change", call == "sync"
            elif new and call == "change":
                puts, early, new = puts + 1, early + (not synced), False
        fault = f"{early} of {puts} cuts behind new lines were put before the listing was synced" if early else ""
        self.judge(f"the {name} run, its order", fault or ("" if puts >= 50 else f"only {puts} cuts were put behind new lines"))

    def no_sync(self, name: str, trace: Trace) -> None:
        """Lets the tenth sync of the listing fail."""
        places = [place for place, (_, of_listing) in enumerate(trace.syncs) if of_listing]
        if len(places) < 10:
            self.judge(f"the {name} run, without a sync", f"the listing is synced {len(places)} times")
            return
        call = trace.syncs[places[9]][0]
        count = sum(it == call for it, _ in trace.syncs[:places[9] + 1])
        ended, trace = self.traced("-e", f"inject={call}:error=EIO:when={count}")
        failed = [place for place, (call, _, _) in enumerate(trace.calls) if call == "failed"]
        later = [file for call, file, _ in trace.calls[failed[0]:] if call == "change"] if failed else ["no call"]
        self.judge(f"the {name} run, without a sync", "" if ended == (5, b"write fault\n") and not later else
                   f"status {ended[0]}: {ended[1]!r}, and then wrote {later[:3]}")

    def power_cuts(self, name: str, calls: list) -> None:
        faults = [fault for _ in range(100) if (fault := self.power_cut(calls))]
        self.judge(f"the {name} run, power cuts", f"{len(faults)} of 100 take what a cut counts; of the first one {faults[0]}" if faults else "")

    def power_cut(self, calls: list) -> str:
        """Lets the machine go down in one of the calls. Returns what is wrong after a run that goes on, or nothing."""
        at = self.pick.randrange(len(calls))
        files = copy.deepcopy(self.files)
        play(files, calls[:at])
        if calls[at][0] == "change":
            play(files, calls[at:at + 1])
        for name, file in files.items():
            write(name if name in AREAS else f"{name}.left", file.left(self.pick))
        listings = [f"{name}.left" for name in self.listings]
        ended = run("last", self.program, *FIND, "--batch", "64", "--checkpoint", "run", "--every", "1000", *SHARDS)
        if ended != self.ended:
            return f"status {ended[0]}: {ended[1]!r}"
        joined = subprocess.run(["awk", JOIN, *listings, "last"], env=os.environ | {"LC_ALL": "C"}, stdout=subprocess.PIPE, check=True)
        return self.wrong(joined.stdout)

    def wrong(self, joined: bytes) -> str:
        lines = dict(line.split(b" ", 1) for line in joined.splitlines())
        whole = dict(line.split(b" ", 1) for line in self.whole.splitlines())
        missing = [int(number) for number in whole if number not in lines]
        differ = [int(number) for number in lines if lines[number] != whole.get(number)]
        found = [f"{len(missing)} lines from {missing[0]} on are missing"] if missing else []
        found += [f"{len(differ)} lines from {differ[0]} on are others"] if differ else []
        return " and ".join(found) or ("" if joined == self.whole else "the lines stand in another order")


def main(program: str) -> int:
    try:
        subprocess.run(["strace", "-o", "/dev/null", "true"], stderr=subprocess.PIPE, check=True)
    except (OSError, subprocess.CalledProcessError) as fault:
        print(f"left out: strace isn't there or may not trace: {fault}")
        return 0
    program = os.path.realpath(program)
    with tempfile.TemporaryDirectory() as room:
        os.chdir(room)
        make_log()
        tests = Tests(program)
        tests.judge("an unbroken run", "" if tests.ended[0] == 0 and len(tests.whole.splitlines()) > 200 else f"{tests.ended}")
        tests.judge("docs/OPERATIONS.md", "" if JOIN.encode() in read(f"{TOP}/docs/OPERATIONS.md") else "it doesn't join listings as this does")
        calls = tests.next_run("first")
        play(tests.files, calls[:len(calls) // 2])
        tests.next_run("second")
        os.chdir("/")
    print(f"{tests.passed} passed, {tests.failed} failed")
    return 1 if tests.failed else 0


if __name__ == "__main__":
    if len(sys.argv) != 2:
        sys.exit("usage: power_cuts.py PROGRAM")
    sys.exit(main(sys.argv[1]))
