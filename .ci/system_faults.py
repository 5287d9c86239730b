#!/usr/bin/env python3
"""Whether a run in which one call of the system fails ends as docs/OPERATIONS.md says, and leaves a checkpoint to go on from.

    .ci/system_faults.py [PROGRAM [--all]]

A built program, without a word the one that ./eql runs, searches a made log under strace and puts cuts. One search begins anew without
a hand. Its calls come in the same order each time. Another one goes on from a cut with one hand. Of each kind of call that is on a
file, call after call fails: with EIO, with ENOSPC, with EINTR and with EACCES, each in a run of its own. Where a run makes more than 15
of a kind, these are the first five, the last five, five between, and the first one on each file; with --all each. After each run:

- The status and the error output are those that the table of statuses has for what the call was doing. A call that a signal
  interrupts is made again, and the run ends with status 0. lseek and statx are never interrupted: of them EINTR is as EIO.
- The listing is a front of the whole one, and on status 0 all of it.
- The checkpoint holds the last cut that was acknowledged; or the one behind it, where it stands whole in its file and the sync failed
  that was to acknowledge it.
- A run that goes on from it lists all lines behind those that this cut counts, and these are in the listings before.

With a hand the calls come in another order each time, and strace counts the calls of each thread by itself. So a run is judged by the
calls that strace marks as failed. It may be none, or one in each thread; then the least of their statuses is told. What a call was doing
is told by its file. The loader's calls come before the program's and are left out, and so the hand's first read is too.

Prints what fails, and a table: how many runs of which call on what ended how. Its last line is 'N passed, M failed', and the status is 0
where M is 0. Where strace isn't there or may not trace, one line says so, and the status is 0.
"""
import collections
import dataclasses
import os
import random
import re
import signal
import subprocess
import sys
import tempfile
from typing import Iterator, Optional

TOP = os.path.dirname(os.path.dirname(os.path.abspath(__file__)))
CHOOSE = 'top=$1; stop() { echo "$1" >&2; exit 70; }; . "$top/release/shipped.sh" && choose && echo "$program"'
ERRORS = ["EIO", "ENOSPC", "EINTR", "EACCES"]
SHARDS, AREAS = ["0.json", "1.json"], ["run.0", "run.1"]
FIND = ["find", "--query", "query.eql", "--fields", "fields.json", "--slack", "20ms", "--batch", "2", "--checkpoint", "run"]
STRACE = ["strace", "-f", "-y", "-x", "-s", "16", "-o", "trace", "-e", "trace=%file,%desc"]
# So that a hand doesn't read the whole log while one cut is put, each read takes 0.2 milliseconds. Where a read fails each sync of the
# checkpoint takes 3 instead, so that the hand comes to reads of which the first thread makes fewer.
SLOW_READS, SLOW_SYNCS = ["-e", "inject=read:delay_exit=200"], ["-e", "inject=fsync:delay_exit=3000"]
# What each file of a run is for it. Every other one below /sys and /proc tells how many processors there are.
SERVES = {"query.eql": "the query", "fields.json": "the mapping", "listing": "the listing", "/proc/self/fd/1": "the listing",
          "report": "the report"} | {shard: "a shard" for shard in SHARDS} | {area: "the checkpoint" for area in AREAS}
INPUTS = ["the query", "the mapping", "a shard"]
OPENS, STATS = ["open", "openat", "creat"], ["stat", "fstat", "newfstatat", "statx"]
NEVER_INTERRUPTED = [*STATS, "lseek"]
# What every run does. A program that left one of these out would pass all the same.
MADE_ALWAYS = [("read", "the query"), ("read", "the mapping"), ("read", "a shard"), ("read", "the checkpoint"), ("flock", "the checkpoint"),
               ("write", "the checkpoint"), ("fsync", "the checkpoint"), ("write", "the listing"), ("fdatasync", "the listing"),
               ("write", "the report")]
# Where files are in memory, so that nothing waits for a device.
MEMORY = "/dev/shm"
# How long a run may take, in seconds.
LONGEST = 60
CALL = re.compile(r"(\d+) +(\w+)\((.*)\) += (-?\d+)(.*)")
BEGUN, RESUMED = re.compile(r"(\d+) +(.*) <unfinished \.\.\.>"), re.compile(r"(\d+) +<\.\.\. \w+ resumed>(.*)")
PATH, TEXT = re.compile(r'(?:AT_FDCWD<[^>]*>, )?"([^"]+)"'), re.compile(r'"((?:\\x[0-9a-f]{2})*)"')

# Of a kind of call, as strace counts it in each thread: the first of the program's and the last one, and the first ones on each file.
Numbers = tuple[int, int, set[int]]
# A status, and what is on the error output; without it, the report.
Ending = tuple[int, Optional[str]]
DONE: Ending = (0, None)


@dataclasses.dataclass
class Call:
    """A call on a file, and what strace wrote of it."""
    line: str
    thread: int
    name: str
    file: str
    data: bytes
    result: int
    failed: str
    by_hand: bool = False

    def serves(self) -> str:
        beside = "the processors" if self.file.startswith(("/sys/", "/proc/")) else ""
        return SERVES.get(self.file, beside)

    def on(self) -> str:
        return self.serves() + (" (hand)" if self.by_hand else "")

    def ending(self) -> Ending:
        """How docs/OPERATIONS.md has a run end in which this call alone fails."""
        of = self.serves()
        if self.failed == "EINTR" and self.name not in NEVER_INTERRUPTED:
            return DONE
        # What counts was synced before its file is closed. Where the number of processors isn't told there is another number of hands.
        if self.name == "close" or of == "the processors":
            return DONE
        if of in INPUTS:
            # The metadata of a file that is read is a hint alone.
            return DONE if self.name in STATS else (4, f"read fault: {self.file}\n")
        if of == "the listing":
            # To be synced it is opened to be read or, where that fails, to be written.
            return DONE if self.name in OPENS else (5, "write fault\n")
        return (5, "") if of == "the report" else (6, "checkpoint disk fault\n")


def whole_lines() -> Iterator[str]:
    """The lines of a trace. A call that others interrupted in it stands where it returned."""
    begun: dict[str, str] = {}
    with open("trace", encoding="ascii") as trace:
        for line in trace.read().splitlines():
            if part := BEGUN.fullmatch(line):
                begun[part[1]] = line[:part.end(2)]
            elif part := RESUMED.fullmatch(line):
                yield begun.pop(part[1]) + part[2]
            else:
                yield line


def call_of(line: str) -> Optional[Call]:
    """The call of a line, where it is one on a file."""
    part = CALL.fullmatch(line)
    if not part:
        return None
    words, text = part[3], TEXT.search(part[3])
    path = PATH.match(words) or re.match(r"\d+<([^>]*)>", words)
    if not path:
        return None
    data = bytes.fromhex(text[1].replace("\\x", "")) if text else b""
    failed = part[5].split()[0] if part[5].endswith("(INJECTED)") else ""
    return Call(line, int(part[1]), part[2], path[1].removeprefix(os.getcwd() + "/"), data, int(part[4]), failed)


def read_trace() -> list[Call]:
    """The calls of the loader and those of the program, in the order in which they returned."""
    calls = [call for line in whole_lines() if (call := call_of(line))]
    for call in calls:
        call.by_hand = call.thread != calls[0].thread
    return calls


def loader_calls(calls: list[Call]) -> int:
    """How many calls the loader made. The program's first one is on the query."""
    return next((place for place, call in enumerate(calls) if call.serves() == "the query"), len(calls))


def read(name: str) -> bytes:
    with open(name, "rb") as file:
        return file.read()


def write(name: str, text: bytes) -> None:
    with open(name, "wb") as file:
        file.write(text)


def make_log(width: int) -> None:
    """Two shards of 64 lines of so many bytes. Neither the listing nor the report tells how many."""
    pick = random.Random(1)
    for shard in SHARDS:
        with open(shard, "w", encoding="ascii") as log:
            for number in range(64):
                time, user, name = 1000 + number * 10 + pick.randrange(-15, 15), pick.randrange(3), pick.choice("ab")
                event = f'{{"@timestamp":{time},"user":{{"name":"u{user}"}},"process":{{"name":"{name}"}}}}'
                log.write(event.ljust(width) + "\n")
    write("query.eql", b'sequence by user.name with maxspan=2s [any where process.name == "a"] [any where process.name == "b"]')
    write("fields.json", b'{"process.name":"keyword","user.name":"keyword"}')


def run(*command: str) -> tuple[int, str]:
    """The status of a command and its error output. Its output is the file `listing`."""
    with open("listing", "wb") as out, open("report", "wb") as err:
        with subprocess.Popen(command, stdin=subprocess.DEVNULL, stdout=out, stderr=err, start_new_session=True) as process:
            try:
                status = process.wait(LONGEST)
            except subprocess.TimeoutExpired:
                os.killpg(process.pid, signal.SIGKILL)
                return -1, f"no end within {LONGEST} seconds"
    return status, read("report").decode()


def held_cut() -> int:
    """The generation of the cut that the checkpoint holds; 0 where it holds none."""
    areas = [read(area) for area in AREAS if os.path.exists(area)]
    return max((int.from_bytes(area[1:9], "little") for area in areas if area[:1] == b"\1"), default=0)


class Cuts:
    """The cuts of a checkpoint, by the calls of a run: which it holds, which was acknowledged last, and how many lines each counts."""

    def __init__(self, held: int, counted: int) -> None:
        self.held = self.acknowledged = held
        self.counted = {held: counted}
        self.before = counted
        # Of each area the generation that was written there.
        self.written: dict[str, int] = {}

    def take(self, calls: list[Call], listing: bytes) -> None:
        length = 0
        for call in calls:
            if call.name == "write" and call.file == "listing":
                length += max(call.result, 0)
            elif call.name == "write" and call.file in AREAS and call.result > 0:
                self.take_write(call, self.before + listing[:length].count(b"\n"))
            elif call.name == "fsync" and call.result == 0 and self.written.get(call.file) == self.held:
                self.acknowledged = self.held

    def take_write(self, call: Call, lines: int) -> None:
        if call.result > 1:
            generation = int.from_bytes(call.data[:8], "little")
            self.written[call.file], self.counted[generation] = generation, lines
        elif call.data == b"\1":
            self.held = self.written[call.file]


def kinds_of(calls: list[Call]) -> dict[str, Numbers]:
    """Of each kind the calls of a run that may fail."""
    counts, files, found = collections.Counter[tuple[str, int]](), set(), dict[str, Numbers]()
    loader = loader_calls(calls)
    for place, call in enumerate(calls):
        counts[call.name, call.thread] += 1
        if place >= loader:
            count = counts[call.name, call.thread]
            first, last, firsts = found.get(call.name, (count, count, set()))
            new = set() if call.by_hand or (call.name, call.file) in files else {count}
            files.add((call.name, call.file))
            found[call.name] = (first, max(last, count), firsts | new)
    return found


def picked(first: int, last: int, firsts: set[int], every_call: bool) -> list[int]:
    """The numbers of the calls of a kind that fail."""
    numbers = list(range(first, last + 1))
    if every_call or len(numbers) <= 15:
        return numbers
    return sorted({*numbers[:5], *random.Random(last).sample(numbers[5:-5], 5), *numbers[-5:], *firsts})


class Search:
    """A search that is run again and again from the same checkpoint."""

    def __init__(self, name: str, program: str, hands: int, every: int) -> None:
        self.name, self.program, self.hands = name, program, hands
        self.words = [*FIND, "--hands", str(hands), "--every", str(every), *SHARDS]
        # The files of the checkpoint, those that are there, the cut that they hold, and the lines that this one counts.
        self.areas: dict[str, bytes] = {}
        self.cut = (0, 0)
        # The program's calls in plain runs, and which of each kind there are.
        self.plain: list[Call] = []
        self.kinds: dict[str, Numbers] = {}

    def lay_out(self) -> None:
        for area in AREAS:
            if os.path.exists(area):
                os.remove(area)
        for area, text in self.areas.items():
            write(area, text)

    def traced(self, failing: str = "", rule: str = "") -> tuple[tuple[int, str], list[Call]]:
        """A run, in which calls of a kind fail by a rule of strace."""
        self.lay_out()
        fails = ["-e", f"inject={failing}:{rule}"] if failing else []
        slow = SLOW_SYNCS if failing == "read" else SLOW_READS
        ended = run(*STRACE, *(slow if self.hands else []), *fails, self.program, *self.words)
        return ended, read_trace()

    def cuts(self, calls: list[Call]) -> Cuts:
        cuts = Cuts(*self.cut)
        cuts.take(calls, read("listing"))
        return cuts

    def go_on_from(self, other: "Search") -> None:
        """Begins with the checkpoint that another search leaves of which the second put fails, at the sync of its cut."""
        _, calls = other.traced("fsync", "error=EIO:when=7")
        cuts = other.cuts(calls)
        self.areas, self.cut = {area: read(area) for area in AREAS}, (cuts.held, cuts.counted[cuts.held])

    def look(self) -> list[tuple[int, str]]:
        """Makes three plain runs, since those with a hand differ, and takes the numbers of the middle one. Returns how they ended."""
        runs = [self.traced() for _ in range(3)]
        numbered = [kinds_of(calls) for _, calls in runs]
        self.plain = [call for _, calls in runs for call in calls[loader_calls(calls):]]
        for kind in sorted({call.name for call in self.plain}):
            found = [those[kind] for those in numbered if kind in those]
            self.kinds[kind] = sorted(found, key=lambda numbers: numbers[1])[len(found) // 2]
        return [ended for ended, _ in runs]


class Tests:
    def __init__(self, program: str, every_call: bool) -> None:
        self.program, self.every_call = program, every_call
        self.passed = self.failed = 0
        # Of each row of the table the errors, and how many runs ended so.
        self.rows: dict[tuple[str, str, str, str], collections.Counter[str]] = collections.defaultdict(collections.Counter)
        # Of the calls on a thing in a search the errors with which some failed.
        self.tried: dict[tuple[str, str, str], set[str]] = collections.defaultdict(set)
        # What was wrong with runs that went on, by the lines before and the files of the checkpoint. From the same ones a run goes on once.
        self.gone_on: dict[tuple, list[str]] = {}
        self.report = run(program, *FIND[:-2], *SHARDS)[1]
        self.whole = read("listing").splitlines(keepends=True)

    def judge(self, name: str, faults: list[str], calls: list[Call]) -> None:
        if faults:
            print(f"FAILED: {name}: {'; '.join(faults)}", *[call.line for call in calls if call.failed], sep="\n    ")
        self.passed, self.failed = self.passed + (not faults), self.failed + (faults != [])

    def search(self, search: Search) -> None:
        """Has call after call of a search fail."""
        self.plain_runs(search)
        for kind, numbers in search.kinds.items():
            for number in picked(*numbers, self.every_call):
                for error in ERRORS:
                    self.fault(search, kind, number, error)
        self.judge(f"{search.name}: what fails", self.not_tried(search), [])

    def plain_runs(self, search: Search) -> None:
        faults = [f"status {status}: {text!r}" for status, text in search.look() if (status, text) != (0, self.report)]
        made = {(call.name, call.serves()) for call in search.plain}
        faults += [f"no {kind} on {what}" for kind, what in MADE_ALWAYS if (kind, what) not in made]
        unknown = [call.line for call in search.plain if not call.serves()]
        self.judge(f"{search.name}: plain runs", faults + [f"a call isn't understood: {line}" for line in unknown[:1]], [])

    def fault(self, search: Search, kind: str, number: int, error: str) -> None:
        """Lets a call fail in each thread that makes so many of its kind."""
        ended, calls = search.traced(kind, f"error={error}:when={number}")
        hit = [call for call in calls if call.failed]
        faults = self.wrong_ending(search, ended, hit) + self.wrong_checkpoint(search, calls, ended[0])
        self.judge(f"{search.name}: {kind} {number} with {error}", faults, hit)
        for call in hit:
            self.tried[search.name, kind, call.on()].add(error)
        on = " and ".join(sorted(call.on() for call in hit)) or "not made in this run"
        text = "" if ended == (0, self.report) else re.sub(r"(?<=^read fault: ).*", "NAME", ended[1].strip()) or "nothing told"
        self.rows[(search.name, kind, on, f"{ended[0]} {text}".strip())][error] += 1

    def wrong_ending(self, search: Search, ended: tuple[int, str], hit: list[Call]) -> list[str]:
        endings = [it for call in hit if (it := call.ending()) != DONE]
        least = min((status for status, _ in endings), default=0)
        right = [(status, text) for status, text in endings if status == least] or [(0, self.report)]
        faults = [] if ended in right else [f"status {ended[0]}: {ended[1]!r}, and not {right}"]
        listing, whole = read("listing"), b"".join(self.whole[search.cut[1]:])
        # Where the error output alone fails the listing is there whole, too.
        is_right = listing == whole if ended[0] == 0 or ended == (5, "") else whole.startswith(listing)
        return faults if is_right else faults + [f"the listing has {len(listing)} bytes, and isn't as it should be of {len(whole)}"]

    def wrong_checkpoint(self, search: Search, calls: list[Call], status: int) -> list[str]:
        """What is wrong with the checkpoint that a run leaves, and with a run that goes on from it."""
        cuts, held = search.cuts(calls), held_cut()
        if held != cuts.held:
            return [f"the checkpoint holds cut {held}, and by the calls cut {cuts.held}"]
        behind = [call for call in calls if call.failed and call.name == "fsync" and cuts.written.get(call.file) == held]
        if held != cuts.acknowledged and not (held == cuts.acknowledged + 1 and behind and status != 0):
            return [f"the checkpoint holds cut {held}, and the last one acknowledged is {cuts.acknowledged}"]
        counted = cuts.counted[held]
        if counted > search.cut[1] + read("listing").count(b"\n"):
            return [f"cut {held} counts {counted} lines, which weren't all listed"]
        left = (counted, *[read(area) if os.path.exists(area) else None for area in AREAS])
        if left not in self.gone_on:
            self.gone_on[left] = self.go_on(counted)
        return self.gone_on[left]

    def go_on(self, counted: int) -> list[str]:
        """What is wrong with a run that goes on from a checkpoint whose cut counts so many lines."""
        ended = run(self.program, *FIND, "--hands", "1", "--every", "1000", *SHARDS)
        faults = [] if ended == (0, self.report) else [f"the run that goes on ends with status {ended[0]}: {ended[1]!r}"]
        listed = read("listing") == b"".join(self.whole[counted:])
        return faults if listed else faults + [f"the run that goes on doesn't list the lines from {counted + 1} on"]

    def not_tried(self, search: Search) -> list[str]:
        """What should have failed with each error; in a search with a hand what the hand does, with one of them."""
        made = sorted({(call.name, call.on()) for call in search.plain if call.by_hand or not search.hands})
        least = 1 if search.hands else len(ERRORS)
        return [f"too few of {kind} on {on}" for kind, on in made if len(self.tried[search.name, kind, on]) < least]

    def table(self) -> Iterator[str]:
        rows = [["search", "call", "on", "with", "runs", "ended with"]]
        for key, errors in sorted(self.rows.items()):
            rows.append([*key[:3], " ".join(it for it in ERRORS if errors[it]), str(sum(errors.values())), key[3]])
        widths = [max(len(row[column]) for row in rows) for column in range(len(rows[0]))]
        return ("  ".join(word.ljust(width) for word, width in zip(row, widths)).rstrip() for row in rows)


def chosen() -> str:
    """The program that ./eql runs."""
    found = subprocess.run(["bash", "-c", CHOOSE, "choose", TOP], stdout=subprocess.PIPE, text=True, check=False)
    return found.stdout.strip() or sys.exit("there is no program to test: './eql made 0' proves and builds one")


def main(program: str, every_call: bool) -> int:
    try:
        subprocess.run(["strace", "-o", "/dev/null", "true"], stderr=subprocess.PIPE, check=True)
    except (OSError, subprocess.CalledProcessError) as fault:
        print(f"left out: strace isn't there or may not trace: {fault}")
        return 0
    program = os.path.realpath(program)
    with tempfile.TemporaryDirectory(dir=MEMORY if os.access(MEMORY, os.W_OK) else None) as room:
        os.chdir(os.path.realpath(room))
        make_log(4100)
        tests = Tests(program, every_call)
        anew, going_on = Search("anew", program, 0, 8), Search("going on", program, 1, 2)
        tests.search(anew)
        # There is a hand from 4 MiB on.
        make_log(32800)
        going_on.go_on_from(anew)
        tests.judge("going on: its cut", [] if 0 < going_on.cut[1] < len(tests.whole) else [f"cut and lines are {going_on.cut}"], [])
        tests.search(going_on)
        os.chdir("/")
    print(*tests.table(), f"{tests.passed} passed, {tests.failed} failed", sep="\n")
    return 1 if tests.failed else 0


if __name__ == "__main__":
    if len(sys.argv) > 3 or sys.argv[2:] not in ([], ["--all"]):
        sys.exit("usage: .ci/system_faults.py [PROGRAM [--all]]")
    sys.exit(main(sys.argv[1] if len(sys.argv) > 1 else chosen(), len(sys.argv) == 3))
