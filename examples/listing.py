"""What the scripts of this folder share: the listing of a search, and the lines of the log that it names."""
import json
import re
from calendar import timegm
from dataclasses import dataclass
from datetime import datetime
from typing import Any, BinaryIO, Iterable, Iterator

# A line of the log is at most so long, without its line feed.
LONGEST = 1048576
NUMBER = re.compile(r"[1-9][0-9]* ")
EVENT = re.compile(r" ([0-9]+):([1-9][0-9]*)(?:@([0-9]+))?")
TIME = re.compile(r"(\d{4}-\d\d-\d\d)(?:[Tt ](\d\d:\d\d:\d\d)(?:[.,](\d{1,9}))?(?:[Zz]|([+-])(\d\d):(\d\d))?)?")


class Stop(Exception):
    """Ends a script, with what it tells on the error output."""


class Missing(Stop):
    """A file isn't there."""


class Fault(Stop):
    """A file is there and can't be read."""


class Unfit(Stop):
    """A listing, or a line that it names, isn't what it has to be."""


@dataclass(frozen=True)
class Place:
    """An event of a listing: its shard from 0, its line from 1, and how many bytes of the shard stand before that line."""
    shard: int
    line: int
    at: int


@dataclass(frozen=True)
class Match:
    """A line of a listing. The name is what comes before the key: the match's number."""
    name: str
    keys: list[Any]
    events: list[Place]


def opened(name: str) -> BinaryIO:
    try:
        return open(name, "rb")
    except (FileNotFoundError, NotADirectoryError):
        raise Missing(f"no file {name!a}") from None
    except OSError as fault:
        raise Fault(f"read fault: {name!a}: {fault.strerror}") from None


def text_of(name: str) -> str:
    """The whole of a small file, as UTF-8."""
    try:
        with opened(name) as file:
            return file.read().decode()
    except OSError as fault:
        raise Fault(f"read fault: {name!a}: {fault.strerror}") from None
    except UnicodeDecodeError:
        raise Unfit(f"{name!a} isn't UTF-8") from None


def name_of(text: str) -> tuple[str, int]:
    """The name with which a line of a listing begins, and where the rest of that line begins."""
    head = NUMBER.match(text)
    if head is None:
        raise Unfit("not a number, a key and events")
    return head[0][:-1], head.end()


def place_of(event: re.Match[str]) -> Place:
    if event[3] is None:
        raise Unfit("an event without its place: the listing is to be made with --places")
    return Place(int(event[1]), int(event[2]), int(event[3]))


def match_of(text: str) -> Match:
    """A line of a listing. The key is skipped as JSON, since its texts may hold blanks."""
    name, at = name_of(text)
    try:
        keys, at = json.JSONDecoder().raw_decode(text, at)
    except (ValueError, RecursionError):
        keys = None
    events = []
    while isinstance(keys, list) and (event := EVENT.match(text, at)):
        events.append(place_of(event))
        at = event.end()
    if not events or at != len(text):
        raise Unfit("not a number, a key and events")
    return Match(name, keys, events)


def lines_of(listing: BinaryIO) -> Iterator[str]:
    """The lines of a listing, each without its line feed. A fault is told with the number of the line that it befalls."""
    number = 0
    try:
        for number, line in enumerate(listing, 1):
            yield line.removesuffix(b"\n").decode()
    except OSError as fault:
        raise Fault(f"read fault: the listing: {fault.strerror}") from None
    except UnicodeDecodeError:
        raise Unfit(f"line {number} of the listing: not UTF-8") from None


def line_at(shards: list[BinaryIO], place: Place) -> bytes:
    """The line that begins at a place of a shard, without its line feed."""
    if place.shard >= len(shards):
        raise Unfit(f"an event of shard {place.shard}, where {len(shards)} shards are named")
    shard = shards[place.shard]
    before = min(place.at, 1)
    try:
        shard.seek(place.at - before)
        end_before = shard.read(before)
        line = shard.readline(LONGEST + 1).removesuffix(b"\n")
    except OSError as fault:
        raise Fault(f"read fault: {shard.name!a}: {fault}") from None
    except (OverflowError, ValueError):
        # No file is so long.
        end_before, line = b"", b""
    if end_before not in (b"", b"\n") or not line or len(line) > LONGEST:
        raise Unfit(f"no line of {shard.name!a} begins behind {place.at} bytes: are these the shards of the run, in its order?")
    return line


def followed(lines: Iterable[str], shards: list[BinaryIO]) -> Iterator[tuple[str, Match, list[bytes]]]:
    """Each line of a listing, the match that it is, and the lines of its events."""
    for number, text in enumerate(lines, 1):
        try:
            match = match_of(text)
            events = [line_at(shards, place) for place in match.events]
        except Stop as stop:
            raise type(stop)(f"line {number} of the listing: {stop}") from None
        yield text, match, events


def nanoseconds(value: Any) -> int:
    """The time of an event, which the program has read, since 1970."""
    if isinstance(value, int):
        return value * 1000000
    found = TIME.fullmatch(value)
    if found is None:
        raise ValueError(f"a time of another form: {value!a}")
    day, clock, fraction, sign, hours, minutes = found.groups()
    seconds = timegm(datetime.fromisoformat(f"{day}T{clock or '00:00:00'}").timetuple())
    if sign:
        seconds -= int(sign + "1") * (int(hours) * 3600 + int(minutes) * 60)
    return seconds * 1000000000 + int((fraction or "").ljust(9, "0"))


def reached(value: Any, path: str | None) -> list[Any]:
    """The values of an event under a dotted name, through objects, dotted names and arrays."""
    if isinstance(value, list):
        return [it for part in value for it in reached(part, path)]
    if isinstance(value, dict):
        return [it for name in value if path is not None and (path == name or path.startswith(name + "."))
                for it in reached(value[name], path[len(name) + 1:] or None)]
    return [value] if value is not None and path is None else []


def event_of(line: bytes) -> tuple[Any, int]:
    """An event as its line has it, and its time."""
    try:
        event = json.loads(line)
        (time,) = reached(event, "@timestamp")
        return event, nanoseconds(time)
    except (TypeError, ValueError, RecursionError):
        raise Unfit("no JSON with a time: are these the shards of the run, in its order?") from None
