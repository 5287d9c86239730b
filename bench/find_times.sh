#!/usr/bin/env bash
# The seconds, those of the processor, and the megabytes a second of `eql find`, of Python's json, of jq with sort and awk, and
# of C++ over simdjson, for one and the same sequence of three stages by one key over the same three shards of 20 megabytes, all
# from one run. Each tool runs once over files that were just written. The listings have to be equal. A tool that the machine
# lacks is left out.
#
# usage: bench/find_times.sh [PROGRAM]        PROGRAM is the built program, crates/eql/out/eql where none is given
set -euo pipefail
TIMEFORMAT='%R %U %S'

top=$(cd "$(dirname "$0")/.." && pwd)
program=$(readlink -f "${1:-$top/crates/eql/out/eql}")
tools=$top/bench/find
room=$(mktemp -d)
trap 'rm -rf "$room"' EXIT

python3 "$tools/make_log.py" "$room" 3 20000000 1
shards=("$room"/{0,1,2}.json)
bytes=$(cat "${shards[@]}" | wc -c)
echo "three shards, $bytes bytes, $(cat "${shards[@]}" | wc -l) lines"

# Runs a tool, and tells its time, its speed and how many matches it found.
measure() { # NAME COMMAND..
    local name=$1
    shift
    { time "$@" >"$room/$name.out" 2>"$room/$name.err"; } 2>"$room/times"
    awk -v name="$name" -v bytes="$bytes" -v matches="$(wc -l <"$room/$name.out")" \
        '{ printf "%-12s %8.2f s %8.2f s of the processor %8.1f MB/s %8d matches\n", name, $1, $2 + $3, bytes / 1e6 / $1, matches }' \
        "$room/times"
    cmp "$room/find.out" "$room/$name.out"
}
measure find "$program" find --query "$tools/query.eql" --fields "$tools/fields.json" "${shards[@]}"
measure python-json python3 "$tools/by_json.py" "${shards[@]}"
if command -v jq >/dev/null; then
    measure jq-awk "$tools/by_jq.sh" "${shards[@]}"
else
    echo 'jq-awk       left out: no jq here'
fi
# Without a C++ compiler or the library (Debian's g++ and libsimdjson-dev) it isn't built.
if g++ -O3 -std=c++17 -o "$room/by_simdjson" "$tools/by_simdjson.cpp" -lsimdjson 2>/dev/null; then
    measure simdjson "$room/by_simdjson" "${shards[@]}"
else
    echo 'simdjson     left out: no simdjson here'
fi
