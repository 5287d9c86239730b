#!/usr/bin/env bash
# The seconds, those of the processor, and events a second of `eql made 1000000` and of `eql find` over a million events of one shard, with one key, with
# 100,000 keys, and with a key for each event, all from one run. The sequence has three stages by user.
#
# usage: bench/find_keys.sh [PROGRAM [EVENTS]]        PROGRAM is the built program, crates/eql/out/eql where none is given
set -euo pipefail
TIMEFORMAT='%R %U %S'

top=$(cd "$(dirname "$0")/.." && pwd)
program=$(readlink -f "${1:-$top/crates/eql/out/eql}")
events=${2:-1000000}
tools=$top/bench/find
room=$(mktemp -d)
trap 'rm -rf "$room"' EXIT

measure() { # NAME COMMAND..
    local name=$1
    shift
    { time "$@" >"$room/out" 2>"$room/err"; } 2>"$room/times"
    awk -v name="$name" -v events="$events" -v lines="$(wc -l <"$room/out")" \
        '{ printf "%-26s %7.2f s %7.2f s of the processor %9.0f events/s %8d lines\n", name, $1, $2 + $3, events / $1, lines }' \
        "$room/times"
}

# An event for each line, in ascending time: of so many users one after another, each of whom goes through the stages.
make_log() { # KEYS
    awk -v events="$events" -v keys="$1" 'BEGIN {
        split("attrib bash cat", names, " ")
        for (i = 0; i < events; i++)
            printf "{\"@timestamp\":%d,\"event\":{\"category\":\"process\"},\"user\":{\"name\":\"u%d\"},\"process\":{\"name\":\"%s\"}}\n",
                i, i % keys, names[int(i / keys) % 3 + 1]
    }' >"$room/log.json"
}
printf '{"process.name":"keyword","user.name":"keyword"}' >"$room/fields.json"
printf 'sequence by user.name [process where process.name == "attrib"] [process where process.name == "bash"] [process where process.name == "cat"]' \
    >"$room/query.eql"

measure "made $events" "$program" made "$events"
for keys in 1 100000 "$events"; do
    make_log "$keys"
    measure "find, $keys keys" "$program" find --query "$room/query.eql" --fields "$room/fields.json" "$room/log.json"
done
