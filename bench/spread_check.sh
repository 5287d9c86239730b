#!/usr/bin/env bash
# Whether a search that examples/spread runs as one of each shard writes what one run over all shards does: a sequence by host
# and user over eight shards, each of which has the lines of one host. Listing and report are compared byte for byte. It tells
# the seconds of both, and those of the processor.
#
# usage: bench/spread_check.sh [PROGRAM [BYTES]]      PROGRAM is the built program, crates/eql/out/eql where none is given;
#                                                     BYTES is the size of all shards, 80,000,000 where none is given
set -euo pipefail
TIMEFORMAT='%R %U %S'

top=$(cd "$(dirname "$0")/.." && pwd)
program=$(readlink -f "${1:-$top/crates/eql/out/eql}")
bytes=${2:-80000000}
room=$(mktemp -d)
trap 'rm -rf "$room"' EXIT

python3 "$top/bench/find/make_log.py" "$room" 8 $((bytes / 8)) 3
printf '{"destination.port":"long","event.outcome":"keyword","host.id":"keyword","process.name":"keyword","user.name":"keyword"}' >"$room/fields.json"
sed 's/by user.name/by host.id, user.name/' "$top/bench/find/query.eql" >"$room/query.eql"
shards=("$room"/{0..7}.json)
find=("$program" find --query "$room/query.eql" --fields "$room/fields.json" --slack 2s)

measure() { # NAME COMMAND..
    local name=$1
    shift
    { time "$@" >"$room/$name.out" 2>"$room/$name.err"; } 2>"$room/times"
    awk -v name="$name" -v bytes="$bytes" -v matches="$(wc -l <"$room/$name.out")" \
        '{ printf "%-8s %8.2f s %8.2f s of the processor %8.1f MB/s %8d matches\n", name, $1, $2 + $3, bytes / 1e6 / $1, matches }' \
        "$room/times"
}
measure one "${find[@]}" "${shards[@]}"
measure spread "$top/examples/spread" "${find[@]}" -- "${shards[@]}"
[ -s "$room/one.out" ] || { echo 'no match, which shows nothing: take more bytes' >&2; exit 1; }
cmp "$room/one.out" "$room/spread.out"
cmp "$room/one.err" "$room/spread.err"
echo 'listing and report are the same'
