#!/usr/bin/env bash
# The most memory that `eql find` held, in kilobytes: over 64 shards of 16 MiB, and over a line of 200 megabytes. The query is
# that of find_times.sh. The shards take 1 GiB of the disk while this runs.
#
# usage: bench/find_memory.sh [PROGRAM]        PROGRAM is the built program, crates/eql/out/eql where none is given
set -euo pipefail

top=$(cd "$(dirname "$0")/.." && pwd)
program=$(readlink -f "${1:-$top/crates/eql/out/eql}")
tools=$top/bench/find
room=$(mktemp -d)
trap 'rm -rf "$room"' EXIT

# Runs the search over some shards, and tells its seconds and the most memory that it held, in kilobytes.
measure() { # NAME SHARD..
    printf '%s: ' "$1"
    python3 "$tools/most_held.py" "$room/report" "$program" find --query "$tools/query.eql" --fields "$tools/fields.json" "${@:2}"
    awk '{ lines += $4; accepted += $6; rejected += $10 }
        END { printf "    %d lines, %d accepted, %d rejected\n", lines, accepted, rejected }' "$room/report"
}

python3 "$tools/make_log.py" "$room" 64 16777216 2
mapfile -t shards < <(seq -f "$room/%g.json" 0 63)
measure '64 shards of 16 MiB' "${shards[@]}"
rm "${shards[@]}"
{ printf '{"@timestamp":1,"x":"'; head -c 200000000 /dev/zero | tr '\0' x; printf '"}\n{"@timestamp":2}\n'; } >"$room/long.json"
measure 'a line of 200 MB, and one more' "$room/long.json"
