#!/usr/bin/env bash
# The most memory that `eql find` held over logs of 100 MB, 1 GB and 4 GB, with a slack, and the ratio of the last to the first.
# Each log is three shards whose lines are alike in all; only their number differs. It takes 4 GB of the disk while this runs.
# The shards' times drift apart by chance, by some hundreds of lines in the greatest log, and a lane that runs ahead holds its
# events until the others have come as far: so the ratio is a little above 1.
#
# usage: bench/find_flat.sh [PROGRAM [BYTES..]]        PROGRAM is the built program, crates/eql/out/eql where none is given;
#                                                      BYTES are the sizes of the logs, where they aren't to be those above
set -euo pipefail

top=$(cd "$(dirname "$0")/.." && pwd)
program=$(readlink -f "${1:-$top/crates/eql/out/eql}")
sizes=("${@:2}")
[ "${#sizes[@]}" -gt 0 ] || sizes=(100000000 1000000000 4000000000)
tools=$top/bench/find
room=$(mktemp -d)
trap 'rm -rf "$room"' EXIT

# Writes three shards of so many bytes together, runs the search over them, and tells its seconds and the most memory that it
# held, in kilobytes as the last word but one.
measure() { # BYTES
    python3 "$tools/make_log.py" "$room" 3 $(($1 / 3)) 1
    printf '%d MB: ' $(($1 / 1000000))
    python3 "$tools/most_held.py" "$room/report" "$program" find --query "$tools/query.eql" --fields "$tools/fields.json" --slack 2s "$room"/{0,1,2}.json
    rm "$room"/{0,1,2}.json
}
for size in "${sizes[@]}"; do measure "$size"; done | tee "$room/told"
awk 'NR == 1 { first = $(NF - 1) } { last = $(NF - 1) } END { printf "ratio %.2f\n", last / first }' "$room/told"
