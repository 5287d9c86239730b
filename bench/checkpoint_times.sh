#!/usr/bin/env bash
# What a checkpoint costs: the seconds, and those of the processor, of `eql find` with a slack over three shards of 20 MB, without a
# checkpoint and with one whose cuts are put every so many rounds, the number of cuts and the bytes of the greater area, all from
# one run; and the seconds of a run that goes on from the last cut. The listings have to be equal.
#
# usage: bench/checkpoint_times.sh [PROGRAM [BYTES]]      PROGRAM is the built program, crates/eql/out/eql where none is given;
#                                                         BYTES is the size of all shards, 60,000,000 where none is given
set -euo pipefail
TIMEFORMAT='%R %U %S'

top=$(cd "$(dirname "$0")/.." && pwd)
program=$(readlink -f "${1:-$top/crates/eql/out/eql}")
bytes=${2:-60000000}
tools=$top/bench/find
room=$(mktemp -d)
trap 'rm -rf "$room"' EXIT

python3 "$tools/make_log.py" "$room" 3 $((bytes / 3)) 1
find=("$program" find --query "$tools/query.eql" --fields "$tools/fields.json" --slack 2s)

# The generation of an area is a number of 64 bits behind its first byte: how many cuts were put. An area may be empty.
cuts() { for it in 0 1; do echo 0; od -An -t u8 -j 1 -N 8 "$room/run.$it" 2>/dev/null || true; done | sort -n | tail -n 1 | tr -d ' '; }
largest() { wc -c "$room"/run.{0,1} | sort -n | sed -n 2p | awk '{ print $1 }'; }

measure() { # NAME OPTION..
    { time "${find[@]}" "${@:2}" "$room"/{0,1,2}.json >"$room/out" 2>"$room/err"; } 2>"$room/times"
    awk -v name="$1" '{ printf "%-26s %7.2f s %7.2f s of the processor", name, $1, $2 + $3 }' "$room/times"
}
measure 'no checkpoint'
echo
mv "$room/out" "$room/plain"
for every in 100 10 1; do
    rm -f "$room"/run.*
    measure "every $every rounds" --checkpoint "$room/run" --every "$every"
    printf ' %6d cuts, the greatest %d bytes\n' "$(cuts)" "$(largest)"
    cmp "$room/plain" "$room/out"
done
measure 'going on from the last' --checkpoint "$room/run" --every 1
echo
