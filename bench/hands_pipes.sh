#!/usr/bin/env bash
# Whether a shard that pauses holds up a search: `eql find` over two pipes, of which the first one stands still for 20 seconds after
# 1,024 lines, with 0, 1 and 3 hands. Printed are the seconds of the processor, which are to be at most 0.2, and how many lines were
# listed one second after the start, which are to be all that may be. All listings and reports have to be equal.
#
# How many may be listed: the query is `any where true`, so each event is a match. An event may be listed once every shard's low mark,
# its greatest time less the slack, is above its time. Line i of either pipe has the time i seconds, and the slack is 10 seconds. While
# the first pipe stands still its greatest time is 1,023 seconds, and so its low mark is 1,013. The second pipe's isn't below it: a round
# reads 256 lines of each. So of each pipe the lines with the times 0 to 1,012 may be listed. The lines before the pause fill four
# rounds, since in a round that isn't full the first thread waits for the lines that it still lacks.
#
# usage: bench/hands_pipes.sh [PROGRAM]        PROGRAM is the built program, crates/eql/out/eql where none is given
set -euo pipefail
TIMEFORMAT='%R %U %S'

top=$(cd "$(dirname "$0")/.." && pwd)
program=$(readlink -f "${1:-$top/crates/eql/out/eql}")
before=1024 all=2048 slack=10 pause=20
room=$(mktemp -d)
trap 'rm -rf "$room"' EXIT
cd "$room"

may=$((2 * (before - 1 - slack)))
echo 'any where true' >query
echo '{}' >fields

# Lines with the times from so many seconds on and before so many.
lines() { # FROM TO
    awk -v from="$1" -v to="$2" \
        'BEGIN { for (time = from; time < to; time++) printf "{\"@timestamp\":%d,\"event\":{\"category\":\"process\"}}\n", 1000 * time }'
}

met=yes
echo "two pipes, of which one stands still for $pause seconds; $may lines may be listed by then"
for hands in 0 1 3; do
    : >out
    (sleep 1 && wc -l <out >early) &
    { time "$program" find --query query --fields fields --slack "${slack}s" --hands "$hands" \
        <(lines 0 $before && sleep $pause && lines $before $all) <(lines 0 $all) >out 2>err; } 2>seconds
    wait $!
    [ -f whole.out ] || cp out whole.out
    [ -f whole.err ] || cp err whole.err
    for it in out err; do cmp "whole.$it" "$it"; done
    [ "$(wc -l <out)" = $((2 * all)) ] || { echo 'not all events are listed' >&2 && exit 1; }
    awk -v hands="$hands" -v early="$(cat early)" \
        '{ printf "%d %-5s %8.2f s %8.2f s of the processor %8d lines after one second\n", hands, hands == 1 ? "hand" : "hands", $1, $2 + $3, early }' seconds
    awk '{ exit !($2 + $3 <= 0.2) }' seconds || { met=no && echo "more than 0.2 seconds of the processor with hands: $hands"; }
    [ "$(cat early)" -ge "$may" ] || { met=no && echo "fewer lines after one second than may be listed with hands: $hands"; }
done
[ "$met" = no ] || echo 'both bars are met'
