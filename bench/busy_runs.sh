#!/usr/bin/env bash
# Begins two runs of the built program with one checkpoint over three shards of 10 megabytes, 100 times: the second one at a random
# moment, from the first one's begin to somewhat behind its end. One of them has to be told Busy and list nothing, while the other lists
# everything; or one lists everything, and the other, that came behind it, what a run lists that goes on from its last cut. A third run
# then finds this cut.
#
# usage: bench/busy_runs.sh [PROGRAM [PAIRS]]        PROGRAM is the built program, crates/eql/out/eql where none is given
set -euo pipefail

top=$(cd "$(dirname "$0")/.." && pwd)
program=$(readlink -f "${1:-$top/crates/eql/out/eql}")
pairs=${2:-100}
tools=$top/bench/find
room=$(mktemp -d)
trap 'rm -rf "$room"' EXIT
cd "$room"

# Without hands the cuts lie at the same places each time.
python3 "$tools/make_log.py" "$room" 3 10000000 1
words=(find --query "$tools/query.eql" --fields "$tools/fields.json" --slack 1s --hands 0 --checkpoint disk --every 20)
begin() { # NAME
    exec "$program" "${words[@]}" 0.json 1.json 2.json >"$1.out" 2>"$1.err"
}
begun=$(date +%s%N)
(begin whole)
took=$((($(date +%s%N) - begun) / 1000000))
(begin later)
[ "$(wc -l <whole.out)" -gt "$(wc -l <later.out)" ] || { echo 'no cut counts a line'; exit 1; }
cmp whole.err later.err
printf 'checkpoint: Busy\n' >busy.err
: >busy.out

# Whether a run ended as one of these names says.
is() { # NAME STATUS WANTED
    local status=0
    [ "$3" != busy ] || status=7
    [ "$2" = "$status" ] && cmp -s "$1.out" "$3.out" && cmp -s "$1.err" "$3.err"
}
are() { # WANTED WANTED, of the two runs in any order
    { is one "$first" "$1" && is two "$second" "$2"; } || { is one "$first" "$2" && is two "$second" "$1"; }
}

told=0 followed=0
for pair in $(seq "$pairs"); do
    rm -f disk.0 disk.1
    (begin one) &
    one=$!
    wait_ms=$((RANDOM * took * 3 / 65536))
    sleep "$((wait_ms / 1000)).$(printf '%03d' $((wait_ms % 1000)))"
    (begin two) &
    two=$!
    first=0 second=0
    wait "$one" || first=$?
    wait "$two" || second=$?
    if are whole busy; then
        told=$((told + 1))
    elif are whole later; then
        followed=$((followed + 1))
    else
        echo "pair $pair, the second one $wait_ms ms behind the first: status $first with $(wc -l <one.out) lines, and status $second with $(wc -l <two.out)"
        exit 1
    fi
    third=0
    (begin three) || third=$?
    is three "$third" later || { echo "pair $pair: a third run ends with $third, and lists $(wc -l <three.out) lines"; exit 1; }
done
echo "$pairs pairs of runs: one of the two was told Busy in $told, and one came behind the other in $followed; each listing was right"
