#!/usr/bin/env bash
# What a checkpoint costs: the seconds of `eql find` over two million events of one shard while 100,000 sequences are pending,
# without a checkpoint and with a cut after every 100 rounds of 4,096 lines, all from one run of this script. It runs with the one
# hand that is the default, and without hands, whose rounds are shorter and whose cuts so are more; over lines of some 100 bytes, which
# have no field that the query doesn't use, and over lines as long as those of the shipped example, some 300 bytes. Runs without and
# with cuts take turns, seven of each, so that what else the machine does meets both. It prints the medians, and which part of the time
# the cuts cost by them. A tenth at most is wanted.
#
# usage: bench/pending_times.sh [PROGRAM [EVENTS]]        PROGRAM is the built program, crates/eql/out/eql where none is given
set -euo pipefail

top=$(cd "$(dirname "$0")/.." && pwd)
program=$(readlink -f "${1:-$top/crates/eql/out/eql}")
events=${2:-2000000}
room=$(mktemp -d)
trap 'rm -rf "$room"' EXIT
cd "$room"

# The first event of each of 100,000 users begins a sequence that stays pending. What comes then is of other processes.
make_log() { # MORE, the fields that each line has besides
    awk -v events="$events" -v more="$1" 'BEGIN {
        for (i = 0; i < events; i++)
            printf "{\"@timestamp\":%d,\"event\":{\"category\":\"process\"},\"user\":{\"name\":\"u%d\"},\"process\":{\"name\":\"%s\"}%s}\n",
                i, i % 100000, i < 100000 ? "attrib" : "vi", more
    }' >log.json
}
host=',"host":{"id":"desk-7","name":"desk-7.example","os":{"family":"windows","version":"10.0"},"ip":["10.0.0.71"]}'
parent=',"parent":{"name":"explorer.exe","pid":5700,"command_line":"explorer.exe /factory","args_count":2},"sequence":70053'
printf '{"process.name":"keyword","user.name":"keyword"}' >fields.json
printf 'sequence by user.name [process where process.name == "attrib"] [process where process.name == "bash"]' >query.eql
words=(find --query query.eql --fields fields.json --slack 0ms --batch 4096)

# The nanoseconds of a run with these words.
took() { # WORD..
    local begun
    rm -f disk.0 disk.1
    begun=$(date +%s%N)
    "$program" "${words[@]}" "$@" log.json >out 2>err
    echo $(($(date +%s%N) - begun))
}
for more in '' "$host$parent"; do
    make_log "$more"
    echo "lines of $(($(stat -c %s log.json) / events)) bytes"
    for hands in 1 0; do
        rm -f without with
        for _ in 1 2 3 4 5 6 7; do
            took --hands "$hands" >>without
            took --hands "$hands" --checkpoint disk --every 100 >>with
        done
        without=$(sort -n without | sed -n 4p)
        with=$(sort -n with | sed -n 4p)
        bytes=$(cat disk.0 disk.1 | wc -c)
        awk -v hands="$hands" -v without="$without" -v with="$with" -v bytes="$bytes" -v events="$events" 'BEGIN {
            printf "--hands %d, without a checkpoint %7.2f s %9.0f events/s\n", hands, without / 1e9, events * 1e9 / without
            printf "--hands %d, with --every 100     %7.2f s %9.0f events/s, %.1f MB on the disk\n", hands, with / 1e9, events * 1e9 / with, bytes / 1e6
            printf "--hands %d: cuts cost %.3f of the time\n", hands, (with > without) ? (with - without) / with : 0
        }'
    done
done
