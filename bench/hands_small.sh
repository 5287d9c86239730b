#!/usr/bin/env bash
# Whether runs over small logs with hands ever hang, or write anything else: 10,000 runs with 1 to 16 hands beside twice as many busy
# loops as there are cores, which the script starts and ends. As many runs go on at once as there are cores. A run that takes a minute
# has hung. Each has to write, with the same status, what a run over the same log without hands did.
#
# A search over small files starts no hand. So of nine runs
#
# - four are `eql made` with 0, 7, 201 and 1,001 events: texts in memory don't tell what they are, so all hands are there that are
#   asked for,
# - four are over four shards of 0 to 40 lines with a last line of 4 MiB behind them, with a slack and without one. That line is too
#   long to be read, and is passed over in some milliseconds. By their bytes there may be four hands; there are fewer where there are
#   fewer further processors,
# - one is the example of README, which has none.
#
# usage: bench/hands_small.sh [PROGRAM [RUNS]]        PROGRAM is the built program, crates/eql/out/eql where none is given; RUNS is how
#                                                     many runs, 10,000 where none is given
set -euo pipefail

top=$(cd "$(dirname "$0")/.." && pwd)
program=$(readlink -f "${1:-$top/crates/eql/out/eql}")
runs=${2:-10000}
limit=60
at_once=$(nproc)
room=$(mktemp -d)
loops=() players=()

# Ends these processes, if there are any.
end_all() { # PROCESS..
    [ $# -gt 0 ] || return 0
    kill "$@" 2>/dev/null || true
    wait "$@" 2>/dev/null || true
}
# Starts so many busy loops. One that nobody ends does so itself after an hour of the processor.
begin_load() { # COUNT
    for ((number = 0; number < $1; number++)); do
        (ulimit -t 3600 && exec sh -c 'while :; do :; done') &
        loops+=($!)
    done
}
trap 'end_all "${loops[@]}" "${players[@]}"; rm -rf "$room"' EXIT
trap 'exit 129' HUP
trap 'exit 130' INT
trap 'exit 143' TERM
cd "$room"

cp "$top"/examples/{break-in.eql,fields.json,gate-1.json,desk-7.json} .
echo 'sequence by user.name [any where true] [any where true]' >query
echo '{"user.name":"keyword"}' >fields
for shard in 0 1 2 3; do
    awk -v shard="$shard" 'BEGIN {
        for (line = 0; line < (shard + 1) * 10 * (shard != 2); line++)
            printf "{\"@timestamp\":%d,\"event\":{\"category\":\"process\"},\"user\":{\"name\":\"u%d\"}}\n", line * 1000 + shard, (line + shard) % 7
    }' >"$shard.json"
    truncate -s "$(($(wc -c <"$shard.json") + 4194304))" "$shard.json"
done

# The words of a search but for its hands, and behind them its shards or its number of events. The kinds count from 0.
files=(find --query query --fields fields)
words=(made made made made "${files[*]} --slack 5s" "${files[*]}" 'find --query break-in.eql --fields fields.json --slack 1m')
logs=(0 7 201 1001 '0.json 1.json 2.json 3.json' '0.json 1.json 2.json 3.json' 'gate-1.json desk-7.json')
kinds=(0 1 2 3 4 5 4 5 6)

# Runs a search of a kind with so many hands, and writes what it wrote, with its status, into files of this name.
run() { # NAME KIND HANDS
    local status=0 before behind
    read -ra before <<<"${words[$2]}"
    read -ra behind <<<"${logs[$2]}"
    timeout -k 5 "$limit" "$program" "${before[@]}" --hands "$3" "${behind[@]}" >"$1.out" 2>"$1.err" || status=$?
    echo "$status" >"$1.status"
}
for kind in "${!words[@]}"; do
    run "whole-$kind" "$kind" 0
    [ "$(cat "whole-$kind.status")" = 0 ] || { cat "whole-$kind.err" >&2 && exit 1; }
done

# Does each so manyth run, from one on. It stops at the first that hung or wrote anything else.
play() { # FIRST
    local number kind hands it
    for ((number = $1; number < runs; number += at_once)); do
        kind=${kinds[number % ${#kinds[@]}]}
        hands=$((1 + number / ${#kinds[@]} % 16))
        run "play-$1" "$kind" "$hands"
        for it in status out err; do
            cmp -s "whole-$kind.$it" "play-$1.$it" && continue
            case $(cat "play-$1.status") in
                124 | 137) echo "run $number hung: $hands hands: ${words[kind]} ${logs[kind]}" >&2 ;;
                *) echo "run $number, status $(cat "play-$1.status"), wrote another $it: $hands hands: ${words[kind]} ${logs[kind]}" >&2 ;;
            esac
            return 1
        done
    done
}
begin_load $((2 * at_once))
for ((first = 0; first < at_once; first++)); do
    play "$first" &
    players+=($!)
done
failed=0
for player in "${players[@]}"; do wait "$player" || failed=1; done
players=()
[ "$failed" = 0 ] || exit 1
echo "$runs runs with 1 to 16 hands beside ${#loops[@]} busy loops: none hung, and each log has one answer"
