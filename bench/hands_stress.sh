#!/usr/bin/env bash
# Whether hands change what is written: 300 runs of `eql find` over made and hostile logs, with 0, 1, 2, 4 and 16 hands and batches of
# 1, 7, 256 and 4,096 lines. All runs over one log have to end with one status and to write one listing and one report. A log with a
# slack is searched with a checkpoint too, from which another run with other hands goes on: its listing has to be an end of the whole
# one. `eql made` runs with all numbers of hands over as many events as the made logs have. A run that takes five minutes has
# hung. There are no more hands than can help: each third log is large enough for some, and `eql made` has all that are asked for.
#
# usage: bench/hands_stress.sh [PROGRAM [LOGS [SEED]]]      PROGRAM is the built program, crates/eql/out/eql where none is given; LOGS
#                                                           is how many logs, 15 where none is given, of 20 runs each; SEED is a
#                                                           number that makes other logs, 1 where none is given
set -euo pipefail

top=$(cd "$(dirname "$0")/.." && pwd)
program=$(readlink -f "${1:-$top/crates/eql/out/eql}")
logs=${2:-15}
seed=${3:-1}
room=$(mktemp -d)
trap 'rm -rf "$room"' EXIT
cd "$room"

python3 "$top/bench/hands_stress/make_logs.py" . "$logs" "$seed"
runs=0 kept=0

# Runs the program with these words, in the folder of a log.
run() { # WORD..
    local status=0
    timeout 300 "$program" "$@" >out 2>err || status=$?
    echo "$status" >status
}
stop() { # WHAT WORD..
    echo "log $log of seed $seed: $1: ${*:2}" >&2
    for it in out err; do diff -a "whole.$it" "$it" | head -n 5 >&2 || true; done
    exit 1
}
# Whether a run wrote what the first one over this log did.
same() { cmp -s whole.status status && cmp -s whole.out out && cmp -s whole.err err; }
keep_whole() { for it in out err status; do cp "$it" "whole.$it"; done; }

for ((log = 0; log < logs; log++)); do
    cd "$room/$log"
    mapfile -t options <options
    mapfile -t shards < <(printf '%s\n' [0-9]*.json | sort -n)
    find=(find --query query --fields fields "${options[@]}")
    for hands in 0 1 2 4 16; do
        for batch in 1 7 256 4096; do
            words=("${find[@]}" --batch "$batch" --hands "$hands")
            if [ ! -f keeps ]; then words+=("${shards[@]}"); else
                words+=(--checkpoint "disk-$hands-$batch" --every $((1 + RANDOM % 9)) "${shards[@]}")
            fi
            run "${words[@]}"
            runs=$((runs + 1))
            [ -f whole.status ] || keep_whole
            same || stop 'another answer' "${words[@]}"
        done
    done
    [ "$(cat whole.status)" = 0 ] || { cat whole.err >&2; stop "status $(cat whole.status)" "${words[@]}"; }
    # What each of these runs kept is gone on from with other hands.
    for disk in disk-*.0; do
        [ -f keeps ] || break
        words=("${find[@]}" --batch $((1 + RANDOM % 300)) --hands $((RANDOM % 5)) --checkpoint "${disk%.0}" --every 7 "${shards[@]}")
        run "${words[@]}"
        kept=$((kept + 1))
        if ! tail -c "$(wc -c <out)" whole.out | cmp -s - out || ! cmp -s whole.err err || [ "$(cat status)" != 0 ]; then
            stop "going on from ${disk%.0}" "${words[@]}"
        fi
    done
done

for events in 0 201 3001; do
    log="made $events"
    rm -f whole.*
    for hands in 0 1 2 4 16; do
        run made --hands "$hands" "$events"
        runs=$((runs + 1))
        [ -f whole.status ] || keep_whole
        same || stop 'another answer' made --hands "$hands" "$events"
    done
done
echo "$runs runs over $logs logs and three made ones, and $kept that went on: each log has one answer"
