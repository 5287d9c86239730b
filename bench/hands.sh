#!/usr/bin/env bash
# What hands gain where a machine is theirs, and what they cost where it isn't. All figures are from one run of this script, and all
# listings and reports of one log have to be equal.
#
# First the seconds, those of the processor, and how many times as fast as without hands, of `eql find` with a slack over eight shards
# of 40 MB. It runs with 0, 1, 2, 3 and 4 hands on all cores that the machine has, and with 0 and 1 hand on two of them. Of each the
# fastest of nine runs counts, which take turns. A run counts where the cores were the machine's own meanwhile: on a virtual machine
# the host may take them, as `steal` of /proc/stat tells, and a run in which it took more than a hundredth of the cores' time is
# tried again, up to 40 times. Three hands on four cores are to be 3 times as fast as none, and one hand on two cores 1.6 times.
# Beside these it prints what the cores are worth: how many searches without hands, as many at once as there are cores, are done in
# the time of one alone. They share nothing, so no number of hands can be that much faster. Where hands are too slow and `perf` is
# there, it prints which functions take the time with three hands.
#
# Then, without load, 256 shards of one line with 0, 1, 3 and 16 hands: the median of three runs each is to be at most 0.1 seconds.
#
# Last, beside twice as many busy loops as there are cores, which the script starts and ends: the eight shards with 0, 1, 3, 8 and 16
# hands, three runs each in turns, and the example of README with its default and without hands, eleven runs each in turns. By the
# medians a search with hands is to take at most 1.1 times as long as one without, and the example with its default 1.2 times.
#
# usage: [SHARD_BYTES=N] bench/hands.sh [PROGRAM]        PROGRAM is the built program, crates/eql/out/eql where none is given;
#                                                        N is the size of a shard, 40,000,000 where none is given
set -euo pipefail
TIMEFORMAT='%R %U %S'

top=$(cd "$(dirname "$0")/.." && pwd)
program=$(readlink -f "${1:-$top/crates/eql/out/eql}")
size=${SHARD_BYTES:-40000000}
tools=$top/bench/find
examples=$top/examples
room=$(mktemp -d)
loops=()

# Ends the busy loops, if there are any.
end_load() {
    [ ${#loops[@]} -gt 0 ] || return 0
    kill "${loops[@]}" 2>/dev/null || true
    wait "${loops[@]}" 2>/dev/null || true
    loops=()
}
# Starts so many busy loops. One that nobody ends does so itself after an hour of the processor.
begin_load() { # COUNT
    for ((number = 0; number < $1; number++)); do
        (ulimit -t 3600 && exec sh -c 'while :; do :; done') &
        loops+=($!)
    done
}
trap 'end_load; rm -rf "$room"' EXIT
trap 'exit 129' HUP
trap 'exit 130' INT
trap 'exit 143' TERM
cd "$room"

python3 "$tools/make_log.py" . 8 "$size" 4
shards=({0..7}.json)
bytes=$(cat "${shards[@]}" | wc -c)
echo "eight shards, $bytes bytes, $(cat "${shards[@]}" | wc -l) lines, $(nproc) cores"
find=("$program" find --query "$tools/query.eql" --fields "$tools/fields.json" --slack 2s)
example=("$program" find --query "$examples/break-in.eql" --fields "$examples/fields.json" --slack 1m)

# Runs a search over a log, and notes its seconds and those of the processor. It has to write what the first run over this log did.
run() { # LOG NAME COMMAND..
    { time "${@:3}" >out 2>err; } 2>>"times.$2"
    for it in out err; do
        [ -f "$1.$it" ] || cp "$it" "$1.$it"
        cmp "$1.$it" "$it"
    done
}

# The time that the host took from all cores so far, and all time of all cores, in the system's ticks.
stolen() { awk '$1 == "cpu" { print $9 + 0, $2 + $3 + $4 + $5 + $6 + $7 + $8 + $9 }' /proc/stat; }
# Runs a search while the cores are the machine's own, or the last one of 40 as it comes.
run_free() { # LOG NAME COMMAND..
    local before after try
    for ((try = 1; try <= 40; try++)); do
        rm -f times.free
        before=$(stolen)
        run "$1" free "${@:3}"
        after=$(stolen)
        awk '{ exit !(($3 - $1) * 100 <= $4 - $2) }' <<<"$before $after" && break
        again=$((again + 1))
    done
    [ "$try" -le 40 ] || taken=$((taken + 1))
    cat times.free >>"times.$2"
}
# As many searches without hands at once as there are cores, each on its own.
run_at_once() {
    local core
    for ((core = 0; core < $(nproc); core++)); do
        taskset -c "$core" "${find[@]}" --hands 0 "${shards[@]}" >"out.$core" 2>"err.$core" &
    done
    wait
    cat out.0
    cat err.0 >&2
}
again=0 taken=0
for _ in {1..9}; do
    run_free eight at-once run_at_once
    for hands in 0 1 2 3 4; do run_free eight "all-$hands" "${find[@]}" --hands "$hands" "${shards[@]}"; done
    for hands in 0 1; do run_free eight "two-$hands" taskset -c 0,1 "${find[@]}" --hands "$hands" "${shards[@]}"; done
done
echo "runs from which the host took the cores, and which were tried again: $again; that count all the same: $taken of 72"

hands_word() { if [ "$1" = 1 ]; then echo '1 hand'; else echo "$1 hands"; fi; }
least() { sort -n "times.$1" | head -n 1; }
median() { sort -n "times.$1" | sed -n "$((($(wc -l <"times.$1") + 1) / 2))p"; }
tell() { # NAME NAME-OF-NONE HANDS
    awk -v hands="$(hands_word "$3")" -v bytes="$bytes" -v none="$(least "$2" | cut -d' ' -f1)" \
        '{ printf "%-7s %8.2f s %8.2f s of the processor %8.1f MB/s %6.2f times as fast\n", hands, $1, $2 + $3, bytes / 1e6 / $1, none / $1 }' \
        <<<"$(least "$1")"
}
tell_median() { # NAME NAME-OF-NONE WORDS
    awk -v words="$3" -v none="$(median "$2" | cut -d' ' -f1)" \
        '{ printf "%-8s %7.3f s %8.3f s of the processor %6.2f times as long\n", words, $1, $2 + $3, $1 / (none > 0 ? none : 0.001) }' \
        <<<"$(median "$1")"
}
for hands in 0 1 2 3 4; do tell "all-$hands" all-0 "$hands"; done
awk -v cores="$(nproc)" -v none="$(least all-0 | cut -d' ' -f1)" \
    '{ printf "%d searches at once, one a core, without hands: %.2f s, so the cores are worth %.2f\n", cores, $1, cores * none / $1 }' \
    <<<"$(least at-once)"
echo 'on two cores:'
for hands in 0 1; do tell "two-$hands" two-0 "$hands"; done

mkdir lines
for ((shard = 0; shard < 256; shard++)); do head -n 1 0.json >"lines/$shard.json"; done
for _ in 1 2 3; do
    for hands in 0 1 3 16; do run lines "lines-$hands" "${find[@]}" --hands "$hands" lines/{0..255}.json; done
done
echo '256 shards of one line:'
for hands in 0 1 3 16; do tell_median "lines-$hands" lines-0 "$(hands_word "$hands")"; done

begin_load $((2 * $(nproc)))
for _ in 1 2 3; do
    for hands in 0 1 3 8 16; do run eight "busy-$hands" "${find[@]}" --hands "$hands" "${shards[@]}"; done
done
for _ in {1..11}; do
    run example example-0 "${example[@]}" --hands 0 "$examples/gate-1.json" "$examples/desk-7.json"
    run example example "${example[@]}" "$examples/gate-1.json" "$examples/desk-7.json"
done
echo "beside ${#loops[@]} busy loops:"
end_load
for hands in 0 1 3 8 16; do tell_median "busy-$hands" busy-0 "$(hands_word "$hands")"; done
echo 'the example beside them:'
tell_median example-0 example-0 "$(hands_word 0)"
tell_median example example-0 default

# Whether a number of hands is so many times as fast as none; whether a run takes at most so many times as long as another; whether it
# takes at most so many seconds.
is_met() { # NAME NAME-OF-NONE BAR
    awk -v one="$(least "$1")" -v none="$(least "$2")" -v bar="$3" 'BEGIN { exit !(none + 0 >= bar * (one + 0)) }'
}
is_within() { # NAME NAME-OF-NONE BAR
    awk -v one="$(median "$1")" -v none="$(median "$2")" -v bar="$3" 'BEGIN { exit !(one + 0 <= bar * (none + 0)) }'
}
is_below() { # NAME SECONDS
    awk -v one="$(median "$1")" -v bar="$2" 'BEGIN { exit !(one + 0 <= bar) }'
}
fast=yes met=yes
is_met all-3 all-0 3.0 || { fast=no && echo 'three hands are less than 3 times as fast as none'; }
is_met two-1 two-0 1.6 || { fast=no && echo 'one hand on two cores is less than 1.6 times as fast as none'; }
for hands in 0 1 3 16; do
    is_below "lines-$hands" 0.1 || { met=no && echo "256 shards of one line take more than 0.1 seconds with $(hands_word "$hands")"; }
done
for hands in 1 3 8 16; do
    is_within "busy-$hands" busy-0 1.1 || { met=no && echo "beside busy loops a search with $(hands_word "$hands") takes more than 1.1 times as long as without"; }
done
is_within example example-0 1.2 || { met=no && echo 'beside busy loops the example takes more than 1.2 times as long as without hands'; }
[ "$fast$met" != yesyes ] || echo 'all bars are met'
if [ "$fast" = no ] && command -v perf >/dev/null; then
    perf record -q -o profile "${find[@]}" --hands 3 "${shards[@]}" >out 2>err
    perf report -q -i profile --stdio --percent-limit 1 2>/dev/null | head -n 40
fi
