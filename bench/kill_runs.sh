#!/usr/bin/env bash
# Runs the built program over three shards of 20 megabytes with a checkpoint, kills it at 200 random moments, and goes on each
# time from what it left, in batches of another size. Once a run ends, the outputs of all runs up to it have to be those of an
# unbroken run together: each line stands under its number, none is left out, and the report is the same. Then the next chain of
# runs begins.
#
# usage: bench/kill_runs.sh [PROGRAM [KILLS]]        PROGRAM is the built program, crates/eql/out/eql where none is given
set -euo pipefail

top=$(cd "$(dirname "$0")/.." && pwd)
program=$(readlink -f "${1:-$top/crates/eql/out/eql}")
kills=${2:-200}
tools=$top/bench/find
room=$(mktemp -d)
trap 'rm -rf "$room"' EXIT
cd "$room"

python3 "$tools/make_log.py" "$room" 3 20000000 1
words=(find --query "$tools/query.eql" --fields "$tools/fields.json" --slack 1s)
begun=$(date +%s%N)
"$program" "${words[@]}" 0.json 1.json 2.json >whole.out 2>whole.err
took=$((($(date +%s%N) - begun) / 1000000))
lines=$(wc -l <whole.out)
[ "$lines" -gt 0 ] || { echo 'nothing is found'; exit 1; }

# Looks at the outputs of a chain of runs, in their order, against the whole listing. A run that was killed may end in a line.
together() { # FILE..
    python3 - whole.out "$@" <<'END'
import sys

whole = open(sys.argv[1], "rb").read().split(b"\n")[:-1]
seen = set()
for name in sys.argv[2:]:
    *lines, rest = open(name, "rb").read().split(b"\n")
    last = None
    for line in lines:
        number = int(line.split(b" ")[0])
        if last is not None and number != last + 1:
            sys.exit(f"{name}: line {number} stands behind line {last}")
        if whole[number - 1] != line:
            sys.exit(f"{name}: line {number} is not that of an unbroken run")
        seen.add(number)
        last = number
    if last is not None and rest and not (last < len(whole) and whole[last].startswith(rest)):
        sys.exit(f"{name}: the front of a line behind line {last} is not that of an unbroken run")
if len(seen) != len(whole):
    sys.exit(f"{len(whole) - len(seen)} lines were left out")
END
}

# Waits up to half the time that an unbroken run takes.
wait_a_while() {
    local ms=$((RANDOM * took / 65536))
    sleep "$((ms / 1000)).$(printf '%03d' $((ms % 1000)))"
}

killed=0 runs=0 chains=0 written=0
outputs=()
while [ "$killed" -lt "$kills" ] || [ "${#outputs[@]}" -gt 0 ]; do
    runs=$((runs + 1))
    outputs+=("$runs.out")
    "$program" "${words[@]}" --batch $((64 + RANDOM % 512)) --checkpoint disk --every $((1 + RANDOM % 20)) \
        0.json 1.json 2.json >"$runs.out" 2>run.err &
    process=$!
    if [ "$killed" -lt "$kills" ]; then
        wait_a_while
        kill -KILL "$process" 2>/dev/null || true
    fi
    status=0
    wait "$process" 2>/dev/null || status=$?
    case $status in
        137) killed=$((killed + 1)); continue ;;
        0) ;;
        *) echo "status $status: $(cat run.err)"; exit 1 ;;
    esac
    cmp whole.err run.err
    together "${outputs[@]}"
    chains=$((chains + 1))
    written=$((written + $(cat "${outputs[@]}" | wc -l)))
    rm -f disk.0 disk.1 "${outputs[@]}"
    outputs=()
done
echo "$killed kills, $chains chains of runs, each with all $lines lines under their numbers; $((written - chains * lines)) lines were written again"
