#!/usr/bin/env bash
# Kills a program that puts cuts of 300 kB into two files at 200 random moments, each within half a second of its start,
# and looks each time that a recovery finds the last cut that was acknowledged, or the next.
exec "$(dirname "$0")/in_a_copy.sh" put_kills 'eql_values eql_laws eql_outside eql_cut eql_ckdisk' bash -c '
acknowledged=0
next=0
for kill in $(seq 200); do
    out/put_kills put disk >told &
    process=$!
    sleep "0.$((RANDOM % 5))$((RANDOM % 10))$((RANDOM % 10))"
    kill -KILL "$process"
    wait "$process" 2>/dev/null
    # The last line that is whole; the first of a run is the generation that its recovery found.
    last="$(wc -l <told)"
    if [ "$last" -gt 0 ]; then
        acknowledged="$(sed -n "${last}p" told)"
    fi
    found="$(out/put_kills find disk)"
    if [[ "$acknowledged" =~ ^[0-9]+$ && "$found" = "$((acknowledged + 1))" ]]; then
        next=$((next + 1))
    elif [[ ! "$found" =~ ^[0-9]+$ || "$found" != "$acknowledged" ]]; then
        echo "kill $kill: $acknowledged was acknowledged, and a recovery says: $found"
        exit 1
    fi
    acknowledged="$found"
done
echo "200 kills, $acknowledged cuts: found the last that was acknowledged, or in $next cases the next"'
