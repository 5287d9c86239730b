#!/usr/bin/env bash
# How many nanoseconds, and how many allocations, `Keys::take` needs for an event that begins a sequence, moves one on,
# completes one, or finds nothing: with 1,000, 62,500 and 1,000,000 keys pending, and with 2 and 128 keys that begin with
# 1,048,576 letters alike, all from one run. Allocations are those of 1,000 events with 1,000 keys pending, by
# valgrind's count.
exec "$(dirname "$0")/in_a_copy.sh" key_times 'eql_values eql_laws eql_auto eql_span_list eql_part' bash -c '
before=0
for kind in start nothing moves completes begins; do
    count=$(valgrind out/key_times "$kind" 2>&1 | sed -n "s/.*total heap usage: \([0-9,]*\) allocs.*/\1/p" | tr -d ,)
    if [ "$kind" != start ]; then
        echo "$kind: $((count - before)) allocations"
    fi
    before=$count
done'
