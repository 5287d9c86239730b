#!/usr/bin/env bash
# Drives a SpanList through a million pushes, and then once more under valgrind, which looks for leaks and bad
# accesses. All values but the last hundred are taken out again, from the front and from the middle in mixed order;
# the list's drop frees the rest.
exec "$(dirname "$0")/in_a_copy.sh" span_list_stress 'eql_span_list' \
    valgrind --leak-check=full --show-leak-kinds=all --errors-for-leak-kinds=all --error-exitcode=1 out/span_list_stress
