#!/usr/bin/env bash
# Four threads, 250,000 calls each, on one turn lock: the counts at its close, and what a call on a
# free lock takes beside the same under a mutex.
exec "$(dirname "$0")/in_a_copy.sh" turn_lock_stress 'eql_turn_lock'
