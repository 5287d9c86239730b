#!/usr/bin/env bash
# How long a step of a hand takes that finds nothing to do, on sixteen parts, beside as many calls that take their turns.
exec "$(dirname "$0")/in_a_copy.sh" idle_hand 'eql_values eql_outside eql_auto eql_part eql_lane eql_parts eql_turn_lock eql_hub'
