#!/usr/bin/env bash
# How many megabytes a second `PlanReader::read` reads of 100,000 lines of some 350 bytes by the plan of a sequence of
# three stages, how many `LineScan::read` alone reads of them, and how many `Value::from_slice` of `serde_json`; all from
# one run.
exec "$(dirname "$0")/in_a_copy.sh" plan_times 'eql_values eql_lexer eql_parser eql_check eql_lines eql_stages serde_json'
