#!/usr/bin/env bash
# How many megabytes a second `LineScan::read` reads of 100,000 lines of some 350 bytes, as a sequence of three stages
# wants them, and how many `Value::from_slice` of `serde_json` alone; both from one run.
exec "$(dirname "$0")/in_a_copy.sh" line_times 'eql_values eql_lines serde_json'
