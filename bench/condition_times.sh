#!/usr/bin/env bash
# How many times a second some conditions are run as code and plainly evaluated, and the ratio of the two, all from
# one run.
exec "$(dirname "$0")/in_a_copy.sh" condition_times 'eql_values eql_lexer eql_query eql_parser eql_check eql_truth eql_code'
