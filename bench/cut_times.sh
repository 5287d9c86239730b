#!/usr/bin/env bash
# How fast the text of a large cut is read and written.
exec "$(dirname "$0")/in_a_copy.sh" cut_times 'eql_digest eql_values eql_laws eql_cut'
