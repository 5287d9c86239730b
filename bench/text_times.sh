#!/usr/bin/env bash
# How long searches take, of texts that repeat themselves and of patterns over a command line.
exec "$(dirname "$0")/in_a_copy.sh" text_times 'eql_values eql_text'
