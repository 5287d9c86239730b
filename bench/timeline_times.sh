#!/usr/bin/env bash
# How long examples/timeline takes for the page of many matches, how much memory it takes over shards of two sizes, and in which time
# Chromium opens the page, where that is there.
#
# usage: bench/timeline_times.sh [MATCHES [BYTES]]      10,000 matches over shards of 100,000,000 bytes where nothing is given; the
#                                                       memory is that over a tenth of the bytes, too
set -euo pipefail

top=$(cd "$(dirname "$0")/.." && pwd)
matches=${1:-10000} bytes=${2:-100000000}
room=$(mktemp -d)
trap 'rm -rf "$room"' EXIT

for size in $((bytes / 10)) "$bytes"; do
    mkdir "$room/$size"
    "$top/.ci/many_matches.py" "$room/$size" 4 "$size" "$matches"
    # The seconds and the most memory of a child, as the system counts them.
    python3 -c 'import resource, subprocess, sys, time
began = time.monotonic()
subprocess.run(sys.argv[2:], stdout=open(sys.argv[1], "w"), check=True)
took, most = time.monotonic() - began, resource.getrusage(resource.RUSAGE_CHILDREN).ru_maxrss
print(f"written in {took:.2f} s, {most / 1000:.0f} MB of memory", end=", ")' "$room/page.html" \
        "$top/examples/timeline" --query "$top/bench/find/query.eql" "$room/$size/listing" "$room/$size"/{0,1,2,3}.json
    echo "$matches matches over $size bytes, $(stat -c %s "$room/page.html") bytes of the page"
done
if "$top/.ci/page_checks.py" ready >/dev/null; then
    echo "opened in $("$top/.ci/page_checks.py" time "$room/page.html") ms"
fi
