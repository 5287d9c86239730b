#!/usr/bin/env bash
# The search of query.eql by jq, sort and awk: the listing on the output.
#
# usage: by_jq.sh SHARD..
set -euo pipefail
export LC_ALL=C

# The lines that fit a stage, as time, shard, line, stage and user.
shard=0
for name in "$@"; do
    jq -r --argjson shard "$shard" '
        (.event.category | if index("authentication") then 1 elif index("process") then 2 elif index("network") then 3 else 0 end) as $stage
        | select(($stage == 1 and .event.outcome == "success") or ($stage == 2 and .process.name == "bash")
            or ($stage == 3 and .destination.port == 8443))
        | [.["@timestamp"], $shard, input_line_number, $stage, .user.name] | @tsv' "$name"
    shard=$((shard + 1))
done | sort -s -t "$(printf '\t')" -k1,1 -k2,2n -k3,3n | awk -F '\t' '
    # Seconds of the month, of a time such as 2025-03-04T08:00:00.000Z.
    function seconds(time) {
        return ((substr(time, 9, 2) * 24 + substr(time, 12, 2)) * 60 + substr(time, 15, 2)) * 60 + substr(time, 18, 6)
    }
    {
        now = seconds($1)
        if ($4 == 1) { first[$5, 1] = now; chain[$5, 1] = $2 ":" $3; next }
        if (!(($5, $4 - 1) in first)) next
        begun = first[$5, $4 - 1]
        longer = chain[$5, $4 - 1] " " $2 ":" $3
        delete first[$5, $4 - 1]
        if (now - begun > 300) next
        if ($4 == 2) { first[$5, 2] = begun; chain[$5, 2] = longer; next }
        print ++number, "[\"" $5 "\"]", longer
    }'
