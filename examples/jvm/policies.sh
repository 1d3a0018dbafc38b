#!/bin/sh
# What would another policy commit: sh examples/jvm/policies.sh TRACE
#
# For each policy, the most that a replay had committed at once, and what it has at the end.
metarun=${METARUN:-./metarun}

for policy in balanced aggressive none; do
  "$metarun" --class-nodes 16 --policy "$policy" --report full < "$1" | awk -v policy="$policy" '
    /^[^ ]/ { part = $0 }
    part == "Peaks" && $1 == "granules" { peak = $3 " " $4 }
    part == "Usage of both" && $1 == "committed" { last = $3 " " $4 }
    END { printf "%-10s  at most %s, at the end %s\n", policy, peak, last }'
done
