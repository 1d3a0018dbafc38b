#!/bin/sh
# How large a class space suffices: sh examples/jvm/class_space.sh TRACE
#
# Finds the fewest nodes of 8 MB under which no class is refused, and prints the most that a report has of the class space.
metarun=${METARUN:-./metarun} nodes=0

while [ $nodes -lt 16 ]; do
  nodes=$((nodes + 1))
  answers=$("$metarun" --class-nodes $nodes < "$1") || exit
  case $answers in *' refused ReserveLimit'*) continue ;; esac
  printf '%s\n' "$answers" | awk -v nodes=$nodes '
    /^[^ ]/ { part = $0 }
    part == "Class space" && $1 == "committed" && $2 > committed { committed = $2 }
    part == "Class space" && $1 == "capacity" && $2 > capacity { capacity = $2 }
    END { printf "%d MB suffice: at most %.2f MB in chunks, %.2f MB committed\n", 8 * nodes, capacity / 131072, committed / 131072 }'
  exit
done
echo "more than 128 MB"
