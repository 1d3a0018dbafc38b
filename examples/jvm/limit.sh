#!/bin/sh
# What would MaxMetaspaceSize=N do: sh examples/jvm/limit.sh TRACE [MB..]
#
# Replays a trace under each limit, and prints how many requests are refused for want of committed memory, and the line of
# the first. Then it prints the smallest limit under which none is.
metarun=${METARUN:-./metarun} trace=$1
shift

# Lists the lines that a limit of so many granules of 64 KB refuses.
refused() {
  answers=$("$metarun" --class-nodes 16 --max-granules "$1" < "$trace") || exit
  printf '%s\n' "$answers" | sed -n 's/ refused CommitLimit$//p'
}

for size; do
  lines=$(refused $((size * 16))) || exit
  echo "$size MB: $(echo $lines | wc -w) requests refused${lines:+, the first in line ${lines%%[!0-9]*}}"
done

low=0 high=8192
while [ $((high - low)) -gt 1 ]; do
  half=$(((low + high) / 2))
  lines=$(refused $half) || exit
  if [ -n "$lines" ]; then low=$half; else high=$half; fi
done
awk -v granules=$high 'BEGIN { printf "smallest: %.2f MB, -XX:MaxMetaspaceSize=%dk\n", granules / 16, granules * 64 }'
