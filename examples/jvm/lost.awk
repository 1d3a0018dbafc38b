# How much is lost to fragmentation, and to which kind of loaders: awk -f examples/jvm/lost.awk REPORT
#
# REPORT is what metarun --report full printed; its last report counts. Of all that is committed: what each kind of
# loaders uses for blocks that live, and what it holds beside that; and what lies in free chunks.
function mb(words) { return sprintf("%9.2f %7.1f", words / 131072, committed ? 100 * words / committed : 0) }

/^[^ ]/ { part = $0 }
part == "Usage" && $1 == "reserved" { committed = 0 }  # a report begins its sums
part ~ /^(Usage|Class usage)$/ && $1 == "committed" { committed += $2 }
part == "Kinds" && $2 ~ /^[0-9]+$/ {
  kind = $1
  loaders[kind] = $2; live[kind] = $7; freed[kind] = $8; waste[kind] = $9
  rest[kind] = $5 - $6
  fronts[kind] = $5
}

END {
  print "       kind loaders   live MB per cent     rests per cent freed blocks per cent    waste per cent"
  free = committed
  split("boot standard hidden reflection", kinds)
  for (i = 1; i <= 4; i++) {
    kind = kinds[i]
    printf "%11s %7d %s %s    %s %s\n", kind, loaders[kind], mb(live[kind]), mb(rest[kind]), mb(freed[kind]), mb(waste[kind])
    free -= fronts[kind]
  }
  printf "free chunks, committed: %s per cent of %.2f MB\n", mb(free), committed / 131072
}
