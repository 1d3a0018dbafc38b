# Which class of loaders leaks: awk -f examples/jvm/leaks.awk NAMES REPORTS
#
# NAMES is what metalog --names wrote: each loader with its number and class. REPORTS is what metarun printed for a trace with
# several reports. For each kind and class of loaders this prints how many there are in the first report, in the middle one
# and in the last, the MB of their live blocks in the last, and by how much these grew since the middle one. Those whose number
# grew since then stand first, and among them those that grew most.
FNR == NR {
  class_of[$1] = $2
  next
}

/^[^ ]/ { in_loaders = $0 == "Loaders" }
/^Metaspace/ { reports++ }

in_loaders && $1 ~ /^[0-9]+$/ {
  kind = sprintf("%-10s  %s", $2, $1 in class_of ? class_of[$1] : "?")
  loaders[reports, kind]++
  live[reports, kind] += $6
  kinds[kind]
}

END {
  print "number  first middle  last   live MB  grown MB  kind        class of the loaders"
  middle = int((reports + 1) / 2)
  for (kind in kinds)
    if (loaders[reports, kind])
      printf "%-6s %6d %6d %5d %9.2f %9.2f  %s\n", (loaders[reports, kind] > loaders[middle, kind]) ? "grows" : "stays",
        loaders[1, kind], loaders[middle, kind], loaders[reports, kind], live[reports, kind] / 131072,
        (live[reports, kind] - live[middle, kind]) / 131072, kind | "sort -k1,1 -k6,6nr -k8"
}
