#!/usr/bin/awk -f
# Makes a trace of a test that provokes hidden classes, as lambdas and method handles make them:
# awk -f examples/scripts/hidden_classes.awk > my.trace. Each has a loader of its own, and goes once so many
# younger ones have come. Settings, by -v NAME=VALUE: classes in all, live (how many stand at a time),
# words of a class's metadata, and every (a report comes after so many classes).
BEGIN {
  if (classes == "") classes = 1200
  if (live == "") live = 100
  if (words == "") words = 90
  if (every == "") every = 400
  for (i = 0; i < classes; i++) {
    loader = i % 65536
    if (i >= live) print "unload " (i - live) % 65536
    print "new " loader " hidden"
    print "alloc " loader " 0 " words + i % 13
    print "calloc " loader " 1 75"
    if ((i + 1) % every == 0) print "report"
  }
}
