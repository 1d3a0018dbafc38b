#!/usr/bin/awk -f
# Makes a trace of an application that is deployed again and again over a boot loader:
# awk -f examples/scripts/redeployments.awk > my.trace. Each round loads it anew, with modules of their own
# loaders, and unloads the former round, but for what leaks. Settings, by -v NAME=VALUE: rounds,
# modules a round, classes a module, leak (modules of each round that are never unloaded), and
# every (a report comes after so many rounds).
BEGIN {
  if (rounds == "") rounds = 20
  if (modules == "") modules = 4
  if (classes == "") classes = 25
  if (leak == "") leak = 1
  if (every == "") every = 5
  print "new 0 boot"
  for (i = 0; i < 300; i++) load(0, i)
  for (round = 1; round <= rounds; round++) {
    for (m = 0; m < modules; m++) deploy(number(round, m))
    if (round > 1) for (m = leak; m < modules; m++) print "unload " number(round - 1, m)
    if (round % every == 0) print "report"
  }
}

# Tells the loader of a module in a round.
function number(round, module) { return 1 + (round - 1) * modules + module }

function deploy(loader,    i) {
  print "new " loader " standard"
  for (i = 0; i < classes; i++) load(loader, i)
}

# A class has its metadata, 60 to 459 words, and its Klass in the class space, 75 words.
function load(loader, i) {
  print "alloc " loader " " 2 * i " " 60 + (i * 131 + loader * 17) % 400
  print "calloc " loader " " 2 * i + 1 " " 75
}
