"""Tells where a crate's proof time goes.

FOLDER is what `rt check --jobs 1` has left in crates/NAME/out/incremental, from nothing. With one job a module's file is
written when it is done, so the gap before it is the time that the module took. Prints the seconds of each part of a
function (`Lts`, `Proof`, ..) over all functions, then of each function, with those of its three dearest parts, and the
modules that took at least so many (2 if not said).
"""
import argparse
import collections
import os
import re

# What follows a function's name in the name of a module: its parts, which begin with a capital letter.
PARTS = re.compile(r"(\.[A-Z]\w*)*$")


def written(folder):
    """The modules in the order in which they were written, each with its time."""
    for place, _, names in os.walk(folder):
        if "-offers" not in place and "records" not in place:
            for name in names:
                if name.endswith(".oantt"):
                    yield os.stat(os.path.join(place, name)).st_mtime, name.removesuffix(".oantt")


def main(folder, least):
    modules = sorted(written(folder))
    gaps = [(end - begin, name) for (begin, _), (end, name) in zip(modules, modules[1:])]
    functions, parts, each = collections.Counter(), collections.Counter(), collections.defaultdict(collections.Counter)
    for gap, name in gaps:
        part, function = PARTS.search(name)[0], PARTS.sub("", name)
        functions[function] += gap
        parts[part] += gap
        each[function][part.removeprefix(".") or "itself"] += gap
    print(f"{sum(gap for gap, _ in gaps):8.1f} all of {len(modules)} modules")
    print("by part:")
    for part, seconds in parts.most_common(8):
        print(f"{seconds:8.1f} {part or '(no part)'}")
    print("by function:")
    for name, seconds in functions.most_common(40):
        dearest = ", ".join(f"{part} {taken:.1f}" for part, taken in each[name].most_common(3) if taken >= 0.1)
        print(f"{seconds:8.1f} {name} ({dearest})")
    print("by module:")
    for gap, name in sorted(gaps, reverse=True):
        if gap >= least:
            print(f"{gap:8.1f} {name}")


if __name__ == "__main__":
    parser = argparse.ArgumentParser(description=__doc__, formatter_class=argparse.RawDescriptionHelpFormatter)
    parser.add_argument("folder", metavar="FOLDER")
    parser.add_argument("seconds", metavar="SECONDS", type=float, nargs="?", default=2.0)
    asked = parser.parse_args()
    main(asked.folder, asked.seconds)
