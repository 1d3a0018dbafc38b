"""Tells what each part of a gate costs, started beside `rt ci`, until no check has run for a minute.

It looks at the machine's processes five times a second and adds up the processor seconds of each check that was begun in this repository,
by its command line: a crate's proof, the seed of its edits, its tests, an edit, a build of a program. FILE gets a line for each: seconds of
processor, seconds by the clock, crate, part. What a process took after the last look at it is not counted.
"""
import argparse
import os
import re
import time

HERE = os.path.dirname(os.path.abspath(__file__))
TOP = os.path.dirname(HERE)
CRATES = os.path.join(TOP, "crates")
TICKS = os.sysconf("SC_CLK_TCK")


def words_of(pid):
    """The command line of a process, or nothing where it has ended."""
    try:
        with open(f"/proc/{pid}/cmdline", encoding="utf-8", errors="replace") as file:
            return file.read().split("\0")
    except OSError:
        return []


def fields_of(pid):
    """What the system tells of a process, from its state on."""
    with open(f"/proc/{pid}/stat", encoding="utf-8", errors="replace") as file:
        return file.read().rpartition(")")[2].split()


def is_from_here(pid):
    """Whether a process was begun in this repository: its parent stands there."""
    place = os.path.realpath(f"/proc/{fields_of(pid)[1]}/cwd")
    return place == TOP or place.startswith(TOP + os.sep)


def seconds_of(pid):
    """The processor seconds that a process and its ended children took so far."""
    return sum(int(it) for it in fields_of(pid)[11:15]) / TICKS


def edit_name(crate, number):
    """The name of a crate's edit by its place among them."""
    folder = os.path.join(CRATES, crate, "must-fail")
    edits = sorted(it for it in os.listdir(folder) if it.endswith(".edit")) if os.path.isdir(folder) else []
    return edits[number][:-5] if number < len(edits) else f"edit {number}"


def part_of(words):
    """The crate and the part of the gate that a command line is of."""
    crate = words[words.index("--crate-name") + 1]
    over = words[words.index("--incremental") + 1] if "--incremental" in words else ""
    edit = re.search(r"/rt-edits-[^/]*/(\w+)$", over)
    if edit:
        return crate, "seed" if edit[1] == "seed" else f"edit {edit_name(crate, int(edit[1]))}"
    if "--crate-checked" in words:
        return crate, "build of the program"
    return crate, "tests" if "--test" in words else "proof"


def main(file):
    known, last = {}, time.monotonic()
    while time.monotonic() - last < 60:
        for pid in filter(str.isdigit, os.listdir("/proc")):
            words = words_of(pid)
            if len(words) < 2 or os.path.basename(words[0]) != "rattle" or "--crate-name" not in words:
                continue
            try:
                if not is_from_here(pid):
                    continue
                taken = seconds_of(pid)
            except (OSError, IndexError):
                continue
            last = time.monotonic()
            begun = known.get((pid, tuple(words)), (0, last, 0, ()))[1]
            known[pid, tuple(words)] = taken, begun, last - begun, part_of(words)
        time.sleep(0.2)
    sums = {}
    for taken, _, clock, part in known.values():
        before = sums.get(part, (0, 0))
        sums[part] = before[0] + taken, before[1] + clock
    with open(file, "w", encoding="utf-8") as out:
        for (crate, part), (taken, clock) in sorted(sums.items()):
            out.write(f"{taken:8.1f} {clock:8.1f} {crate} {part}\n")


if __name__ == "__main__":
    parser = argparse.ArgumentParser(description=__doc__, formatter_class=argparse.RawDescriptionHelpFormatter)
    parser.add_argument("file", metavar="FILE", help="where the lines go")
    main(parser.parse_args().file)
