"""Rows worked by hand: a command on the left, and on the right what it is answered.

In a file of rows/ a line without indent is a test's name; the indented lines below it are its commands in their order.
Two spaces or more stand before the answer. Behind `report` stand the numbers that the report must have, by their
labels, with `class` before those of the class space, and what is held and free of a level, as `level 10 3 1`; or, where it is a full one, settings, as `setting nodes 64`, and
amounts of a usage, each with its words, size and share: `usage used 10 0.0 KB 0.1`, with `class` or `both` before it,
and refused lines, as `refused NoBlock 2`; peaks, as `peak used 10`, or with the size, `peak used 10 0.0 KB`; the sums
of a kind, its loaders first, as `kind hidden 1 1 128 128 10 10 0 0`, of what a loader holds in a space,
`holding 7 class 1 128 128 10 10 0 0`, or `holding 7 class none`, and of how many there is a line, `holdings 3`; and the
places of a root, as letters with how many of them stand in a row, `root 128 O1 u15 o1 -47`, or `root 0 none`.
A line `with ..` has options, and `#` begins a remark. Where the options ask for workers, the answers are the same for
each number of them.
"""
import os
import re

from claims import Test, expect, expect_ended
from outputs import answers_of, expect_details, expect_refusals, expect_sums, report_of
from workbench import FOLDER

ROWS = os.path.join(FOLDER, "rows")
CELLS = re.compile(r"  +")


def rows_of(file):
    """The tests of a file: of each its name, its options, and its lines as commands with answers."""
    tests = []
    with open(os.path.join(ROWS, file), encoding="ascii") as lines:
        for line in lines:
            text = line.strip()
            if not text or text.startswith("#"):
                continue
            if not line.startswith(" "):
                tests.append((text, [], []))
            elif text.startswith("with "):
                tests[-1][1].extend(text.split()[1:])
            else:
                tests[-1][2].append(tuple(CELLS.split(text)))
    return tests


def expect_numbers(report, told):
    """Fails the test where the report lacks a number of those told, as in `nodes 1, class used 10`."""
    for fact in told.split(", "):
        if fact.startswith("setting "):
            expect_setting(report, fact)
            continue
        if fact.startswith("refused "):
            _, name, wanted = fact.split()
            expect(report.refusals.get(name) == int(wanted), fact, "is", report.refusals)
            continue
        if fact.startswith("peak "):
            _, label, *wanted = fact.split()
            expect(report.peaks.get(label, [])[:len(wanted)] == wanted, fact, "is", report.peaks)
            continue
        if fact.startswith("kind "):
            _, kind, *wanted = fact.split()
            expect(report.kinds.get(kind) == list(map(int, wanted)), fact, "is", report.kinds)
            continue
        if fact.startswith("holding "):
            expect_holding(report, fact)
            continue
        if fact.startswith("holdings "):
            expect(len(report.holdings) == int(fact.split()[1]), fact, "is", report.holdings)
            continue
        if fact.startswith("root "):
            _, root, *wanted = fact.split()
            places = "".join(run[0] * int(run[1:]) for run in wanted if run != "none")
            expect(report.maps.get(int(root), "") == places, fact, "is", report.maps)
            continue
        if "usage " in fact:
            expect_amount(report, fact)
            continue
        of_class = fact.startswith("class ")
        space = report.spaces[1 if of_class else 0]
        if fact.removeprefix("class ").startswith("level "):
            *_, level, held, free = fact.split()
            expect(space.levels[int(level)][1:] == (int(held), int(free)), fact, "is", space.levels)
            continue
        label, _, number = fact.rpartition(" ")
        found = space.numbers[label.removeprefix("class ")]
        expect(found == int(number), label, "is", found, "and not", number)


def expect_holding(report, fact):
    """Fails the test where a full report doesn't tell what a loader holds in a space, or tells it of one that holds nothing."""
    _, name, space, *wanted = fact.split()
    found = [list(row[3:]) for row in report.holdings if (row[0], row[2]) == (int(name), space)]
    expect(found == ([] if wanted == ["none"] else [list(map(int, wanted))]), fact, "is", found)


def expect_setting(report, fact):
    """Fails the test where a full report lacks a setting that is told, as in `setting class nodes 0`."""
    label, _, wanted = fact.removeprefix("setting ").rpartition(" ")
    expect(report.settings.get(label) == wanted, fact, "is", report.settings)


def expect_amount(report, fact):
    """Fails the test where a full report lacks an amount that is told, as in `class usage used 10 0.0 KB 0.1`."""
    whose, _, amount = fact.rpartition("usage ")
    expect(len(report.usages) == (3 if len(report.spaces) > 1 else 1), "so many usages:", len(report.usages))
    *label, words, size, unit, share = amount.split()
    found = report.usages[("", "class ", "both ").index(whose)][" ".join(label)]
    expect(found == [words, size, unit, share], fact, "is", found)


def is_answered_so(bench, options, rows):
    """Each command is answered as its row says, at each number of workers where the options ask for them."""
    if "--workers" not in options:
        run_is_answered_so(bench, ["--addresses", *options], rows)
        return
    place = options.index("--workers") + 1
    for number in ("1", "2", "4", "8"):
        run_is_answered_so(bench, [*options[:place], number, *options[place + 1:]], rows)


def run_is_answered_so(bench, options, rows):
    """Runs the commands with the options, and compares each answer."""
    text = "".join(f"{command}\n" for command, _ in rows).encode()
    ended = bench.run(options, text)
    expect_ended(ended, 0)
    answers = answers_of(ended.output)
    expect(len(answers) == len(rows), "so many lines are answered:", len(answers))
    expect_refusals(answers)
    granule = 2048 if "aggressive" in options else 8192
    for number, (answer, (command, wanted)) in enumerate(zip(answers, rows), 1):
        is_report = command == "report"
        reply = "ok" if is_report else wanted
        expect((answer.line, answer.reply) == (number, reply.encode()), command, "is answered", answer, "and not", wanted)
        if is_report:
            report = report_of(answer.report)
            expect_sums(report, granule)
            if report.kinds:
                expect_details(report)
            expect_numbers(report, wanted)


def tests():
    for file in sorted(os.listdir(ROWS)):
        for name, options, rows in rows_of(file):
            yield Test(name, is_answered_so, (options, rows))
