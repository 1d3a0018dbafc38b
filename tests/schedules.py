"""Random traces of sixteen loaders: away from the limits each line is answered the same by any number of workers."""
import random

from claims import Test, expect, expect_ended
from outputs import answers_of, expect_details, expect_refusals, expect_sums, of_any_schedule, reports_of

LINES = 2000
RUNS = 100
SEED = 20261122
KINDS = ("standard", "boot", "reflection", "hidden")
POLICIES = ("balanced", "aggressive", "none")


def command(chance):
    """A command by chance: mostly small blocks, now and then a meeting."""
    loader, block, words = chance.randrange(16), chance.randrange(8), chance.randrange(64)
    shapes = {f"new {loader} standard": 3, f"unload {loader}": 1, f"free {loader} {block}": 4,
              f"write {loader} {block} {words} {chance.getrandbits(64)}": 6, f"read {loader} {block} {words}": 6,
              "sync": 1, "purge": 1, f"alloc {loader} {block} {words}": 10}
    return chance.choices(list(shapes), shapes.values())[0]


def each_loader_is_told_the_same(bench):
    """Eight workers, a hundred times, answer as one does."""
    chance = random.Random(SEED)
    text = "".join(f"{command(chance)}\n" for _ in range(LINES)).encode()
    alone = bench.run([], text)
    expect_ended(alone, 0)
    expect(alone.output.count(b"\n") == LINES, "a line is not answered")
    for words in (b"ok", b"value ", b"refused NoBlock", b"refused LoaderExists", b"refused OutOfRange"):
        expect(words in alone.output, "no line is answered", words)
    for run in range(RUNS):
        expect_ended(bench.run(["--workers", str(2 + run % 7)], text), 0, b"", alone.output)


def reporting(chance, number):
    """A command by chance, of loaders of each kind and in both spaces; each fiftieth is a report."""
    if number % 50 == 0:
        return "report"
    loader, block, words = chance.randrange(16), chance.randrange(8), chance.randrange(64)
    shapes = {f"new {loader} {KINDS[loader % 4]}": 2, f"calloc {loader} {block} {words}": 6}
    return chance.choices([*shapes, command(chance)], [*shapes.values(), 16])[0]


def full_reports_tell_the_same(bench, policy):
    """By two to eight workers replies are those of one, and so is what a full report tells that no schedule changes."""
    chance = random.Random(SEED)
    text = "".join(f"{reporting(chance, number)}\n" for number in range(1, LINES + 1)).encode()
    words = ["--report", "full", "--class-nodes", "2", "--policy", policy]
    alone = bench.run(words, text)
    expect_ended(alone, 0)
    wanted = answers_of(alone.output)
    told = [of_any_schedule(report) for report in reports_of(wanted)]
    expect(len(told) == LINES // 50 and told[-1][4]["NoBlock"] > 0, "the reports tell of too little", told[-1])
    expect(told[-1][4]["CommitLimit"] == told[-1][4]["ReserveLimit"] == 0, "a limit is met", told[-1])
    for workers in range(2, 9):
        ended = bench.run([*words, "--workers", str(workers)], text)
        expect_ended(ended, 0)
        answers = answers_of(ended.output)
        expect([answer[:2] for answer in answers] == [answer[:2] for answer in wanted], "other replies by", workers)
        expect_refusals(answers)
        for report, same in zip(reports_of(answers), told, strict=True):
            expect_sums(report, 2048 if policy == "aggressive" else 8192)
            expect_details(report)
            expect(report.settings["workers"] == str(workers), report.settings)
            expect(of_any_schedule(report) == same, "a report tells otherwise by", workers, of_any_schedule(report), same)
    return f"{7 * len(told)} reports"


def tests():
    for policy in POLICIES:
        name = f"full reports tell the same by any schedule under policy {policy}"
        yield Test(name, full_reports_tell_the_same, (policy,))
    yield Test(f"each loader is told the same by any schedule, {RUNS} times", each_loader_is_told_the_same)
