"""What the peak of granules tells: under a limit of so many a run is answered as under the greatest, and under less it isn't.

The greatest limit is as many granules as all nodes of both spaces have under policy aggressive, so no run meets it.
"""
import random

from claims import Test, expect, expect_ended
from outputs import answers_of, report_of
from twin import command

TRACES = 20
LINES = 400
SEED = 20261126
GREATEST = 40960
POLICIES = ("balanced", "aggressive", "none")


def under_limit(bench, words, limit, text):
    """The replies under a limit of granules, and the report at the end."""
    ended = bench.run([*words, "--max-granules", str(limit)], text)
    expect_ended(ended, 0)
    answers = answers_of(ended.output)
    return [answer[:2] for answer in answers], report_of(answers[-1].report)


def but_for_the_limit(report):
    """A report without what it tells of the limit: the setting, and the share of it that is committed."""
    for usage in report.usages:
        usage["committed"].pop()
    del report.settings["max granules"]
    return report


def is_the_least_limit(bench, policy):
    """Random traces, each under the greatest limit, under its peak, and under one granule less."""
    chance, peaks = random.Random(SEED), []
    for _ in range(TRACES):
        words = ["--addresses", "--report", "full", "--policy", policy, "--class-nodes", str(chance.choice((0, 1, 16)))]
        text = "".join(f"{line}\n" for line in [*(command(chance) for _ in range(LINES)), "report"]).encode()
        replies, report = under_limit(bench, words, GREATEST, text)
        expect(report.refusals["CommitLimit"] == 0, "the greatest limit is met", report.refusals)
        peaks.append(int(report.peaks["granules"][0]))
        again, other = under_limit(bench, words, peaks[-1], text)
        expect(again == replies, "a limit of the peak is answered otherwise", words, peaks[-1])
        expect(but_for_the_limit(other) == but_for_the_limit(report), "another report", words, peaks[-1])
        less, _ = under_limit(bench, words, peaks[-1] - 1, text)
        expect(less != replies, "one granule less is answered the same", words, peaks[-1])
    return f"{min(peaks)} to {max(peaks)} granules"


def tests():
    for policy in POLICIES:
        yield Test(f"the peak is the least limit that serves a run under policy {policy}", is_the_least_limit, (policy,))
