"""Limits under eight workers: whoever comes first, exactly as many are served as the limit allows."""
from claims import Test, expect, expect_ended
from outputs import answers_of, expect_sums, reports_of

RUNS = 100
NAMES = range(1, 9)


def text_of(*groups):
    """A trace of lines: of a pattern that has a place a line for each loader, in order of name, of another itself."""
    lines = []
    for pattern in groups:
        lines += [pattern % name for name in NAMES] if "%" in pattern else [pattern]
    return "".join(f"{line}\n" for line in lines).encode()


GRANULE = text_of("new %d standard", "alloc %d 1 8192", "sync", "unload %d", "purge", "sync", "purge", "report")
NODE = text_of("new %d boot", "alloc %d 1 1")
TAKEN_NODE = text_of("new %d boot", "alloc %d 1 1", "report")
TAKEN_GRANULE = text_of("new %d standard", "alloc %d 1 8192", "report", "unload %d", "sync", "alloc %d 2 1", "report")


def replies_of(bench, words, text):
    """The answers of a run with eight workers, and what each line was answered."""
    ended = bench.run([*words, "--workers", "8"], text)
    expect_ended(ended, 0)
    answers = answers_of(ended.output)
    numbers = [answer.line for answer in answers]
    expect(numbers == list(range(1, text.count(b"\n") + 1)), "a line is not answered once", ended.output)
    return answers, [answer.reply for answer in answers]


def expect_served(replies, served, refusal):
    """Fails the test where of the eight other than so many were served, or a refusal has another name."""
    wanted = sorted([b"ok"] * served + [b"refused " + refusal] * (8 - served))
    expect(sorted(replies) == wanted, "the eight are answered", replies)


def one_granule_serves_one(bench):
    """One granule among eight loaders: one gets it, and all is given back when they go."""
    for _ in range(RUNS):
        answers, replies = replies_of(bench, ["--max-granules", "1"], GRANULE)
        expect_served(replies[8:16], 1, b"CommitLimit")
        expect(set(replies[:8] + replies[16:]) == {b"ok"}, replies)
        report, = reports_of(answers)
        expect(set(report.spaces[0].numbers.values()) == {0} and not report.loaders, "something is left", report)
        expect_sums(report)


def one_node_serves_two(bench):
    """One node among eight loaders that ask for a root chunk: two get one."""
    for _ in range(RUNS):
        _, replies = replies_of(bench, ["--nodes", "1"], NODE)
        expect_served(replies[8:16], 2, b"ReserveLimit")
        expect(set(replies[:8]) == {b"ok"}, replies)


def the_served_are_told(bench):
    """A report after the race has the numbers of those that were served, and these alone."""
    for _ in range(RUNS // 2):
        answers, replies = replies_of(bench, ["--nodes", "1"], TAKEN_NODE)
        expect_served(replies[8:16], 2, b"ReserveLimit")
        report, = reports_of(answers)
        expect_sums(report)
        wanted = [(name, "boot", 1, 524288, 2, 2) if reply == b"ok" else (name, "boot", 0, 0, 0, 0)
                  for name, reply in zip(NAMES, replies[8:16])]
        expect(report.loaders == wanted, report.loaders)
        numbers = report.spaces[0].numbers
        expect(list(numbers.values()) == [8, 1, 1048576, 2, 16384, 2, 1048576, 16384, 4, 4, 0, 0], numbers)


def the_granule_serves_again(bench):
    """Once the loader that had the granule is gone, nobody's names are left, and all numbers are 0."""
    for _ in range(RUNS // 2):
        answers, replies = replies_of(bench, ["--max-granules", "1"], TAKEN_GRANULE)
        expect_served(replies[8:16], 1, b"CommitLimit")
        expect(set(replies[26:34]) == {b"refused NoLoader"}, replies)
        first, last = reports_of(answers)
        for report in (first, last):
            expect_sums(report)
        wanted = [(name, "standard", 1, 8192, 8192, 8192) if reply == b"ok" else (name, "standard", 0, 0, 0, 0)
                  for name, reply in zip(NAMES, replies[8:16])]
        expect(first.loaders == wanted, first.loaders)
        numbers = [list(report.spaces[0].numbers.values()) for report in (first, last)]
        expect(numbers[0] == [8, 1, 1048576, 1, 8192, 1, 8192, 8192, 8192, 8192, 0, 0], first)
        expect(numbers[1] == [0, 1, 1048576, 0, 0, 0, 0, 0, 0, 0, 0, 0], last)


def tests():
    yield Test(f"one granule serves one of eight, {RUNS} times", one_granule_serves_one)
    yield Test(f"one node serves two of eight, {RUNS} times", one_node_serves_two)
    yield Test(f"a report tells the two that one node serves, {RUNS // 2} times", the_served_are_told)
    yield Test(f"one granule is free again once its loader is gone, {RUNS // 2} times", the_granule_serves_again)
