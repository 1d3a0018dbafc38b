"""Traces of many lines: `--max-lines` is the limit, and neither memory nor time grows faster than the lines."""
import resource

import hostile
from claims import Test, expect, expect_ended, first_difference
from program import MEGABYTE, least_seconds

DEFAULT, GREATEST = 100000, 10000000
MOST_MEMORY = 2048 * MEGABYTE


def asked(limit):
    """The words that ask for a limit; none for the default."""
    return () if limit is None else ("--max-lines", str(limit))


def a_limit_is_kept(bench, limit):
    """One line less than the limit and as many are answered, and one more is the fault of that line."""
    most = limit or DEFAULT
    wanted = b"".join(b"%d ok\n" % number for number in range(1, most + 1))
    for lines in (most - 1, most):
        ended = bench.run(asked(limit), b"sync\n" * lines, seconds=100, limits={resource.RLIMIT_AS: MOST_MEMORY})
        expect_ended(ended, 0, output=ended.output)
        expected = wanted if lines == most else wanted[:-len(b"%d ok\n" % most)]
        expect(ended.output == expected, first_difference(ended.output, expected))
    figures = f"{ended.seconds:.2f} s"
    for more in (b"\n", b"#", b"sync", b"x" * 81):
        ended = bench.run(asked(limit), b"sync\n" * most + more, seconds=100)
        expect_ended(ended, 1, b"metarun: line %d: TooManyLines\n" % (most + 1), b"")
    return figures


def no_more_is_read(bench):
    """A longer text has a fault within 81 bytes a line and one more, of which no byte more is held."""
    for limit in (1, 1000):
        ended = bench.run(asked(limit), b"#" * 80 + b"\n" + b"\n" * (1 << 20))
        expect_ended(ended, 1, b"metarun: line %d: TooManyLines\n" % (limit + 1), b"")
        ended = bench.run(asked(limit), b"#" * (1 << 20))
        expect_ended(ended, 1, b"metarun: line 1: LineTooLong\n", b"")


def each_line_has_its_number(bench):
    """Lines past 2^17, 2^20 and 2^23 are answered, and blamed, under their own numbers."""
    for bits in (17, 20, 23):
        gap = b"\n" * (1 << bits)
        number = (1 << bits) + 1
        expect_ended(bench.run(asked(GREATEST), gap + b"purge\n", seconds=100), 0, b"", b"%d ok\n" % number)
        expect_ended(bench.run(asked(GREATEST), gap + b"purged\n", seconds=100), 1, b"metarun: line %d: UnknownCommand\n" % number, b"")


def churn(lines):
    """A trace of so many lines in which 64 loaders take turns at blocks, of which each is freed 50 turns later."""
    text = [b"new %d standard\n" % name for name in range(64)]
    for number in range((lines - 65) // 2):
        name = number % 64
        text.append(b"alloc %d %d %d\n" % (name, number, 2 + number * 7919 % 300))
        text.append(b"free %d %d\n" % (name, number - 3200) if number >= 3200 else b"read %d %d 0\n" % (name, number))
    return b"".join(text) + b"report\n"


def costs_stay_flat(bench):
    """Ten times the lines take at most fourteen times the processor time, and five times the memory that the system maps."""
    def run(lines, most):
        ended = bench.run(asked(GREATEST), texts[lines], seconds=100, limits={resource.RLIMIT_AS: most * MEGABYTE})
        expect_ended(ended, 0)
        return ended

    def is_flat(few, many):
        return many < 14 * few

    sizes = ((DEFAULT, 40), (10 * DEFAULT, 200))
    texts = {lines: churn(lines) for lines, _ in sizes}
    costs = least_seconds([lambda size=size: run(*size) for size in sizes], is_flat, rounds=3, most_rounds=15)
    figures = f"{costs[0] / DEFAULT * 1e9:.0f} and {costs[1] / DEFAULT * 1e8:.0f} ns a line"
    expect(is_flat(*costs), figures)
    return figures


def tests():
    # What needs much memory here comes last.
    for limit in (None, 1, DEFAULT + 1, GREATEST):
        yield Test(f"a limit of {limit or DEFAULT} lines is kept" + (", which none asked for" if limit is None else ""), a_limit_is_kept, (limit,))
    yield Test("no more is read than the limit of lines allows", no_more_is_read)
    yield Test("a line has its number, however great", each_line_has_its_number)
    yield Test("costs stay flat from 100,000 lines to 1,000,000", costs_stay_flat)
    yield from hostile.long_tests()
