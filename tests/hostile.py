"""Traces that are made to be slow: each must end within ten seconds on one processor, and within a gigabyte.

Each is tried at ten times the lines too, with ten times the bounds, so that neither time nor memory grows faster than the
lines.
"""
import ctypes
import random
import resource

from claims import Test, expect, expect_ended
from outputs import answers_of, expect_sums, reports_of
from program import MEGABYTE, OneProcessor

MOST_SECONDS, MOST_MEMORY, MOST_LINES = 10, 1024 * MEGABYTE, 100000
# The traces of ten times the lines, and the words that ask for so many.
TENFOLD, ASKED = 10, ("--max-lines", "1000000")
WORD = 1 << 64


def text_of(lines, scale=1):
    lines = list(lines)
    expect(len(lines) <= scale * MOST_LINES, "a trace is too long", len(lines))
    return ("\n".join(lines) + "\n").encode()


def answered(bench, words, text, most_memory=MOST_MEMORY, scale=1):
    """Runs a trace on one processor within the bounds, and gives its answers and what it took."""
    words, most_seconds = (*words, *(ASKED if scale > 1 else ())), scale * MOST_SECONDS
    with OneProcessor():
        ended = bench.run(words, text, limits={resource.RLIMIT_CPU: most_seconds}, seconds=10 * most_seconds)
    figures = f"{ended.seconds:.2f} processor seconds, {ended.memory // MEGABYTE} MB"
    expect(ended.status == 0, f"status {ended.status} after {figures}", ended.errors)
    expect_ended(ended, 0)
    expect(ended.seconds < most_seconds and ended.memory < scale * most_memory, f"it took {figures}")
    return answers_of(ended.output), figures


def expect_all(answers, reply):
    """Fails the test where a line is answered otherwise."""
    other = next((answer for answer in answers if answer.reply != reply), None)
    expect(other is None, "a line is answered", other)


def colliding(bench, count):
    """The lowest names whose hashes end alike, as many bits as a table of so many names looks at."""
    groups = 1
    while 9 * groups < count:
        groups *= 2
    names = (ctypes.c_uint * count)()
    found = ctypes.CDLL(bench.built("colliding")).fill(names, count, groups - 1)
    expect(found == count, "too few names collide", found)
    return list(names)


def names_of_one_place(bench, scale):
    """Block names that the map of names looks for in one place; the last come and go, and absent ones are asked for."""
    names = colliding(bench, 33000)
    present, absent = names[:32000], names[32000:]
    lines = ["new 1 standard"] + [f"alloc 1 {name} 2" for name in present]
    while len(lines) < scale * MOST_LINES - 4:
        place = len(lines) % 1000
        last, other = present[-1 - place], absent[place]
        lines += [f"read 1 {last} 0", f"free 1 {other}", f"free 1 {last}", f"alloc 1 {last} 2"]
    answers, figures = answered(bench, (), text_of(lines, scale), scale=scale)
    expect(len(answers) == len(lines), "not each line is answered")
    expect_all(answers[:32001], b"ok")
    for place, reply in enumerate((b"value 0", b"refused NoBlock", b"ok", b"ok")):
        expect_all(answers[32001 + place::4], reply)
    return figures


def weight_of(start):
    """A weight drawn from a block's start, as a tree of free blocks may draw it that is balanced by weights."""
    spread = start * 0x9e3779b97f4a7c15 % WORD
    return (spread ^ spread >> 32) * 0xd6e8feb86659fd93 % WORD


def blocks_by_weight(count, most):
    """Lists blocks, (start, words, is to be freed): a heavier one is larger, and what is left at a chunk's end stays.

    A boot loader alone has a root chunk, and then halves of root chunks one behind the other.
    """
    start, blocks = 0, []
    while len(blocks) < count:
        words = 2 + (most - 2) * weight_of(start) // WORD
        end = 524288 if start < 524288 else start // 262144 * 262144 + 262144
        rest = end - start - words
        if rest < 0 or rest == 1:
            blocks.append((start, end - start, False))
            start = end
        else:
            blocks.append((start, words, True))
            start += words
    return blocks


def depth_of(blocks):
    """Counts the forks on the way to the smallest of the blocks by weights: those that outweigh all ranked before."""
    depth, heaviest = 0, -1
    for _, start in sorted((words, start) for start, words, is_freed in blocks if is_freed):
        if weight_of(start) > heaviest:
            depth, heaviest = depth + 1, weight_of(start)
    return depth


def deepest_tree(bench, workers, scale):
    """Free blocks whose weights rise with their sizes: a tree balanced by these would be a list."""
    blocks = blocks_by_weight(15500, 8300)
    freed = [name for name, (_, _, is_freed) in enumerate(blocks) if is_freed]
    lines = ["new 1 boot"] + [f"alloc 1 {name} {words}" for name, (_, words, _) in enumerate(blocks)]
    placed = bench.run(["--addresses"], text_of(lines), seconds=30)
    wanted = [b"ok"] + [b"at %d" % start for start, _, _ in blocks]
    replies = [answer.reply for answer in answers_of(placed.output)]
    expect(replies == wanted, "a block lies elsewhere than the trace is made for")
    lines += [f"free 1 {name}" for name in sorted(freed, key=lambda name: -weight_of(blocks[name][0]))]
    while len(lines) < scale * MOST_LINES - 3:
        lines += [f"alloc 1 {len(blocks)} 2", f"free 1 {len(blocks)}"]
    lines.append("report")
    answers, figures = answered(bench, ["--workers", str(workers)], text_of(lines, scale), scale=scale)
    expect_all(answers, b"ok")
    expect_sums(reports_of(answers)[0])
    return f"{figures}, {depth_of(blocks)} deep by weights"


ORDERS = {
    "rising": sorted,
    "falling": lambda names: sorted(names, reverse=True),
    "mixed": lambda names: random.Random(7).sample(names, len(names)),
    "inward": lambda names: [name for pair in zip(names, reversed(names)) for name in pair][:len(names)],
}


def free_blocks_in_order(bench, order, scale):
    """30,000 blocks of rising sizes are freed in an order; then the smallest, one in the middle and the largest go."""
    sizes = [2 + name // 16 for name in range(30000)]
    lines = ["new 1 boot"] + [f"alloc 1 {name} {words}" for name, words in enumerate(sizes)]
    lines += [f"free 1 {name}" for name in ORDERS[order](list(range(30000)))]
    wanted = (sizes[0], sizes[15000], sizes[-1])
    while len(lines) < scale * MOST_LINES - 8:
        lines += [f"alloc 1 {name} {words}" for name, words in enumerate(wanted)]
        lines += [f"free 1 {name}" for name in range(3)]
    lines.append("report")
    answers, figures = answered(bench, (), text_of(lines, scale), scale=scale)
    expect_all(answers, b"ok")
    report, = reports_of(answers)
    expect_sums(report)
    expect(report.spaces[0].numbers["live"] == 0, report.spaces[0])
    return figures


def all_loader_names(bench, workers, scale):
    """65,536 loaders, each name that there is, falling; blocks for half of them by turns, and all numbers add up."""
    lines = [f"new {name} hidden" for name in reversed(range(65536))]
    blocks = [f"alloc {name} {number} 2" for number in range(28) for name in range(0, 65536, 2)]
    lines += blocks[:scale * MOST_LINES - len(lines) - 1]
    lines.append("report")
    answers, figures = answered(bench, ["--workers", str(workers)], text_of(lines, scale), scale=scale)
    expect_all(answers, b"ok")
    report, = reports_of(answers)
    expect_sums(report)
    expect(report.spaces[0].numbers["loaders"] == 65536, report.spaces[0])
    expect(report.spaces[0].numbers["live"] == 2 * (len(lines) - 65537), report.spaces[0])
    return figures


def phases_of_one_line(bench, workers, scale):
    """45,000 phases of one line each, or ten times as many, while 1,000 loaders stand by."""
    lines = [f"new {name} standard" for name in range(1000)] + [f"alloc {name} 1 2" for name in range(1000)] + ["sync"]
    for number in range(scale * 45000):
        lines += [f"write {number % 1000} 1 0 {number}", "sync"]
    lines.append("report")
    answers, figures = answered(bench, ["--workers", str(workers)], text_of(lines, scale), scale=scale)
    expect(len(answers) == len(lines), "not each line is answered")
    expect_all(answers, b"ok")
    report, = reports_of(answers)
    expect_sums(report)
    expect(report.spaces[0].numbers["live"] == 2000, report.spaces[0])
    return figures


def one_loader_of_many_chunks(bench, scale):
    """A hidden loader asks for 99,000 blocks or ten times that, two a chunk, which all go at once; 524,288 fill all nodes."""
    asked = scale * 99000
    blocks = min(asked, 64 * 1048576 // 128)
    lines = ["new 1 hidden"] + [f"alloc 1 {name} 128" for name in range(asked)]
    lines += ["report", "unload 1", "purge", "report"]
    answers, figures = answered(bench, (), text_of(lines, scale), scale=scale)
    expect_all(answers[:blocks + 1], b"ok")
    expect_all(answers[blocks + 1:asked + 1], b"refused ReserveLimit")
    expect_all(answers[asked + 1:], b"ok")
    first, last = reports_of(answers)
    expect_sums(first)
    expect(first.loaders == [(1, "hidden", blocks // 2, blocks * 128, blocks * 128, blocks * 128)], first.loaders)
    expect(set(last.spaces[0].numbers.values()) == {0}, last)
    return figures


def small_parts(scale):
    """Every second of 31,000 chunks of 128 words goes; then loaders come and ask for what fits between, or doesn't.

    Whoever comes again with its name goes before that.
    """
    lines = [line for name in range(31000) for line in (f"new {name} hidden", f"alloc {name} 1 128")]
    lines += [f"unload {name}" for name in range(0, 31000, 2)]
    comers = range(40000, 65536)
    for number in range(scale * MOST_LINES):
        name = comers[number % len(comers)]
        come = [f"unload {name}"] if number >= len(comers) else []
        come += [f"new {name} hidden", f"alloc {name} 1 {129 if name % 2 else 128}"]
        if len(lines) + len(come) >= scale * MOST_LINES:
            break
        lines += come
    return lines + ["report"]


def a_pool_of_small_parts(bench, scale):
    """All that come are served."""
    answers, figures = answered(bench, (), text_of(small_parts(scale), scale), scale=scale)
    expect_all(answers, b"ok")
    expect_sums(reports_of(answers)[0])
    return figures


def a_limit_among_small_parts(bench, scale):
    """485 granules hold the 31,000 chunks and 5,120 words more: 20 chunks of 256 words, and no other 129 words."""
    lines = small_parts(scale)
    answers, figures = answered(bench, ["--max-granules", "485"], text_of(lines, scale), scale=scale)
    served = {f"alloc {name} 1 129" for name in range(40001, 40041, 2)}
    fits = [line in served or not line.endswith(" 129") for line in lines]
    expect_all([answer for answer, fit in zip(answers, fits) if fit], b"ok")
    expect_all([answer for answer, fit in zip(answers, fits) if not fit], b"refused CommitLimit")
    expect_sums(reports_of(answers)[0])
    return figures


def the_largest_block_comes_and_goes(bench, scale):
    """A block of a whole root chunk is written at one place and freed, 24,999 times or ten times that; the next reads 0 there."""
    lines, index = ["new 1 boot"], 0
    for number in range(scale * 24999):
        lines += ["alloc 1 1 524288", f"read 1 1 {index}"]
        index = number * 7919 % 524288
        lines += [f"write 1 1 {index} 7", "free 1 1"]
    answers, figures = answered(bench, (), text_of(lines, scale), scale=scale)
    expect(len(answers) == len(lines), "not each line is answered")
    expect_all(answers[2::4], b"value 0")
    for place in (1, 3, 4):
        expect_all(answers[place::4], b"ok")
    return figures


def blocks_that_lie_far_apart(bench, scale):
    """2,000 loaders take turns at 29 blocks of 1,000 words, each far from the loader's others: no place costs kilobytes.

    At ten times the lines they are 250 blocks of 100 words, of which a chunk of 256 words has two.
    """
    loaders, rounds, words = 2000, *((29, 1000) if scale == 1 else (250, 100))
    lines = [f"new {name} hidden" for name in range(loaders)]
    lines += [f"alloc {name} {number} {words}" for number in range(rounds) for name in range(loaders)]
    lines.append("report")
    answers, figures = answered(bench, (), text_of(lines, scale), most_memory=128 * MEGABYTE, scale=scale)
    expect_all(answers, b"ok")
    report, = reports_of(answers)
    expect_sums(report)
    expect(report.spaces[0].numbers["live"] == words * loaders * rounds, report.spaces[0])
    return figures


def phases_of_two_lines(bench, workers, loaders, phases, scale):
    """Phases in each of which two workers have a line, while all other loaders stand by."""
    names = range(loaders)
    lines = [f"new {name} standard" for name in names] + [f"alloc {name} 1 2" for name in names] + ["sync"]
    begun = len(lines)
    for number in range(scale * phases):
        lines += [f"write {number % loaders} 1 0 {number}", f"read {(number + 1) % loaders} 1 0", "sync"]
    lines.append("report")
    answers, figures = answered(bench, ["--workers", str(workers)], text_of(lines, scale), scale=scale)
    expect(len(answers) == len(lines), "not each line is answered")
    for number, answer in enumerate(answers[begun + 1:-1:3]):
        expect(answer.reply == b"value %d" % max(number + 1 - loaders, 0), "a word is read otherwise", number, answer)
    expect_all(answers[begun:-1:3] + answers[begun + 2:-1:3], b"ok")
    expect_sums(reports_of(answers)[0])
    return figures


def traces_of(scale, more):
    """Each trace, at so many times the lines."""
    # First, since its bound is low: a run's memory can't be seen below this process's own, which texts raise.
    yield Test(f"blocks that lie far apart{more}", blocks_that_lie_far_apart, (scale,))
    yield Test(f"block names that hash to one place{more}", names_of_one_place, (scale,))
    for workers in (1, 2):
        yield Test(f"the deepest tree of free blocks, {workers} at work{more}", deepest_tree, (workers, scale))
    for order in ORDERS:
        yield Test(f"free blocks that come in {order} order{more}", free_blocks_in_order, (order, scale))
    yield Test(f"the largest block comes and goes{more}", the_largest_block_comes_and_goes, (scale,))
    for workers in (1, 8):
        yield Test(f"all 65,536 loader names, {workers} at work{more}", all_loader_names, (workers, scale))
    for workers in (1, 2, 8):
        yield Test(f"45,000 phases of one line, {workers} at work{more}", phases_of_one_line, (workers, scale))
    yield Test(f"one loader of 49,500 chunks{more}", one_loader_of_many_chunks, (scale,))
    yield Test(f"a pool of small parts{more}", a_pool_of_small_parts, (scale,))
    yield Test(f"a limit among small parts{more}", a_limit_among_small_parts, (scale,))
    for loaders, phases, beside in (1000, 30000, ""), (16000, 22000, " beside 16,000 loaders"):
        for workers in (1, 2, 8):
            yield Test(f"{phases:,} phases of two lines{beside}, {workers} at work{more}", phases_of_two_lines,
                       (workers, loaders, phases, scale))


def tests():
    yield from traces_of(1, "")


def long_tests():
    """Ten times the lines. Apart, and last: a run's memory can't be seen below this process's own, which such texts raise."""
    yield from traces_of(TENFOLD, ", ten times the lines")
