"""Each growth of a run refused in turn, and from each on, over the whole program and its own allocator.

A run that meets a refusal ends with status 3 and nothing on standard output, or with status 0: then OutOfMemory stands
on lines of new, alloc and calloc alone, and all else is as in a run of the trace without these lines.
"""
import os
import resource
import struct
import tempfile
from typing import NamedTuple

from claims import Test, expect, expect_ended, first_difference
from examples import FOLDERS, content_of, runs_of
from grammar import commands_of, without
from outputs import answers_of, expect_sums, of_any_schedule, report_of, reports_of
from program import MEGABYTE

OUT_OF_MEMORY = b"metarun: out of memory\n"
NO_THREAD = b"metarun: no thread\n"
WANTING = (OUT_OF_MEMORY, NO_THREAD)
MAY_WANT = (b"new", b"alloc", b"calloc")
MOST_GROWTHS = 3000

FOUR_LOADERS = (
    "new 1 standard / new 2 boot / new 3 reflection / new 4 hidden / alloc 1 1 4 / alloc 2 1 4 / "
    "alloc 3 1 4 / alloc 4 1 4 / write 1 1 0 11 / write 2 1 0 22 / write 3 1 0 33 / write 4 1 0 44 / sync / "
    "read 1 1 0 / read 2 1 0 / read 3 1 0 / read 4 1 0 / alloc 1 2 600 / alloc 2 2 600 / alloc 3 2 600 / "
    "alloc 4 2 100 / report")

# Where a sync parts the lines of two loaders, no schedule of workers changes what they meet.
TRACES = {
    "a fresh loader in each space": (
        ["--class-nodes", "1"],
        "new 1 standard / alloc 1 1 10 / calloc 1 2 10 / sync / new 2 boot / calloc 2 1 4000 / alloc 2 2 9000 / "
        "free 1 1 / alloc 1 3 4 / sync / write 2 2 8999 7 / read 2 2 8999 / read 1 3 0 / report"),
    "two loaders work side by side in each space": (
        ["--class-nodes", "1"],
        "new 1 standard / new 2 boot / alloc 1 1 10 / calloc 2 1 4000 / calloc 1 2 10 / alloc 2 2 9000 / sync / "
        "free 1 1 / alloc 1 3 4 / write 2 2 8999 7 / read 1 3 0 / sync / read 2 2 8999 / new 3 hidden / "
        "alloc 3 1 100 / unload 1 / calloc 3 2 100 / report / alloc 2 3 600000 / unload 3 / report"),
    "the granule limit is met": (
        ["--max-granules", "1"],
        "new 1 standard / alloc 1 1 8192 / sync / new 2 standard / alloc 2 1 1 / sync / free 1 1 / "
        "alloc 1 2 100 / sync / alloc 2 1 1 / sync / unload 1 / sync / alloc 2 1 1 / alloc 2 2 8000 / report"),
    "the node limit is met": (
        ["--nodes", "1"],
        "new 1 boot / alloc 1 1 1 / sync / new 2 boot / alloc 2 1 1 / sync / new 3 boot / alloc 3 1 1 / sync / "
        "unload 1 / sync / alloc 3 1 524288 / report"),
    "loaders go and nodes are given back": (
        [],
        "new 1 boot / new 2 boot / new 3 standard / sync / alloc 1 1 524288 / sync / alloc 2 1 524288 / sync / "
        "alloc 3 1 10 / sync / unload 1 / unload 2 / sync / purge / sync / report / new 1 hidden / "
        "alloc 1 1 26 / sync / unload 3 / unload 1 / sync / purge / sync / report"),
    "free blocks and retired chunks": (
        [],
        "new 1 standard / alloc 1 1 10 / write 1 1 0 7 / free 1 1 / alloc 1 2 4 / alloc 1 3 5 / read 1 2 0 / "
        "sync / new 2 standard / alloc 2 1 10 / sync / alloc 1 4 600 / alloc 1 5 2 / free 1 4 / alloc 1 6 300 / "
        "alloc 1 7 200 / report"),
    "four loaders move on": (
        ["--policy", "none", "--max-granules", "256"],
        FOUR_LOADERS),
    "full reports tell of two loaders": (
        ["--report", "full", "--class-nodes", "1"],
        "new 1 standard / new 2 hidden / alloc 1 1 10 / calloc 2 1 20 / free 1 9 / sync / alloc 2 2 200 / calloc 1 2 30 / "
        "read 2 1 20 / report / new 3 boot / free 1 1 / unload 2 / report"),
    "fine granules": (
        ["--policy", "aggressive", "--max-granules", "4"],
        "new 1 standard / alloc 1 1 10 / sync / new 2 standard / alloc 2 1 2049 / sync / alloc 1 2 9000 / "
        "unload 2 / sync / alloc 1 2 4000 / report"),
}


def text_of(row):
    """The bytes of a trace whose lines ' / ' parts."""
    return (row.replace(" / ", "\n") + "\n").encode()


class Counts(NamedTuple):
    """What the allocator counted."""

    asked: int
    refused: int
    asked_after: int
    is_written: int


class Told:
    """The file by which the allocator tells its counts."""

    def __init__(self, room):
        self.file = tempfile.NamedTemporaryFile(dir=room)

    def anew(self):
        """Its path, the counts being 0."""
        os.pwrite(self.file.fileno(), bytes(32), 0)
        return self.file.name

    def counts(self):
        return Counts(*struct.unpack("4Q", os.pread(self.file.fileno(), 32, 0)))


class Refusing:
    """Runs a trace while growths are refused."""

    def __init__(self, bench, words, text):
        self.bench, self.words, self.text = bench, words, text
        self.told = Told(bench.room)
        self.calm = {}

    def run(self, rule, number):
        """Runs it with the rule and the growth's number; tells how it ended, and how many growths were refused."""
        settings = {"REFUSE_TELL": self.told.anew(), rule: number}
        ended = self.bench.run_with("refuse", settings, self.words, self.text)
        return ended, self.told.counts().refused

    def answers_without(self, lines):
        """The answers to the trace without these lines, where nothing is refused."""
        if lines not in self.calm:
            ended = self.bench.run(self.words, without(self.text, lines))
            expect_ended(ended, 0)
            answers = answers_of(ended.output)
            expect(not any(is_want(answer) for answer in answers), "a refusal for want without any", ended.output)
            self.calm[lines] = answers
        return self.calm[lines]


def is_want(answer):
    return answer.reply == b"refused OutOfMemory"


def but_for_want(report):
    """A report's lines but for the count of the lines that want memory, which the other trace doesn't have."""
    return [line for line in report if not line.startswith(b"  OutOfMemory ")]


def expect_answers(found, wanted, workers, granule):
    """Fails the test where answers differ, in a report's numbers those that no schedule changes."""
    pairs = ([(answer.line, answer.reply) for answer in answers] for answers in (found, wanted))
    one, other = (b"".join(b"%d %s\n" % pair for pair in pair_list) for pair_list in pairs)
    expect(one == other, first_difference(one, other))
    for answer, other in zip(found, wanted):
        if answer.report and workers == 1:
            one, two = but_for_want(answer.report), but_for_want(other.report)
            expect(one == two, "a report differs", one, two)
        elif answer.report:
            parts = [of_any_schedule(report_of(it.report)) for it in (answer, other)]
            expect(parts[0] == parts[1], "a report's fixed numbers differ", *parts)
    for report in reports_of(found):
        expect_sums(report, granule)


def expect_refused_well(refusing, ended, refused, workers, granule):
    """Fails the test where a run that met so many refusals ended otherwise than it may. Tells whether a line wanted."""
    if ended.status == 3:
        expect(refused > 0, "status 3, and nothing was refused", ended.errors)
        expect(ended.output == b"" and ended.errors in WANTING, ended.errors, ended.output)
        return False
    expect_ended(ended, 0)
    answers = answers_of(ended.output)
    commands = dict(commands_of(refusing.text))
    wanting = frozenset(answer.line for answer in answers if is_want(answer))
    expect(refused > 0 or not wanting, "OutOfMemory, and nothing was refused", ended.output)
    expect(all(commands[line] in MAY_WANT for line in wanting), "OutOfMemory on another line", ended.output)
    others = [answer for answer in answers if not is_want(answer)]
    expect_answers(others, refusing.answers_without(wanting), workers, granule)
    return wanting != frozenset()


def refuses_each_growth(bench, words, text, workers):
    """Refuses the first, the second, .. growth, alone and with all later ones, until a run meets no refusal."""
    granule = 2048 if "aggressive" in words else 8192
    refusing = Refusing(bench, [*words, "--workers", str(workers)] if workers > 1 else words, text)
    most, answered = 0, 0
    for rule in ("REFUSE_AT", "REFUSE_FROM"):
        for number in range(1, MOST_GROWTHS):
            ended, refused = refusing.run(rule, number)
            answered += expect_refused_well(refusing, ended, refused, workers, granule)
            if not refused:
                break
        expect(not refused, "there was no end of growths")
        most = max(most, number - 1)
    may_want = any(word in MAY_WANT for _, word in commands_of(text))
    expect(answered > 0 or not may_want, "no line was refused for want")
    return f"{most} growths, {answered} runs answered with OutOfMemory"


def refuses_words(bench, words):
    """Refuses each growth while a command line is read that asks for nothing but a text: it is whole, or status 3."""
    calm = bench.run(words)
    refusing = Refusing(bench, words, b"")
    for rule in ("REFUSE_AT", "REFUSE_FROM"):
        for number in range(1, MOST_GROWTHS):
            ended, refused = refusing.run(rule, number)
            if not refused:
                break
            expect(ended[:3] in (calm[:3], (3, b"", OUT_OF_MEMORY)), rule, number, ended)
        expect(ended[:3] == calm[:3] and number > 1, ended)
    return f"{number - 1} growths"


def refuses_threads(bench, words, text, workers):
    """Bounds what may be mapped, from little to much: the stack of a thread is the first thing that can't be had."""
    refusing = Refusing(bench, [*words, "--workers", str(workers)], text)
    said = set()
    for most in range(8, 200, 2):
        source, pipe = os.pipe()
        limits = {resource.RLIMIT_AS: most * MEGABYTE}
        process = bench.program.start(refusing.words, devices=(source, None, None), limits=limits)
        os.close(source)
        os.write(pipe, text)
        os.close(pipe)
        ended = bench.program.wait(process)
        expect_refused_well(refusing, ended, 1, workers, 8192)
        said.add(ended.errors)
    expect(NO_THREAD in said, "no thread was refused", said)


def tests():
    for name, (words, row) in TRACES.items():
        for workers in (1, 2, 4):
            arguments = (words, text_of(row), workers)
            yield Test(f"growths are refused where {name}, {workers} at work", refuses_each_growth, arguments)
    for words in (["--help"], ["--version"], ["--granules"], ["--workers", "9"], ["--addresses", "--workers", "2"],
                  ["--format", "json", "--workers", "2"]):
        yield Test(f"growths are refused where the words are {' '.join(words)}", refuses_words, (words,))
    for workers in (2, 4, 8):
        arguments = ([], text_of(FOUR_LOADERS), workers)
        yield Test(f"threads are refused, {workers} at work", refuses_threads, arguments)
    for folder in FOLDERS:
        for name, options, file in sorted(runs_of(folder)):
            words = options[:options.index("--workers")] if "--workers" in options else options
            arguments = (words, content_of(folder, f"{name}.trace"), 1)
            yield Test(f"growths are refused in {folder}/{file[:-len('.out')]}", refuses_each_growth, arguments)
