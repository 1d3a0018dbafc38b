"""The library's own calls while growths are refused: rows of the program calls, under the same allocator.

A row that takes memory makes its preparation, tells the state, makes a call, tells its answer and the state after it, and
where the answer is a refusal makes the call once more. Where a state keeps what no call tells, it makes calls last that
use that up, and tells what they find: where free blocks lie, and how far current chunks are used. The row of replays
replays a trace, and the row of steps has a system run one, each once more where memory or a thread was wanted. The other
rows make calls that take no memory after a mark, and tell what they find.
"""
import os
import re

from claims import Test, expect, expect_ended
from grammar import commands_of, without
from growths import MAY_WANT, MOST_GROWTHS, TRACES, Told, text_of
from program import Program
from workbench import ROOT

TAKING = ("carve", "carve_boxes", "reserve", "pool", "take", "pool_maps", "place", "alloc", "insert", "new_loader", "step", "run",
          "totals", "details", "system_maps", "shared", "meter", "parse", "print", "text", "full_text", "lines", "map_text")
PROBED = ("reserve", "place", "alloc", "insert", "new_loader", "step", "run", "totals", "details", "system_maps")
QUIET = ("sizes", "nodes", "tree", "boxes", "blocks", "accounts", "counter", "arena", "loaders", "system", "report", "lock")


def usage_line(about, *amounts):
    """A line on how much of a space is what: words, and their share of what stands above in tenths of a per cent."""
    names = ("reserved", "committed", "used", "live", "free_blocks", "waste")
    told = (f"{name}: Amount {{ words: {words}, share: {f'Some({share})' if share is not None else 'None'} }}"
            for name, (words, share) in zip(names, amounts))
    return f"{about} Usage {{ {', '.join(told)} }}"


def sums_line(about, name, **sums):
    """A line of sums."""
    return f"{about}{name} {{ {', '.join(f'{word}: {number}' for word, number in sums.items())} }}"


# Lines that stand in a row, in this order among others, worked by hand.
SAID = {
    "blocks": ("reserve all Err(OutOfMemory)",),
    "tree": ("can (Some(true), Some(false))", "count (9, 1)", "count (10, 0)", "count (11, 1)", "count (12, 1)", "count (11, 1)",
             "count (12, 0)", "can (Some(true), None)", "count (10, 1)", "can (None, None)", "count (8, 0)", "count (9, 0)"),
    "arena": ("write (3999, Ok(()))", "read (1, Ok(0))", "read (3999, Ok(7))",
              "read (4000, Err(OutOfRange { words: 4000 }))", "free Ok(())", "free Err(NotLive)",
              "account (1, NonClass)", "read gone Err(NotLive)",
              sums_line("of (Hidden, 0, ", "ArenaTotals", chunks=0, capacity=0, fronts=0, used=0, live=0, free_blocks=0,
                        waste=0) + ")", "account (2, NonClass)", "account (3, Class)"),
    "loaders": ("at (1, (true, true), 4512)", "word (1, 2, 3999, Ok(()), Ok(7))",
                "word (2, 2, 0, Err(NoBlock), Err(NoBlock))", "free (Ok(()), Err(NoBlock))", "remove false", "first 1",
                "count 0"),
    "system": ("loaders 3", "(Read { loader: 2, block: 1, index: 19 }, Value(5))", "free Ok(())", "free Err(NotLive)",
               "unload Ok(())", "unload Err(NoLoader)", "purge 1", "loaders 2", "without Boot",
               "refused Unsettled { opened: 4, gathered: 2 }", "left (4, 30)"),
    "report": (usage_line("usage", (1048576, None), (8192, 10), (4512, 550), (4010, 888), (502, 111), (0, 0)),
               usage_line("class usage", (1048576, None), (16384, 20), (50, 3), (50, 1000), (0, 0), (0, 0)),
               usage_line("usage of both", (2097152, None), (24576, 30), (4562, 185), (4060, 889), (502, 110), (0, 0)),
               sums_line("boot ", "KindTotals", loaders=1, chunks=1, capacity=131072, fronts=8192, used=20, live=20,
                         free_blocks=0, waste=0),
               sums_line("standard ", "KindTotals", loaders=1, chunks=2, capacity=4608, fronts=4608, used=4512, live=4010,
                         free_blocks=502, waste=0),
               sums_line("hidden ", "KindTotals", loaders=1, chunks=1, capacity=128, fronts=128, used=30, live=30,
                         free_blocks=0, waste=0),
               sums_line("reflection ", "KindTotals", loaders=0, chunks=0, capacity=0, fronts=0, used=0, live=0,
                         free_blocks=0, waste=0),
               sums_line("refusals ", "Refusals", loader_exists=0, ids_used_up=0, no_loader=0, block_exists=0, zero_words=0,
                         too_large=0, out_of_memory=0, reserve_limit=0, commit_limit=0, no_block=2, out_of_range=1)),
    "lock": ("grow Ok(Span { start: 0, level: Level { number: 11 } })", "open 2", "open both (3, 4)",
             "purge 1", "refused Unsettled { opened: 2, gathered: 0 }"),
}
REPLAYED = ("a fresh loader in each space", "two loaders work side by side in each space")
# Traces of steps, with the limit of granules and what a system answers, worked by hand.
STEPPED = {
    "two loaders share a granule": (
        8192, "new 1 standard / alloc 1 1 10 / new 2 standard / alloc 2 1 10 / alloc 1 2 500 / alloc 1 3 10",
        "Ok / At(0) / Ok / At(512) / At(10) / At(1024)"),
    "a purged slot comes back": (
        8192, "new 1 boot / new 2 boot / new 3 boot / new 4 boot / new 5 boot / alloc 1 1 524288 / alloc 2 1 524288 / "
        "alloc 3 1 524288 / alloc 4 1 524288 / alloc 5 1 524288 / unload 3 / unload 4 / purge / new 6 boot / new 7 boot / "
        "alloc 6 1 524288 / alloc 7 1 524288",
        "Ok / Ok / Ok / Ok / Ok / At(0) / At(524288) / At(1048576) / At(1572864) / At(2097152) / Ok / Ok / Ok / Ok / Ok / "
        "At(2621440) / At(1048576)"),
    "the limit refuses a growth in place": (
        2, "new 1 boot / alloc 1 1 8192 / new 2 hidden / alloc 2 1 10 / alloc 1 2 20",
        "Ok / At(0) / Ok / At(524288) / At(528384)"),
}
OUTSIDE = b"refused outside a call\n"
UNSEEN = b"nothing shows it"
NO_MEMORY, NO_THREAD = b"fault OutOfMemory", b"fault NoThread"


class Calls:
    """Runs a row of the program calls while growths are refused."""

    def __init__(self, bench, row, words=()):
        self.bench, self.row, self.words = bench, row, [row, *words]
        self.program = Program(os.path.join(ROOT, "crates/calls/out/calls"))
        self.told = Told(bench.room)

    def run(self, given=b"", **rules):
        """Runs the row over a text with the allocator's rules; tells how it ended, and what the allocator counted."""
        environment = {"LD_PRELOAD": self.bench.built("refuse"), "REFUSE_TELL": self.told.anew(),
                       **{rule: str(value) for rule, value in rules.items()}}
        ended = self.program.run(self.words, given, environment=environment)
        return ended, self.told.counts()

    def calm(self, given=b""):
        """The output where nothing is refused."""
        ended, counts = self.run(given)
        expect_ended(ended, 0)
        expect(counts.asked > 0, "no growth was met: the allocator isn't the program's")
        return ended.output

    def facts_of(self, output):
        """Reads a row's lines: the word of each, and the fact."""
        lines = [line.split(b" ", 2) for line in output.split(b"\n")[:-1]]
        expect(all(len(line) > 1 and line[0] == self.row.encode() for line in lines), "another row's line", output)
        return [(line[1], b"".join(line[2:])) for line in lines]


def refuses_each_growth(bench, row):
    """The first, the second, .. growth is refused: the call says so, changes nothing, and is served the next time."""
    calls = Calls(bench, row)
    output = calls.calm()
    (_, before), (_, answer), (_, after), *probed = calm = calls.facts_of(output)
    words = [b"before", b"answer", b"after"] + [b"probed"] * (row in PROBED)
    expect([word for word, _ in calm] == words and answer.startswith(b"ok") and all(fact for _, fact in calm), output)
    refused_calls = 0
    for number in range(1, MOST_GROWTHS):
        ended, counts = calls.run(REFUSE_AT=number)
        if not counts.refused:
            break
        if ended.status == 3:
            expect(ended.errors == OUTSIDE, "status 3", ended.errors)
            continue
        expect_ended(ended, 0)
        facts = calls.facts_of(ended.output)
        is_told = len(facts) == 5 + len(probed) and facts[1][1].split(b" ")[0] == b"refused"
        expect(is_told, "a refused growth shows nowhere", ended.output)
        wanted = [(b"before", before), (b"answer", b"refused"), (b"after", before)]
        wanted += [(b"again", answer), (b"last", after), *probed]
        expect(facts == wanted, "growth", number, facts, "and not", wanted)
        refused_calls += 1
    expect_ended(ended, 0, b"", output)
    expect(refused_calls > 0, "no growth of the call itself was refused")
    return f"{number - 1} growths, {refused_calls} of them the call's"


class Runs:
    """Runs a trace by a row with a number behind its name, and once more where memory or a thread was wanted."""

    def __init__(self, bench, row, number, text, faults):
        self.calls, self.text, self.faults = Calls(bench, row, [str(number)]), text, faults
        self.calm = {}

    def told(self, output):
        """What an output tells of the first call, and of the second: the answers, and what is left then."""
        facts = {b"answer": [], b"left": [], b"again": [], b"left_again": []}
        for word, fact in self.calls.facts_of(output):
            expect(word in facts, "another word", output)
            facts[word].append(fact)
        return (facts[b"answer"], facts[b"left"]), (facts[b"again"], facts[b"left_again"])

    def told_without(self, lines):
        """What is told of the trace without these lines, where nothing is refused."""
        if lines not in self.calm:
            first, again = self.told(self.calls.calm(without(self.text, lines)))
            expect(first[0] and again == ([], []), "memory was wanted without any refusal", first, again)
            self.calm[lines] = first
        return self.calm[lines]

    def refused(self, number):
        """Refuses a growth: tells the fault or the lines that wanted memory, and None where no growth was met.

        A growth may be one that the run can do without: then nothing shows that it was refused.
        """
        ended, counts = self.calls.run(self.text, REFUSE_AT=number)
        if ended.status == 3:
            expect(counts.refused > 0 and ended.errors == OUTSIDE, "status 3", ended.errors)
            return OUTSIDE
        expect_ended(ended, 0)
        first, again = self.told(ended.output)
        if not counts.refused:
            expect((first, again) == (self.told_without(frozenset()), ([], [])), "nothing was refused", ended.output)
            return None
        if again == ([], []):
            expect(first == self.told_without(frozenset()), "a refusal changes what is told", ended.output)
            return UNSEEN
        expect(again == self.told_without(frozenset()), "the call is answered otherwise again", ended.output)
        if len(first[0]) == 1 and first[0][0] in self.faults:
            return first[0][0]
        return self.wanting_lines(*first)

    def wanting_lines(self, answers, left):
        """The lines that are answered with want of memory; all else is told as if these weren't there."""
        commands = dict(commands_of(self.text))
        replies = [(int(answer.split(b" ")[0]), answer) for answer in answers]
        lines = frozenset(line for line, answer in replies if answer.endswith(b" Refused(OutOfMemory)"))
        expect(lines and all(commands[line] in MAY_WANT for line in lines), "want of memory on lines", lines, answers)
        others = [answer for line, answer in replies if line not in lines]
        wanted, left_without = self.told_without(lines)
        expect(others == wanted, "without the lines", lines, others, "and not", wanted)
        expect(left == left_without, "without the lines", lines, "is left", left, "and not", left_without)
        return lines

    def refuses_each_growth(self):
        """The first, the second, .. growth is refused: says how many they were, and whose."""
        became = []
        for number in range(1, MOST_GROWTHS):
            refused = self.refused(number)
            if refused is None:
                break
            became.append(refused)
        expect(refused is None, "there was no end of growths")
        faults = sum(refused in self.faults for refused in became)
        unseen, lines = became.count(UNSEEN), sum(isinstance(refused, frozenset) for refused in became)
        expect(faults > 0 and lines > 0 and unseen < lines, "no fault, or no line that wants memory", became)
        return f"{len(became)} growths, {faults} of them the run's, {lines} a line's, and {unseen} that nothing shows"


def replay_of(bench, text, workers):
    """A trace that so many workers replay."""
    return Runs(bench, "replay", workers, text, (NO_MEMORY, NO_THREAD) if workers > 1 else (NO_MEMORY,))


def replays_again(bench, text, workers):
    """The first, the second, .. growth is refused: a replay says so, and is served as ever the next time."""
    replays, alone = replay_of(bench, text, workers), replay_of(bench, text, 1)
    calm = [re.sub(rb"At\(\d+\)", b"At", answer) for answer in alone.told_without(frozenset())[0]]
    found = [re.sub(rb"At\(\d+\)", b"At", answer) for answer in replays.told_without(frozenset())[0]]
    expect(found == calm, "other workers, other answers", found, calm)
    return replays.refuses_each_growth()


def runs_again(bench, text, granules, replies):
    """A system runs the steps of a trace: as they were worked by hand, and while each growth is refused in turn."""
    runs = Runs(bench, "steps", granules, text, (NO_MEMORY,))
    answers = [b"%d %s" % (number, reply.encode()) for number, reply in enumerate(replies.split(" / "), 1)]
    found, left = runs.told_without(frozenset())
    expect(found == answers and len(left) == 1, "the steps are answered", found, "and not", answers)
    return runs.refuses_each_growth()


def calm_as_said(calls):
    """The output where nothing is refused, in which the lines stand that are known."""
    output = calls.calm()
    lines = iter(output.decode().splitlines())
    for said in SAID.get(calls.row, ()):
        expect(f"{calls.row} {said}" in lines, "not said where it should be:", said, output)
    return output


def takes_nothing(bench, row):
    """From the mark on the calls take no memory, and all memory refused changes no answer."""
    calls = Calls(bench, row)
    output = calm_as_said(calls)
    ended, counts = calls.run(REFUSE_AFTER=f"{row} marked\n")
    expect_ended(ended, 0, b"", output)
    expect(counts.is_written and counts.asked_after == 0, "growths after the mark", counts)
    for number in range(1, MOST_GROWTHS):
        ended, counts = calls.run(REFUSE_FROM=number)
        if ended.status == 3:
            expect(counts.refused > 0 and ended.errors == OUTSIDE, "status 3", ended.errors)
            continue
        expect_ended(ended, 0, b"", output)
        if not counts.refused:
            return f"{number - 1} growths"
    expect(False, "there was no end of growths")


def names_no_row(bench):
    """Without a word, and where a word names no row, nothing is told."""
    program = Calls(bench, TAKING[0]).program
    for words in ([], ["carving"]):
        ended = program.run(words, b"")
        expect(ended.status == 5 and not ended.output and ended.errors, words, ended)
    return "status 5"


def tests():
    yield Test("calls are asked by the names of rows", names_no_row)
    for row in TAKING:
        yield Test(f"a call refuses each growth: {row}", refuses_each_growth, (row,))
    for name in REPLAYED:
        for workers in (1, 2, 4):
            arguments = (text_of(TRACES[name][1]), workers)
            yield Test(f"a replay refuses each growth where {name}, {workers} at work", replays_again, arguments)
    for name, (granules, text, replies) in STEPPED.items():
        arguments = (text_of(text), granules, replies)
        yield Test(f"a run of steps refuses each growth where {name}", runs_again, arguments)
    for row in QUIET:
        yield Test(f"calls take no memory: {row}", takes_nothing, (row,))
