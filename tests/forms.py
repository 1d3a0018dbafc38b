"""Another form than text: one JSON document that follows its schema, and has each number of the full report.

The numbers of its columns are read from the text of the same trace with a report after each line.
"""
import json
import os
import re
import resource

from claims import Test, expect, expect_ended
from examples import FOLDERS, content_of, runs_of
from grammar import is_command, lines_of
from growths import MOST_GROWTHS, OUT_OF_MEMORY, Refusing
from lengths import churn
from outputs import KINDS, NODE_WORDS, PEAKS, SETTINGS, SUMS, answers_of, report_of
from program import CLOSED, MEGABYTE, least_seconds

FORM = ("--format", "json")
SCHEMA = json.loads(content_of("docs", "replay.schema.json"))
MOST_COLUMNS = 512
SPACES = ("non-class", "class")
ALONE = b"metarun: --format html or json needs --workers 1\n"
TRACE = b"new 1 standard\nalloc 1 1 10\nreport\n"
FAULTY = b"new 1 standard\nnew 2 app\n"
LINES, MOST_MEMORY, MOST_TIMES = 100000, 48 * MEGABYTE, 1.6
# A trace that has each sort of reply, of refusal and of line; blank lines and comments part lines that are answered alike.
MANY = b"".join(line + b"\n" for line in (
    b"new 1 standard", b"new 2 hidden", b"# a comment", b"alloc 1 1 100", b"", b"calloc 1 2 30", b"alloc 2 1 9000",
    b"write 1 1 3 42", b"read 1 1 3", b"read 1 1 100", b"new 1 boot", b"alloc 1 1 5", b"alloc 1 9 0", b"alloc 1 9 600000",
    b"free 1 7", b"free 3 1", b"report", b"calloc 2 5 524288", b"calloc 2 6 524288", b"calloc 2 7 524288", b"unload 2",
    b"unload 2", b"purge", b"sync", b"report", b"alloc 1 3 8", b"new 3 reflection"))
TYPES = {"object": dict, "array": list, "string": str, "integer": int, "null": type(None)}
KEYWORDS = {"$schema", "title", "$defs", "$ref", "type", "const", "enum", "properties", "required", "additionalProperties", "items",
            "prefixItems", "minItems", "maxItems", "minimum", "maximum", "pattern"}


def expect_follows(value, schema, place="the document"):
    """Fails the test where a value doesn't follow a schema, by the keywords that the document's has."""
    expect(set(schema) <= KEYWORDS, "the schema has keywords that nothing here checks", sorted(set(schema) - KEYWORDS))
    if "$ref" in schema:
        expect_follows(value, SCHEMA["$defs"][schema["$ref"].removeprefix("#/$defs/")], place)
    if "type" in schema:
        names = schema["type"] if isinstance(schema["type"], list) else [schema["type"]]
        expect(type(value) in [TYPES[name] for name in names], place, "is none of", names, value)
    expect("const" not in schema or value == schema["const"], place, "is", value)
    expect("enum" not in schema or value in schema["enum"], place, "is", value)
    expect("pattern" not in schema or re.search(schema["pattern"], value), place, "is", value)
    if isinstance(value, int):
        expect(schema.get("minimum", value) <= value <= schema.get("maximum", value), place, "is", value)
    if isinstance(value, list):
        expect(schema.get("minItems", 0) <= len(value) <= schema.get("maxItems", len(value)), place, "has", len(value))
        kinds = schema.get("prefixItems", [])
        for number, item in enumerate(value):
            kind = kinds[number] if number < len(kinds) else schema.get("items", {})
            expect_follows(item, kind, f"{place}, {number}")
    if isinstance(value, dict):
        known = schema.get("properties", {})
        expect(set(schema.get("required", [])) <= set(value), place, "lacks a member", sorted(value))
        expect(schema.get("additionalProperties", True) or set(value) <= set(known), place, "has another member", sorted(value))
        for label, member in value.items():
            expect_follows(member, known.get(label, {}), f"{place}, {label}")


def document_of(bench, words, text):
    """The document of a trace: the text is what python writes of what it reads, members in the order of their bytes."""
    ended = bench.run([*FORM, *words], text)
    expect_ended(ended, 0)
    document = json.loads(ended.output)
    written = json.dumps(document, sort_keys=True, separators=(",", ":")).encode() + b"\n"
    expect(ended.output == written, "the document is written otherwise", ended.output)
    expect_follows(document, SCHEMA)
    return document


def answered(bench, words, text):
    """The answers to a trace as a text, with full reports."""
    ended = bench.run([*words, "--report", "full"], text)
    expect_ended(ended, 0)
    return answers_of(ended.output)


def sums_in(part):
    return [part[label] for label in SUMS]


def both(loader):
    """The sums over both arenas of a loader."""
    return dict(zip(SUMS, (sum(pair) for pair in zip(*(sums_in(loader[space]) for space in SPACES)))))


def expect_space(told, space):
    """Fails the test where a space of a state has other numbers than a report's; one that it lacks has none."""
    if space is None:
        numbers = {label: told[label] for label in told if label not in ("space", "held", "free")}
        expect(not any([*numbers.values(), *told["held"], *told["free"]]), "an empty space has numbers", told)
        return
    numbers = {label: number for label, number in space.numbers.items() if label != "loaders"}
    expect({label: told[label] for label in numbers} == numbers, "a space has", told, "and the report", numbers)
    expect([held for _, held, _ in space.levels] == told["held"], "held", told, space.levels)
    expect([free for _, _, free in space.levels] == told["free"], "free", told, space.levels)


def expect_state(state, report):
    """Fails the test where a state has another number than a full report."""
    expect([space["space"] for space in state["spaces"]] == list(SPACES), "the spaces are", state["spaces"])
    for told, space in zip(state["spaces"], [*report.spaces, None]):
        expect_space(told, space)
    rows = [(loader["name"], loader["kind"], *(both(loader)[label] for label in ("chunks", "capacity", "used", "live")))
            for loader in state["loaders"]]
    expect(rows == [tuple(row) for row in report.loaders], "the loaders are", rows, report.loaders)
    held = [(loader["name"], loader["kind"], space, *sums_in(loader[space])) for loader in state["loaders"] for space in SPACES
            if loader[space]["chunks"]]
    expect(held == report.holdings, "loaders by space", held, report.holdings)
    kinds = {kind["kind"]: [kind["loaders"], *sums_in(kind)] for kind in state["kinds"]}
    expect(list(kinds) == list(KINDS) and kinds == report.kinds, "kinds", kinds, report.kinds)
    expect(state["refused"] == report.refusals, "refused", state["refused"], report.refusals)
    peaks = {label: int(report.peaks[label][0]) for label in PEAKS}
    expect(state["peaks"] == peaks, "peaks", state["peaks"], peaks)
    places = {root["root"]: root["places"] for root in state["map"]}
    expect(places == report.maps, "the map", places, report.maps)
    expect(all(root["slot"] == root["root"] // 2 for root in state["map"]), "slots", state["map"])


def expect_settings(document, report):
    """Fails the test where the settings are others than a full report's."""
    told = {label: str(document["settings"][label]) for label in SETTINGS}
    expect(told == report.settings, "settings", told, report.settings)


def replies_in(document):
    """The reply to each line, by its number: what stands for some lines in a row stands for each of them."""
    replies, last = {}, (0, "")
    for first, end, reply in document["answers"]:
        expect(last[0] < first <= end and (first == end or reply == "ok"), "an element", first, end, reply)
        expect(not reply == last[1] == "ok" or last[0] + 1 < first, "two elements could be one", last, first)
        replies.update((number, reply.encode()) for number in range(first, end + 1))
        last = (end, reply)
    return replies


def tells_what_the_text_tells(bench, words, text):
    """Each reply and each number of the full reports, and of one more at the end, is the document's."""
    document = document_of(bench, words, text)
    answers = answered(bench, words, (text if text.endswith(b"\n") else text + b"\n") + b"report\n")
    expect(replies_in(document) == {answer.line: answer.reply for answer in answers[:-1]}, "the replies", document["answers"])
    expect(document["command lines"] == len(answers) - 1, "command lines", document["command lines"])
    asked = [answer for answer in answers[:-1] if answer.report]
    expect([state["line"] for state in document["reports"]] == [answer.line for answer in asked], "the reports' lines")
    for state, answer in zip(document["reports"], asked):
        expect_state(state, report_of(answer.report))
    last = report_of(answers[-1].report)
    expect(document["end"]["line"] is None, "the end has a line", document["end"]["line"])
    expect_state(document["end"], last)
    expect_settings(document, last)
    return document


def standings(bench, words, text):
    """After each command line: its number, its word, its reply, and by label the words of both spaces, those of the class
    space, and the loaders, from a report that is asked for after it."""
    commands = [(number, line) for number, line in enumerate(lines_of(text), 1) if is_command(line)]
    ended = bench.run(words, b"".join(line + b"\nreport\n" for _, line in commands))
    expect_ended(ended, 0)
    answers = answers_of(ended.output)
    for (number, line), own, after in zip(commands, answers[0::2], answers[1::2]):
        spaces = [space.numbers for space in report_of(after.report).spaces]
        numbers = {label: sum(space[label] for space in spaces) for label in ("reserved", "committed", "used", "live")}
        class_numbers = {f"class {label}": spaces[1][label] if len(spaces) > 1 else 0 for label in numbers}
        yield number, line.split(b" ")[0], own.reply, {**numbers, **class_numbers, "loaders": spaces[0]["loaders"]}


def columns_of(lines):
    """The columns of a run by the rule: line j of n falls into column j * c / n, cut off, and c is n, at most 512."""
    count = min(len(lines), MOST_COLUMNS)
    columns = [[] for _ in range(count)]
    for place, line in enumerate(lines):
        columns[place * count // len(lines)].append(line)
    return columns


def shows_each_state(bench, words, text):
    """Each series has in each column the most after its lines, or how many of them did what."""
    course = document_of(bench, words, text)["course"]
    columns = columns_of(list(standings(bench, words, text)))
    wanted = {label: [max(line[3][label] for line in column) for column in columns]
              for label in course if label not in ("first line", "last line", "unloads", "purges", "refused", "reports")}
    wanted["first line"] = [column[0][0] for column in columns]
    wanted["last line"] = [column[-1][0] for column in columns]
    wanted["refused"] = [sum(line[2].startswith(b"refused ") for line in column) for column in columns]
    for label, word in (("unloads", b"unload"), ("purges", b"purge"), ("reports", b"report")):
        wanted[label] = [sum(line[1:3] == (word, b"ok") for line in column) for column in columns]
    for label in sorted(wanted):
        expect(course[label] == wanted[label], label, "is", course[label], "and not", wanted[label])


def reaches_the_peaks(document):
    """The greatest of the columns are the peaks, and in each column live words are in use, these committed, these reserved."""
    course, peaks, granule = document["course"], document["end"]["peaks"], document["settings"]["granule"]
    if course["used"]:
        found = {"granules": max(course["committed"]) // granule, "nodes": max(course["reserved"]) // NODE_WORDS,
                 "used": max(course["used"]), "loaders": max(course["loaders"])}
        expect(found == peaks, "the greatest of the columns are", found, "and the peaks", peaks)
    for kind in ("", "class "):
        for amounts in zip(*(course[kind + label] for label in ("live", "used", "committed", "reserved"))):
            expect(list(amounts) == sorted(amounts), f"{kind}live, used, committed and reserved of a column are", amounts)


def is_the_text(bench, words, text):
    """All of it for one trace; how much a report shall tell changes nothing."""
    document = tells_what_the_text_tells(bench, words, text)
    reaches_the_peaks(document)
    for detail in ("basic", "full"):
        expect(document_of(bench, [*words, "--report", detail], text) == document, "another document with", detail)


def alone(options):
    """Options of an example for one worker, without those of a report."""
    words = list(options)
    for word in ("--workers", "--report"):
        if word in words:
            del words[words.index(word):words.index(word) + 2]
    return words


def an_example_is_the_text(bench, folder, name, options):
    text = content_of(folder, f"{name}.trace")
    is_the_text(bench, alone(options), text)
    if len(lines_of(text)) < 3000:
        shows_each_state(bench, alone(options), text)


def many_replies_are_the_text(bench):
    """A trace with all sorts of lines, in each setting; and one with more lines than columns."""
    for words in ([], ["--class-nodes", "1"], ["--addresses"], ["--policy", "aggressive", "--class-nodes", "1", "--addresses"],
                  ["--max-granules", "1", "--nodes", "1"], ["--policy", "none"]):
        is_the_text(bench, words, MANY)
        shows_each_state(bench, words, MANY)
    is_the_text(bench, ["--class-nodes", "1"], MANY * 30)
    shows_each_state(bench, ["--class-nodes", "1"], MANY * 30)


def an_empty_trace_has_no_line(bench):
    """No command line: no answer, no column, and the state at the end is the first one."""
    for text in (b"", b"\n", b"# a comment", b"\n# a comment\n\n"):
        for words in ([], ["--class-nodes", "2"]):
            document = document_of(bench, words, text)
            expect(document["command lines"] == 0 and document["answers"] == document["reports"] == [], document)
            expect(all(series == [] for series in document["course"].values()), document["course"])
            is_the_text(bench, words, text)


def is_refused_to_several(bench):
    """With two workers or more the form is refused before anything is read; the default form isn't."""
    for words in ([*FORM, "--workers", "2"], ["--workers=8", "--format=json"]):
        expect_ended(bench.run(words, TRACE), 2, ALONE, b"")
        expect(bench.program.bytes_read() == 0, words, "the trace was read")
    wanted = bench.run(["--workers", "2"], TRACE)
    expect_ended(bench.run(["--format", "text", "--workers", "2"], TRACE), 0, b"", wanted.output)


def is_whole_or_nothing(bench):
    """A fault, a refused growth and a device that fails leave nothing on standard output."""
    expect_ended(bench.run(FORM, FAULTY), 1, b"metarun: line 2: BadKind\n", b"")
    expect_ended(bench.run(FORM, TRACE, devices=(CLOSED, None, None)), 5, b"metarun: input failed\n", b"")
    full = os.open("/dev/full", os.O_WRONLY)
    for text in (TRACE, b""):
        expect_ended(bench.run(FORM, text, devices=(None, full, None)), 5, b"metarun: output failed\n")
    os.close(full)


def refuses_each_growth(bench):
    """Each growth refused in turn, and from each on: status 3 and nothing written, or a document in which OutOfMemory stands
    on lines that may want memory."""
    calm = replies_in(document_of(bench, ["--class-nodes", "1"], MANY))
    refusing, most = Refusing(bench, [*FORM, "--class-nodes", "1"], MANY), 0
    for rule in ("REFUSE_AT", "REFUSE_FROM"):
        for number in range(1, MOST_GROWTHS):
            ended, refused = refusing.run(rule, number)
            if ended.status == 3:
                expect_ended(ended, 3, OUT_OF_MEMORY, b"")
                expect(refused > 0, "status 3, and nothing was refused")
                continue
            expect_ended(ended, 0)
            document = json.loads(ended.output)
            expect_follows(document, SCHEMA)
            replies = replies_in(document)
            expect(list(replies) == list(calm), "other lines are answered", list(replies))
            wanting = [reply for reply in replies.values() if reply == b"refused OutOfMemory"]
            expect(len(wanting) == document["end"]["refused"]["OutOfMemory"], "refused for want", document["end"]["refused"])
            if not refused:
                break
        expect(not refused and replies == calm, "there was no end of growths")
        most = max(most, number - 1)
    return f"{most} growths"


def long_traces_cost_little(bench):
    """100,000 lines in bounded memory, and at most 1.6 times the processor time of the text with full reports."""
    text = churn(LINES)

    def run(words):
        ended = bench.run(words, text, seconds=100, limits={resource.RLIMIT_AS: MOST_MEMORY})
        expect_ended(ended, 0)
        return ended

    def is_little(document, lines):
        return document <= MOST_TIMES * lines

    runs = [lambda words=words: run(words) for words in (FORM, ("--report", "full"))]
    took = least_seconds(runs, is_little)
    figures = f"{took[0]:.3f} s, and {took[1]:.3f} s for the text"
    expect(is_little(*took), figures)
    document = document_of(bench, [], text)
    expect(document["command lines"] == text.count(b"\n") and len(document["course"]["used"]) == MOST_COLUMNS, "lines and columns")
    reaches_the_peaks(document)
    return figures


def tests():
    for folder in FOLDERS:
        for name, options, file in sorted(runs_of(folder)):
            yield Test(f"the document of {folder}/{file[:-len('.out')]} is the text's", an_example_is_the_text,
                       (folder, name, options))
    yield Test("a document tells all sorts of lines in each setting", many_replies_are_the_text)
    yield Test("the document of an empty trace has no line", an_empty_trace_has_no_line)
    yield Test("a document is refused to several workers", is_refused_to_several)
    yield Test("a document is written whole or not at all", is_whole_or_nothing)
    yield Test("growths are refused where a document is asked for", refuses_each_growth)
    yield Test("the document of a long trace costs little more than its text", long_traces_cost_little)
