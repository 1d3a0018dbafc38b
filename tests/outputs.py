"""What stands in an output: the replies, and in each report the numbers and their sums."""
from typing import NamedTuple

from claims import expect

AMOUNTS = ("reserved", "committed", "used", "live", "free blocks", "waste")
USAGES = (b"Usage", b"Class usage", b"Usage of both")
SETTINGS = ("policy", "granule", "max granules", "nodes", "class nodes", "workers")
KINDS = ("boot", "standard", "hidden", "reflection")
SUMS = ("chunks", "capacity", "fronts", "used", "live", "free blocks", "waste")
REFUSALS = ("LoaderExists", "IdsUsedUp", "NoLoader", "BlockExists", "ZeroWords", "TooLarge", "OutOfMemory", "ReserveLimit",
            "CommitLimit", "NoBlock", "OutOfRange")
KEY = (b"  - free, not committed", b"  . free, committed", b"  u lent, not committed", b"  o lent in part, committed",
       b"  O lent as a whole, committed")
PLACES = 64
LABELS = ("loaders", "nodes", "reserved", "granules", "committed", "chunks", "capacity", "fronts", "used", "live",
          "free blocks", "waste")
NODE_WORDS = 1048576
PEAKS = ("granules", "nodes", "used", "loaders")


class Answer(NamedTuple):
    """The reply to a line; a report's lines where it is one."""

    line: int
    reply: bytes
    report: list


class Space(NamedTuple):
    """The numbers of a space: by label, and by level the words, the held chunks and the free parts."""

    numbers: dict
    levels: list


class Report(NamedTuple):
    """A report: its spaces, the class space second where there is one, and the loaders' rows. Of a full report the settings
    by their labels, the usages, of which each has an amount's words, size and share by its label, of the space, the class space
    and both, the sums of each kind, the number of its loaders first, those of each loader, as its name, kind, space and sums,
    how many lines were refused, by name, the peaks by theirs, each as its number and size, and the places of each root by its
    number."""

    spaces: list
    loaders: list
    settings: dict
    usages: list
    kinds: dict
    holdings: list
    refusals: dict
    peaks: dict
    maps: dict


def answers_of(output):
    """Reads an output: a line that begins with a digit is a reply, and the others are the report's after it."""
    expect(output == b"" or output.endswith(b"\n"), "the output ends within a line", output[-80:])
    answers = []
    for line in output.split(b"\n")[:-1]:
        if line[:1].isdigit():
            number, _, reply = line.partition(b" ")
            answers.append(Answer(int(number), reply, []))
        else:
            expect(answers, "a report without a reply", line)
            answers[-1].report.append(line)
    return answers


def number_lines(lines, labels):
    """Takes the lines of these labels off, and gives their numbers."""
    numbers = {}
    for label in labels:
        line = lines.pop(0).decode()
        expect(line[:14].strip() == label, "a report's line of", label, "is", line)
        numbers[label] = int(line[14:])
    return numbers


def level_lines(lines, title):
    """Takes a table by levels off: for each its words, the held chunks and the free parts."""
    expect(lines.pop(0) == title, "no line", title)
    lines.pop(0)
    table = [tuple(map(int, lines.pop(0).split())) for _ in range(13)]
    expect([row[0] for row in table] == list(range(13)), "the levels are not 0 to 12")
    return [row[1:] for row in table]


def settings_of(lines):
    """Reads the settings of a full report, as they stand there."""
    if not lines:
        return {}
    expect(lines.pop(0) == b"Settings", "no line Settings")
    settings = {}
    for label in SETTINGS:
        line = lines.pop(0).decode()
        expect(line[:14].strip() == label, "a line of the setting", label, "is", line)
        settings[label] = line[14:].strip()
    return settings


def usages_of(lines):
    """Reads the usages of a full report."""
    usages = []
    while lines and lines[0] != b"Kinds":
        expect(lines.pop(0) == USAGES[len(usages)], "a usage has another title")
        expect(lines.pop(0).split() == [b"words", b"size", b"per", b"cent"], "a usage has other headings")
        usages.append({})
        for label in AMOUNTS:
            line = lines.pop(0).decode()
            expect(line[:14].strip() == label, "a usage's line of", label, "is", line)
            usages[-1][label] = line[14:].split()
    return usages


def expect_title(lines, title, words):
    """Takes a table's title and its headings off."""
    expect(lines.pop(0) == title, "no line", title)
    expect(lines.pop(0).decode().split() == [*words, *" ".join(SUMS).split()], "other headings of", title)


def kinds_of(lines):
    """Reads the sums of each kind, of a full report."""
    if not lines:
        return {}
    expect_title(lines, b"Kinds", ("kind", "loaders"))
    rows = [lines.pop(0).decode().split() for _ in KINDS]
    expect(tuple(kind for kind, *_ in rows) == KINDS, "the kinds are", rows)
    return {kind: list(map(int, sums)) for kind, *sums in rows}


def holdings_of(lines):
    """Reads what each loader holds in each space, of a full report."""
    if not lines:
        return []
    expect_title(lines, b"Loaders by space", ("name", "kind", "space"))
    rows = []
    while lines and lines[0] != b"Refused":
        rows.append(lines.pop(0).decode().split())
    return [(int(name), kind, space, *map(int, sums)) for name, kind, space, *sums in rows]


def refusals_of(lines):
    """Reads how many lines were refused, of a full report."""
    if not lines:
        return {}
    expect(lines.pop(0) == b"Refused", "no line Refused")
    return number_lines(lines, REFUSALS)


def peaks_of(lines):
    """Reads the most of each thing that the run had at once so far, of a full report."""
    if not lines:
        return {}
    expect(lines.pop(0) == b"Peaks", "no line Peaks")
    expect(lines.pop(0).decode().split() == ["number", "size"], "other headings of Peaks")
    rows = [lines.pop(0).decode().split() for _ in PEAKS]
    expect(tuple(row[0] for row in rows) == PEAKS, "other peaks", rows)
    sizes = [rest for _, _, *rest in rows]
    expect([len(size) for size in sizes] == [2, 2, 2, 0], "other sizes of peaks", rows)
    return {label: told for label, *told in rows}


def maps_of(lines):
    """Reads the places of each root by its number, of a full report."""
    if not lines:
        return {}
    expect(lines.pop(0) == b"Map", "no line Map")
    expect(lines.pop(0).decode().split() == "slot root places of 8192 words".split(), "other headings of Map")
    maps = {}
    while len(lines) > len(KEY):
        slot, root, places = lines.pop(0).decode().split()
        expect(int(slot) == int(root) // 2 and len(places) == PLACES, "the map of a root is", slot, root, places)
        expect(int(root) > max(maps, default=-1), "roots don't rise", root, list(maps))
        maps[int(root)] = places
    expect(tuple(lines) == KEY, "another key of Map", lines)
    return maps


def report_of(lines):
    """Reads a report."""
    lines = list(lines)
    expect(lines.pop(0) == b"Metaspace", "a report begins otherwise")
    spaces = [Space(number_lines(lines, LABELS), level_lines(lines, b"Chunks by level"))]
    if lines[0] == b"Class space":
        lines.pop(0)
        spaces.append(Space(number_lines(lines, LABELS[1:]), level_lines(lines, b"Class chunks by level")))
    expect(lines.pop(0) == b"Loaders", "no line Loaders")
    lines.pop(0)
    rows = []
    while lines and lines[0] != b"Settings":
        rows.append(lines.pop(0).decode().split())
    loaders = [(int(name), kind, *map(int, rest)) for name, kind, *rest in rows]
    return Report(spaces, loaders, settings_of(lines), usages_of(lines), kinds_of(lines), holdings_of(lines),
                  refusals_of(lines), peaks_of(lines), maps_of(lines))


def reports_of(answers):
    return [report_of(answer.report) for answer in answers if answer.report]


def expect_sums(report, granule=8192):
    """Fails the test where a report's numbers don't add up as docs/FORMATS.md says."""
    for space in report.spaces:
        numbers, levels = space
        parts = numbers["live"] + numbers["free blocks"] + numbers["waste"]
        expect(numbers["used"] == parts, "used is not live plus free blocks plus waste", numbers)
        expect(numbers["reserved"] == NODE_WORDS * numbers["nodes"], "reserved", numbers)
        expect(numbers["committed"] == granule * numbers["granules"], "committed", numbers)
        expect(numbers["chunks"] == sum(held for _, held, _ in levels), "chunks", numbers, levels)
        expect(numbers["capacity"] == sum(words * held for words, held, _ in levels), "capacity", numbers, levels)
        whole = sum(words * (held + free) for words, held, free in levels)
        expect(numbers["reserved"] == whole, "held and free parts don't make the nodes", numbers, levels)
        expect(numbers["used"] <= numbers["fronts"] <= numbers["capacity"], "fronts", numbers)
    expect(report.spaces[0].numbers["loaders"] == len(report.loaders), "loaders", report)
    expect(report.loaders == sorted(report.loaders), "the loaders don't rise", report.loaders)
    for place, label in ((2, "chunks"), (3, "capacity"), (4, "used"), (5, "live")):
        whole = sum(space.numbers[label] for space in report.spaces)
        expect(whole == sum(row[place] for row in report.loaders), f"the loaders' {label} don't add up", report)


def expect_details(report):
    """Fails the test where the sums of kinds and loaders of a full report don't make those of the spaces."""
    for place, space in enumerate(report.spaces):
        word = ("non-class", "class")[place]
        rows = [row for row in report.holdings if row[2] == word]
        expect([row[0] for row in rows] == sorted(row[0] for row in rows), "the loaders don't rise", rows)
        for at, label in enumerate(SUMS, 3):
            expect(space.numbers[label] == sum(row[at] for row in rows), "the loaders'", label, "of", word, "don't add up", report)
    for at, label in enumerate(SUMS, 1):
        whole = sum(space.numbers[label] for space in report.spaces)
        expect(whole == sum(sums[at] for sums in report.kinds.values()), "the kinds'", label, "don't add up", report)
    for kind, sums in report.kinds.items():
        expect(sums[0] == sum(row[1] == kind for row in report.loaders), "the loaders of kind", kind, "are", report)


def expect_refusals(answers):
    """Fails the test where a full report doesn't count the refused lines before its own."""
    so_far = dict.fromkeys(REFUSALS, 0)
    for answer in answers:
        told = report_of(answer.report).refusals if answer.report else {}
        expect(not told or told == so_far, "refused lines are", so_far, "and not", told)
        if answer.reply.startswith(b"refused "):
            so_far[answer.reply.split()[1].decode()] += 1


def of_any_schedule(report):
    """The part of a report that no schedule of workers changes: of a full one also the settings but for the number of workers,
    the refused lines but for those that wanted memory, the loaders and live words of each kind, and those of each loader by space."""
    live = [space.numbers["live"] for space in report.spaces]
    loaders = [(name, kind, rest[3]) for name, kind, *rest in report.loaders]
    settings = {label: told for label, told in report.settings.items() if label != "workers"}
    refusals = {name: number for name, number in report.refusals.items() if name != "OutOfMemory"}
    at = SUMS.index("live")
    kinds = {kind: (number, sums[at]) for kind, (number, *sums) in report.kinds.items()}
    holdings = [(name, kind, space, sums[at]) for name, kind, space, *sums in report.holdings]
    return report.spaces[0].numbers["loaders"], live, loaders, settings, refusals, kinds, holdings
