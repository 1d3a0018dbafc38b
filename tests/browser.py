"""The page of a replay: read as HTML and as XML, its tables beside the full report of the same run, and in a browser.

The report is that of a last line `report`, so it is of the state that the page shows. Sizes and shares are worked out here from
the report's words. Where chromium is on the machine, it loads pages at 400 and at 1200 pixels, light and dark.
"""
import os
import re
import tempfile

from claims import Test, expect, expect_ended, first_difference
from devtools import Browser
from elements import first, root_of, rows_of, text_of
from examples import content_of, runs_of
from jvm import CLASS_NODES, converted, stored
from outputs import KINDS, NODE_WORDS, REFUSALS, answers_of, reports_of
from program import least_seconds
from scripts import NAMES, SERVER
from workbench import ROOT

HTML, FULL = ("--format", "html"), ("--report", "full")
KB, MB = 128, 131072
ROOT_WORDS = 524288
LARGEST, COLUMNS = 20, 512
ROWS = ("reserved", "committed", "used", "live", "free blocks", "waste")
PEAKS = {"reserved": ("nodes", NODE_WORDS), "committed": ("granules", None), "used": ("used", 1)}
CELLS = {"-": "free, not committed", ".": "free, committed", "u": "lent, not committed", "o": "lent in part, committed",
         "O": "lent as a whole, committed"}
CLASSES = {"-": "p-free", ".": "p-idle", "u": "p-lent", "o": "p-part", "O": "p-whole"}
SQUARE = re.compile(r"M(\d+) (\d+)h1v1h-1z")
MOST_BYTES, MOST_TIME = 400_000, 1.3
ASKING_TAGS = ("script", "link", "img", "image", "iframe", "object", "embed", "base", "form", "a", "use")
ASKING_ATTRIBUTES = ("src", "href", "style", "action", "data", "ping")
SERVER_OPTIONS = ("--names", os.path.join(ROOT, NAMES), "--class-nodes", "4")
WIDTHS, SCHEMES = (400, 1200), ("light", "dark")


def grouped(number):
    return f"{number:,}"


def size(words):
    """A size for people: in KB below a MB, cut off after one digit."""
    unit, word = (KB, "KB") if words < MB else (MB, "MB")
    tenths = 10 * words // unit
    return f"{grouped(tenths // 10)}.{tenths % 10} {word}"


def share(part, whole):
    if whole == 0:
        return "-"
    tenths = 1000 * part // whole
    return f"{grouped(tenths // 10)}.{tenths % 10} %"


def words_in(cell):
    """The words of a cell, whose size must be theirs; 0 where it is faint."""
    if cell.get("class") == "z":
        expect(text_of(cell) == "0", "a faint cell is", text_of(cell))
        return 0
    shown, words = first(cell, "./b").text, int(first(cell, "./i").text.replace(",", ""))
    expect(shown.lstrip("+-") == size(words if words >= 0 else -words), "the size of", words, "is", shown)
    return words


def number_in(cell):
    text = text_of(cell)
    number = int(text.replace(",", ""))
    expect(text == grouped(number), "a number is", text)
    return number


def table_of(root, label):
    return first(root, f".//div[@aria-label='{label}']/table")


def sums(report):
    """The amounts of both spaces together, and of the class space, by their labels."""
    spaces = [space.numbers for space in report.spaces]
    return [{label: sum(space[label] for space in some) for label in ROWS} for some in (spaces, spaces[1:])]


def usage_is_the_reports(root, report):
    """Each amount, its share, and the peaks that a report has."""
    settings = report.settings
    limit = int(settings["max granules"]) * int(settings["granule"])
    rows = rows_of(table_of(root, "Usage"))
    for place, amounts in enumerate(sums(report)[:1 + (int(settings["class nodes"]) > 0)]):
        above = {"reserved": 0, "committed": limit, "used": amounts["committed"]}
        for label, cells in zip(ROWS, rows, strict=True):
            expect(text_of(cells[0]).split(" of ")[0].strip() == label, "a row of", label, "is", text_of(cells[0]))
            now, part, *rest = cells[1 + 4 * place:]
            whole = above.get(label, amounts["used"])
            expect(words_in(now) == amounts[label], label, "is", text_of(now), "and not", amounts[label])
            expect(text_of(part) == share(amounts[label], whole), "the share of", label, text_of(part))
            if place == 0 and label in PEAKS:
                name, words = PEAKS[label]
                peak = int(report.peaks[name][0]) * (words or int(settings["granule"]))
                expect(words_in(rest[0]) == peak, "the peak of", label, "is", text_of(rest[0]), "and not", peak)
    numbers = report.usages[-1] if len(report.usages) > 1 else report.usages[0]
    for label, cells in zip(ROWS, rows):
        expect(words_in(cells[1]) == int(numbers[label][0]), label, "is not the report's", numbers[label])


def amounts_in(cells):
    """Capacity, used, live, free blocks and waste, in the last cells of a row."""
    capacity, _, *others = [cell for cell in cells if cell.find("./svg") is None]
    return [words_in(cell) for cell in (capacity, *others[:4])]


def kinds_are_the_reports(root, report):
    for kind, cells in zip(KINDS, rows_of(table_of(root, "Kinds")), strict=True):
        number, chunks, capacity, _, *rest = report.kinds[kind]
        found = [number_in(cell) for cell in cells[2:4]] + amounts_in(cells[4:])
        expect(text_of(cells[0]) == kind and found == [number, chunks, capacity, *rest], kind, found, report.kinds[kind])


def held_by(report):
    """What each loader holds over both spaces: chunks, capacity, used, live, free blocks, waste."""
    held = {name: (kind, [0] * 6) for name, kind, *_ in report.loaders}
    for name, _, _, chunks, capacity, _, *rest in report.holdings:
        held[name] = held[name][0], [one + more for one, more in zip(held[name][1], (chunks, capacity, *rest), strict=True)]
    return held


def loaders_are_the_reports(root, report):
    """The largest, and where there are more than those, all by name."""
    held = held_by(report)
    order = sorted(held, key=lambda name: (-held[name][1][1], name))[:LARGEST]
    whole = sum(numbers[1] for _, numbers in held.values())
    tables = [("Loaders", order, 4)] + [("All loaders", sorted(held), 3)] * (len(held) > LARGEST)
    for label, names, place in tables:
        rows = rows_of(table_of(root, label))
        expect([number_in(cells[0]) for cells in rows] == names, label, "are", len(rows), "and not", len(names))
        for cells in rows:
            kind, numbers = held[number_in(cells[0])]
            found = [number_in(cells[place])] + amounts_in(cells[place + 1:])
            expect(text_of(cells[1]) == kind and found == numbers, "a loader has", found, "and not", kind, numbers)
            expect(text_of(cells[place + 2]) == share(numbers[1], whole), "a loader's share", text_of(cells[place + 2]))


def levels_are_the_reports(root, report):
    for space, label in zip(report.spaces, ("Chunks by size", "Class chunks by size")):
        for level, cells in enumerate(rows_of(table_of(root, label))):
            found = words_in(cells[0]), number_in(cells[1]), number_in(cells[3])
            expect(found == space.levels[level], label, "of level", level, found, space.levels[level])
            for cell, number in ((cells[2], found[1]), (cells[4], found[2])):
                expect(first(cell, "./svg/title").text == size(number * found[0]), "the title of a bar")


def cells_are_the_reports(root, report):
    """The sums, and the map of each node: its title and its squares."""
    whole = "".join(report.maps.values())
    for letter, entry in zip(CELLS, first(root, ".//ul[@class='cells']"), strict=True):
        number = whole.count(letter)
        expect(text_of(entry) == f"{CELLS[letter]} {size(8192 * number)} {grouped(number)}", "a sum of cells", text_of(entry))
    figures = root.findall(".//figure")
    expect(2 * len(figures) == len(report.maps), len(figures), "figures of", len(report.maps), "roots")
    for figure in figures:
        slot = int(first(figure, "./figcaption").text)
        roots = [report.maps[2 * slot], report.maps[2 * slot + 1]]
        counts = [f"{grouped(number)} {CELLS[letter]}" for letter in CELLS if (number := "".join(roots).count(letter))]
        title = f"Slot {slot}, roots {2 * slot} and {2 * slot + 1}: {', '.join(counts)}"
        expect(first(figure, "./svg/title").text == title, "a figure's title is", first(figure, "./svg/title").text)
        drawn = {path.get("class"): path.get("d") for path in figure.findall("./svg/path")}
        for letter, name in CLASSES.items():
            wanted = [(place % 8 + 9 * side, place // 8) for side in (0, 1) for place in range(64) if roots[side][place] == letter]
            found = [(int(x), int(y)) for x, y in SQUARE.findall(drawn.get(name, ""))]
            expect(found == wanted and drawn.get(name) != "", "the squares of", name, "of slot", slot)


def refusals_are_the_reports(root, report, answers):
    tiles = root.findall(".//div[@class='tiles']/div")
    expect(len(tiles) == 6, len(tiles), "tiles")
    names = [text_of(name) for name in tiles[5].findall("./dl/dt")]
    numbers = [number_in(number) for number in tiles[5].findall("./dl/dd")]
    wanted = {name: number for name, number in report.refusals.items() if number}
    expect(dict(zip(names, numbers, strict=True)) == wanted, "refused lines are", names, numbers, "and not", wanted)
    expect(names == [name for name in REFUSALS if name in wanted], "the names stand in another order", names)
    value = text_of(first(tiles[5], "./p[@class='value']"))
    lines = f"{grouped(len(answers))} line{'s' * (len(answers) != 1)}"
    expect(value == f"{grouped(sum(numbers))} of {lines}", "refused lines are", value)


def settings_are_the_reports(root, report):
    rows = rows_of(first(root, ".//table[@class='settings']"))
    found = {text_of(cells[0]): text_of(cells[1]).replace(",", "") for cells in rows}
    expect(found == report.settings, "the settings are", found, "and not", report.settings)


def columns_are_a_partition(root, answers):
    """The columns in numbers: as many as lines, at most 512, from the first line to the last."""
    columns = [text_of(entry) for entry in root.findall(".//ol[@class='cols']/li/span")]
    expect(len(columns) == min(len(answers), COLUMNS), len(columns), "columns of", len(answers), "lines")
    if columns:
        numbers = [list(map(int, re.match(r"lines? ([\d,]+)(?: to ([\d,]+))?", text)[0].replace(",", "")
                            .replace("lines ", "").replace("line ", "").split(" to "))) for text in columns]
        expect(numbers[0][0] == answers[0].line and numbers[-1][-1] == answers[-1].line, "the columns are of lines", numbers)
        expect(all(one[-1] < other[0] for one, other in zip(numbers, numbers[1:])), "columns overlap", numbers)


def page_of(bench, options, trace):
    ended = bench.run([*HTML, *options], trace, seconds=120)
    expect_ended(ended, 0)
    return ended.output


def asks_for_nothing(root):
    """No element runs anything or names anything to be loaded, and neither does the style sheet."""
    for element in root.iter():
        names = [name for name in element.keys() if name in ASKING_ATTRIBUTES or name.startswith("on")]
        expect(element.tag not in ASKING_TAGS and not names, "an element", element.tag, names)
    sheet = first(root, "./head/style").text
    expect("url(" not in sheet and "@import" not in sheet, "the style sheet asks for something")


def page_is_the_reports(bench, options, trace):
    """A page says what the full report of the same run says, and gives its bytes."""
    trace = trace + b"report\n"
    page = page_of(bench, options, trace)
    ended = bench.run([*FULL, *options], trace, seconds=120)
    expect_ended(ended, 0)
    answers = answers_of(ended.output)
    root, report = root_of(page), reports_of(answers)[-1]
    asks_for_nothing(root)
    usage_is_the_reports(root, report)
    if report.loaders:
        kinds_are_the_reports(root, report)
        loaders_are_the_reports(root, report)
    if report.maps:
        levels_are_the_reports(root, report)
        cells_are_the_reports(root, report)
    refusals_are_the_reports(root, report, answers)
    settings_are_the_reports(root, report)
    columns_are_a_partition(root, answers)
    return page


def without_all_loaders(page):
    """A page without its table of all loaders."""
    return re.sub(rb"<details>.*</details>\n", b"", page, flags=re.DOTALL)


def is_small(page):
    """A page is at most so long, beside its table of all loaders."""
    length = len(without_all_loaders(page))
    expect(length <= MOST_BYTES, length, "bytes")
    return f"{length} bytes of {len(page)}"


def lines_of(*lines):
    return b"".join(b"%s\n" % line.encode() for line in lines)


def thousand_loaders():
    """A thousand loaders of all kinds, with a block or two each."""
    kinds = ("standard", "boot", "reflection", "hidden")
    lines = []
    for name in range(1000):
        lines += [f"new {name} {kinds[(name % 97 == 0) + 2 * (name % 5 > 2)]}", f"alloc {name} 0 {1 + name * 37 % 900}"]
        lines += [f"calloc {name} 1 {2 + name % 60}"] * (name % 3 == 0)
        lines += [f"unload {name - 7}"] * (name % 11 == 10)
    return lines_of(*lines)


def met_limit():
    """Allocations at a commit limit of three granules, in both spaces, with requests that are wrong in other ways."""
    lines = ["new 1 standard", "new 1 standard", "read 1 9 0", "alloc 1 0 0", "alloc 1 0 600000", "free 2 1"]
    for block in range(40):
        lines += [f"alloc 1 {block} 900", f"calloc 1 {100 + block} 300"]
    return lines_of(*lines, "unload 1", "new 2 hidden", "alloc 2 0 5", "purge", "read 2 0 99")


def examples():
    """The traces of the examples with their options, but those that ask for several workers, each once."""
    seen = set()
    for folder in ("examples", "examples/reports"):
        for name, options, _ in runs_of(folder):
            kept = [word for word in options if word not in ("--report", "full", "--addresses")]
            if "--workers" not in kept and "--format" not in kept and (name, *kept) not in seen:
                seen.add((name, *kept))
                yield kept, content_of(folder, f"{name}.trace")


def traces():
    """Traces by what they are, with their options."""
    yield "of no line", [], b""
    yield "of no line, with class nodes", ["--class-nodes", "2"], b""
    yield "of one line", [], b"new 1 boot\n"
    yield "of a thousand loaders", ["--class-nodes", "4"], thousand_loaders()
    yield "of a met limit", ["--max-granules", "3", "--class-nodes", "1", "--policy", "aggressive"], met_limit()
    yield "of a met limit under policy none", ["--max-granules", "64", "--nodes", "1", "--policy", "none"], met_limit()


def says_what_the_report_says(bench, options, trace):
    return is_small(page_is_the_reports(bench, options, trace))


def examples_say_what_their_reports_say(bench):
    pages = [page_is_the_reports(bench, options, trace) for options, trace in examples()]
    return f"{len(pages)} pages"


def a_jvm_says_what_its_report_says(bench):
    return is_small(page_is_the_reports(bench, CLASS_NODES, converted(stored("log"))))


def the_stored_page_is_written(bench):
    page, wanted = page_of(bench, SERVER_OPTIONS, content_of(SERVER)), content_of(SERVER.replace(".trace", ".html"))
    expect(page == wanted, first_difference(page, wanted))


def busy():
    """Some 90,000 lines of 300 loaders that come, allocate, free and go."""
    lines = []
    for turn in range(1500):
        name = turn % 300
        lines += [f"unload {name}"] * (turn >= 300) + [f"new {name} {('standard', 'hidden')[turn % 2]}"]
        lines += [f"alloc {name} {block} {1 + (turn + 7 * block) % 60}" for block in range(38)]
        lines += [f"free {name} {block}" for block in range(0, 38, 2)] + [f"alloc {name} 0 9"]
    return lines_of(*lines)


def takes_little_longer(bench):
    """A page takes at most so many times the processor time of the full text of the same run."""
    trace = busy() + b"report\n"

    def is_little(page, text):
        return page <= MOST_TIME * text

    runs = [lambda words=words: bench.run(words, trace, seconds=120) for words in (HTML, FULL)]
    page, text = least_seconds(runs, is_little)
    said = f"{page:.3f} s beside {text:.3f} s"
    expect(is_little(page, text), said)
    return said


# what of a page isn't wholly in its window, beside what is in a box that scrolls or lies at the window's foot
OVERFLOWING = """(() => {
  const past = [];
  for (const element of document.body.querySelectorAll('*')) {
    if (element.closest('.wide, .command, .cols, #words')) continue;
    const box = element.getBoundingClientRect();
    if (box.width && box.height && (box.right > innerWidth + 1 || box.left < -1))
      past.push(element.tagName + '.' + element.getAttribute('class') + ' ' + box.left + ' ' + box.right);
  }
  return past.slice(0, 5);
})()"""
# the tables that are wider than their boxes
SCROLLING = """[...document.querySelectorAll('.wide')].filter(it => it.scrollWidth > it.clientWidth)
  .map(it => it.getAttribute('aria-label'))"""
SHOWN = """(() => {
  const cell = document.querySelector('td b');
  const shown = name => [...document.querySelectorAll('td ' + name)].filter(it => getComputedStyle(it).display != 'none').length;
  return [document.documentElement.scrollWidth, shown('b'), shown('i')];
})()"""


def fits(browser, width):
    """Fails the test where the page is wider than its window, in sizes and in words."""
    for checked in ("false", "true"):
        browser.value(f"document.getElementById('words').checked = {checked}")
        wide, sizes, words = browser.value(SHOWN)
        expect(wide <= width, "a page of", wide, "pixels in", width)
        expect((words == 0) if checked == "false" else (sizes == 0), "sizes and words at once", sizes, words)
        past = browser.value(OVERFLOWING)
        expect(not past, "past a window of", width, past)


def is_silent(events, path):
    """Fails the test where a page makes the browser complain, or ask for anything but the page."""
    for event in events:
        method, parameters = event.get("method"), event.get("params", {})
        expect(method not in ("Runtime.exceptionThrown", "Runtime.consoleAPICalled", "Log.entryAdded"), parameters)
        if method == "Network.requestWillBeSent":
            expect(parameters["request"]["url"] == f"file://{path}", "a request to", parameters["request"]["url"])


def is_shown(bench, browser, options, trace):
    """A page at both widths, light and dark."""
    with tempfile.NamedTemporaryFile(dir=bench.room, suffix=".html") as file:
        file.write(page_of(bench, options, trace))
        file.flush()
        grounds = set()
        for width in WIDTHS:
            for scheme in SCHEMES:
                is_silent(browser.show(file.name, width, scheme), file.name)
                grounds.add(browser.value("getComputedStyle(document.body).backgroundColor"))
                fits(browser, width)
        expect(len(grounds) == len(SCHEMES), "light and dark are", grounds)


def a_browser_shows_it(bench, options, trace):
    with Browser() as browser:
        is_shown(bench, browser, options, trace)


def a_browser_shows_examples(bench):
    with Browser() as browser:
        for options, trace in examples():
            is_shown(bench, browser, options, trace)


def a_browser_shows_a_jvm(bench):
    with Browser() as browser:
        is_shown(bench, browser, CLASS_NODES, converted(stored("log")))


def tables_need_no_scrolling(bench):
    """The page of a server: no table is wider than its box in a window of 1024 pixels or more."""
    with tempfile.NamedTemporaryFile(dir=bench.room, suffix=".html") as file, Browser() as browser:
        file.write(page_of(bench, SERVER_OPTIONS, content_of(SERVER)))
        file.flush()
        for width in (1024, 1200):
            browser.show(file.name, width, "light")
            for checked in ("false", "true"):
                browser.value(f"document.getElementById('words').checked = {checked}")
                wide = browser.value(SCROLLING)
                expect(not wide, "tables that scroll in", width, wide)


def tests():
    for what, options, trace in traces():
        yield Test(f"the page {what} says what the full report says", says_what_the_report_says, (options, trace))
        yield Test(f"the page {what} in a browser", a_browser_shows_it, (options, trace))
    yield Test("the pages of the examples say what their full reports say", examples_say_what_their_reports_say)
    yield Test("the pages of the examples in a browser", a_browser_shows_examples)
    yield Test("the page of a stored JVM's log says what the full report says", a_jvm_says_what_its_report_says)
    yield Test("the page of a stored JVM's log in a browser", a_browser_shows_a_jvm)
    yield Test("the page of a server is the stored one", the_stored_page_is_written)
    yield Test("the tables of a server's page need no scrolling in a browser", tables_need_no_scrolling)
    yield Test("a page takes little longer than the full text", takes_little_longer)
