"""The pages: links and anchors, the lines of functions and clauses, which of them run, examples, README's commands, and
the words of each.

`python3 tests/pages.py` holds all but the commands, which need the built program; `python3 tests/pages.py --lines` sets
the lines that docs/PROMISES.md links to, after an edit of a source.
"""
import functools
import os
import re
import shlex
import sys

from claims import Test, Wrong, expect, run_alone

ROOT = os.path.dirname(os.path.dirname(os.path.abspath(__file__)))
PROMISES = "docs/PROMISES.md"
# The most words of each page, and of all of them together: what has a letter or a digit, so no bars of tables.
MOST_WORDS = {
    "README.md": 1500, "docs/ARCHITECTURE.md": 3000, "docs/DECISIONS.md": 4000, "docs/FORMATS.md": 2500,
    "docs/MODEL.md": 3500, "docs/PROMISES.md": 6000, "docs/PROVING.md": 7000, "docs/STYLE.md": 1800,
    "bench/README.md": 1500,
}
COUNTED = re.compile(r"README\.md|docs/\w+\.md|(bench|tests|examples|crates/\w+)/README\.md")
MOST_IN_ALL = 25000
MOST_LINES = 130
MOST_WORDS_OF_A_PROMISE = 30
# What a command of README begins with; and those that take minutes, or begin with a JVM of the reader's.
COMMANDS = ("./", "java ", "make ", "python3 ", "bench/", "(cd ")
NOT_RUN = ("./check", "./metarun --prove", "bench/all", "java ")
LINK = re.compile(r"(?<!!)\[([^\]]*)\]\(([^)\s]+)\)")
SOURCE_LINK = re.compile(r"\[([^\]]*)\]\((\.\./[^)\s#]+\.rt)(#L\d+)?\)")
FENCED = re.compile(r"^ *```.*?^ *```$", re.MULTILINE | re.DOTALL)
BODY = re.compile(r"(pub )?(unsafe )?(impl|trait)\b")
EDITS = re.compile(r"`(\w+)/(?:\{([\w,]+)\}|(\w+))?([\w*]*)`")


def read(path):
    with open(os.path.join(ROOT, path), encoding="utf-8") as file:
        return file.read()


def pages():
    """The pages of the repository; what builds leave has none."""
    found = []
    for folder, folders, files in os.walk(ROOT):
        folders[:] = [name for name in folders if name not in ("out", "target", ".git")]
        found += [os.path.relpath(os.path.join(folder, name), ROOT) for name in files if name.endswith(".md")]
    return sorted(found)


def beside(page, target):
    """The path of a file that a page names."""
    return os.path.normpath(os.path.join(os.path.dirname(page), target))


def prose_of(text):
    """A page without its blocks of code."""
    return "\n".join(line for line in FENCED.sub("", text).split("\n") if not line.startswith("    "))


def paragraphs_of(text):
    return re.split(r"\n\n+", FENCED.sub("", text))


@functools.cache
def anchors_of(path):
    """The anchors of a page's headings, as GitHub makes them: a second heading of one text has a number."""
    found = []
    for heading in re.findall(r"^#+ (.*)$", FENCED.sub("", read(path)), re.MULTILINE):
        plain = re.sub(r"[^\w\- ]", "", LINK.sub(r"\1", heading).lower()).replace(" ", "-")
        found.append(plain)
    return {f"{plain}-{count}" if (count := found[:place].count(plain)) else plain for place, plain in enumerate(found)}


def broken(page, target):
    """What is wrong with a link of a page, or nothing."""
    path, _, anchor = target.partition("#")
    path = beside(page, path) if path else page
    if not os.path.exists(os.path.join(ROOT, path)):
        return "there is no such file"
    if anchor and path.endswith(".md") and anchor not in anchors_of(path):
        return "there is no such heading"
    return None


def links_resolve(_):
    """Each link of each page leads to a file, and each anchor to a heading."""
    links = [(page, target) for page in pages() for _, target in LINK.findall(prose_of(read(page)))
             if not re.match(r"\w+:", target)]
    wrong = [f"{page}: {target}: {said}" for page, target in links if (said := broken(page, target))]
    expect(not wrong, *wrong)
    return f"{len(links)} links"


@functools.cache
def lines_of(path):
    return read(path).split("\n")


def impl_line(path, name):
    """The line of an impl, by its words."""
    words = [re.compile(rf"\b{word}\b") for word in name.split() if word != "for"]
    for number, line in enumerate(lines_of(path), 1):
        if line.startswith("impl") and all(word.search(line) for word in words):
            return number
    return None


def item_line(path, name, owner):
    """The line of a type, or of a function: that of its owner first, and rather in an impl of no trait."""
    found, within = [], ""
    for number, line in enumerate(lines_of(path), 1):
        if BODY.match(line) or line.startswith("}"):
            within = line
        if re.match(rf"(pub(\(crate\))? )?(struct|enum|trait|type) {name}\b", line):
            return number
        if re.search(rf"\bfn {name}\b", line):
            stands = re.search(rf"\b{owner}\b", within) if owner else not BODY.match(within)
            found.append((not stands, " for " in within, number))
    return min(found)[2] if found else None


def clause_line(path, label, starts):
    """The line of a clause with this label, below one of the items that begin at these lines: the last one first."""
    for start in reversed(starts):
        is_function = "fn " in lines_of(path)[start - 1]
        for number, line in enumerate(lines_of(path)[start:], start + 1):
            if re.search(rf"\b{label} \{{", line):
                return number
            if is_function and re.search(r"\bfn \w", line):
                break
    return None


def with_lines(cell):
    """A cell whose links lead to the lines of what they name: a text between backquotes an item, any other a clause."""
    owner, starts = "", {}

    def line_of(link):
        nonlocal owner
        text, target, _ = link.groups()
        path, name = beside(PROMISES, target), text.strip("`")
        if text == name:
            line = clause_line(path, name, starts.get(path, []))
        elif name.startswith("impl "):
            line = impl_line(path, name.removeprefix("impl "))
        else:
            *types, name = name.split("::")
            owner = types[-1] if types else owner
            line = item_line(path, name, owner)
        expect(line, "nothing is named", text, "in", path)
        if text != name:
            starts.setdefault(path, []).append(line)
        return f"[{text}]({target}#L{line})"

    return SOURCE_LINK.sub(line_of, cell)


def rows_of(text):
    """The rows of the tables of promises: each with its number of line, and its cells."""
    for number, line in enumerate(text.split("\n"), 1):
        if line.startswith("|") and "](" in line:
            yield number, line.strip()[1:-1].split("|")


def with_set_lines(text):
    """The page of promises with the lines that its functions and clauses have now."""
    lines = text.split("\n")
    for number, cells in rows_of(text):
        try:
            cells[1] = with_lines(cells[1])
        except Wrong as wrong:
            raise Wrong(f"{PROMISES}, line {number}: {wrong}") from None
        lines[number - 1] = f"|{'|'.join(cells)}|"
    return "\n".join(lines)


def promises_lead_to_their_lines(_):
    """Each promise leads to the lines of its function and of its clause, and has few words."""
    text = read(PROMISES)
    rows, lines = list(rows_of(text)), text.split("\n")
    now = with_set_lines(text).split("\n")
    stale = [number for number, _ in rows if lines[number - 1] != now[number - 1]]
    expect(not stale, "python3 tests/pages.py --lines sets the lines of sources anew, in the rows of lines", stale)
    long = [number for number, cells in rows if len(cells[0].split()) > MOST_WORDS_OF_A_PROMISE]
    expect(not long, "a sentence has too many words in lines", long)
    return f"{len(rows)} promises"


# The crates that no program and no library is made of.
NO_PROGRAM = ("calls", "demo", "library_tests")
FUNCTION = re.compile(r"( *)(?:pub(?:\([^)]*\))? )?(?:const )?(?:unsafe )?(extern \"C\" )?fn (\w+)")
OWNER = re.compile(r"(?:pub )?(?:unsafe )?(?:impl|trait)\b(?:<.*?>)? (?:(\w+).*? for )?(\w+)")
CALL = re.compile(r"(?:\b(\w+)(?:::<[^>]*>)?::|(\.))?\b([a-z_]\w*)(?:::<[^>]*>)?(?=\()")
IMPORT = re.compile(r"^ *(?:pub(?:\(\w+\))? )?use (?:[^;{]*\{([^;]*)\}|[^;{]*?(\w+));", re.MULTILINE)


def functions_in(path):
    """The functions of a source: each with its line, its types, its name, its body, and whether C may call it."""
    owners, lines = (), [line.split("//")[0] for line in lines_of(path)]
    for at, line in enumerate(lines):
        if found := OWNER.match(line):
            owners = tuple(name for name in found.groups() if name)
        elif line.startswith("}"):
            owners = ()
        if found := FUNCTION.match(line):
            indent, exported, name = found.groups()
            end = next((k for k in range(at, len(lines)) if lines[k].startswith(f"{indent}}}")), at)
            start = next((k for k in range(at, end) if lines[k] == f"{indent}{{"), at)
            yield at + 1, owners if indent else (), name, "\n".join(lines[start + 1:end]), bool(exported)


@functools.cache
def functions_run():
    """The path and line of each function that `metarun`, `metalog` or the library for C may call, by names."""
    every, named, todo = [], {}, []
    for path in sorted(os.path.relpath(os.path.join(folder, name), ROOT)
                       for crate in os.listdir(os.path.join(ROOT, "crates")) if crate not in NO_PROGRAM
                       for folder, _, files in os.walk(os.path.join(ROOT, "crates", crate, "src")) for name in files):
        known = set(re.findall(r"\w+", " ".join(several or one for several, one in IMPORT.findall(read(path)))))
        for line, owners, name, body, exported in functions_in(path):
            every.append((path, line, owners, name, body, known))
            named.setdefault(name, []).append(len(every) - 1)
            if exported or (name == "main" and not owners):
                todo.append(len(every) - 1)
    seen = set(todo)
    while todo:
        path, _, owners, _, body, known = every[todo.pop()]
        for kind, dot, name in CALL.findall(body):
            for other in named.get(name, ()):
                its, free = every[other][2], not every[other][2]
                here = every[other][0] == path or name in known
                if other not in seen and ((dot and its) or (kind == "Self" and set(its) & set(owners)) or kind in its
                                          or (free and not dot and (here or kind[:1].islower()))):
                    seen.add(other)
                    todo.append(other)
    declared = {other for number in seen for other in named[every[number][3]]
                if every[other][2] and set(every[other][2]) < set(every[number][2])}
    return {every[number][:2] for number in seen | declared}


def promises_are_run(_):
    """Each promise without a dagger leads first to a function that a program or the library for C may call."""
    wrong, count = [], 0
    for number, cells in rows_of(read(PROMISES)):
        found = re.search(r"\[`(?!impl)[^`\]]*`\]\(\.\./([^)#]+)#L(\d+)\)", cells[1])
        path, line = (found.group(1), int(found.group(2))) if found else ("", 0)
        is_function = found and re.search(r"\bfn \w", lines_of(path)[line - 1])
        if is_function and "†" not in cells[0] and not path.endswith("laws.rt"):
            count += 1
            if (path, line) not in functions_run():
                wrong.append(f"line {number}: {found.group(0).split(']')[0][1:]}")
    expect(not wrong, "no program calls what these lead with, and they have no dagger:", *wrong)
    return f"{count} functions"


def edits_are_named(_):
    """Each wrong body stands in a row of the promises, and each name there is of one."""
    crates = os.path.join(ROOT, "crates")
    there = {f"{crate}/{file.removesuffix('.edit')}" for crate in os.listdir(crates)
             if os.path.isdir(os.path.join(crates, crate, "must-fail"))
             for file in os.listdir(os.path.join(crates, crate, "must-fail")) if file.endswith(".edit")}
    named = {f"{crate}/{first}{rest}" for _, cells in rows_of(read(PROMISES))
             for crate, some, one, rest in EDITS.findall(cells[-1]) for first in (some or one).split(",")}
    shapes = [re.compile(re.escape(name).replace(r"\*", r"\w*")) for name in sorted(named)]
    missing = sorted(edit for edit in there if not any(shape.fullmatch(edit) for shape in shapes))
    empty = sorted(shape.pattern for shape in shapes if not any(shape.fullmatch(edit) for edit in there))
    expect(not missing and not empty, "in no row:", missing, "of no edit:", empty)
    return f"{len(there)} wrong bodies"


def examples_of(text):
    """The examples of a page, each with its file: a block after a paragraph that ends in a colon and links to one."""
    paragraphs = paragraphs_of(text)
    for before, block in zip(paragraphs, paragraphs[1:]):
        files = [target for _, target in LINK.findall(before) if target.endswith((".out", ".trace"))]
        is_command = block.startswith(tuple(f"    {word}" for word in COMMANDS))
        if block.startswith("    ") and before.rstrip().endswith(":") and files and not is_command:
            yield files[-1], [line[4:] for line in block.rstrip().split("\n")]


def stands_in(block, lines):
    """Whether these lines have those of the block, one after another; a line `..` of it stands for any number."""
    gap = re.escape("..\n")
    shape = re.escape("".join(f"{line}\n" for line in block)).replace(gap, r"(?:.*\n)*?")
    return re.search(f"^{shape}", "".join(f"{line}\n" for line in lines), re.MULTILINE) is not None


def examples_are_their_files(_):
    """Each example of a page has the lines of its file."""
    examples = [(page, beside(page, file), block) for page in pages() for file, block in examples_of(read(page))]
    wrong = [f"{page}: {file} has no such lines: {block[0]}" for page, file, block in examples
             if not stands_in(block, lines_of(file))]
    expect(not wrong, *wrong)
    return f"{len(examples)} examples"


def words_are_bounded(_):
    """Each page, and all of them together, have no more words than they may, and README no more lines."""
    counts = {page: len(re.findall(r"\S*\w\S*", read(page))) for page in pages() if COUNTED.fullmatch(page)}
    lines, whole = read("README.md").count("\n"), sum(counts.values())
    long = [f"{page} has {counts[page]} words of {most}" for page, most in MOST_WORDS.items() if counts[page] > most]
    expect(not long, *long)
    expect(lines <= MOST_LINES, f"README.md has {lines} lines of {MOST_LINES}")
    expect(whole <= MOST_IN_ALL, f"all pages have {whole} words of {MOST_IN_ALL}")
    return f"{whole} words"


def commands_of(text):
    """The commands of a page: the lines of its blocks that begin as commands do."""
    for block in paragraphs_of(text):
        if block.startswith(tuple(f"    {word}" for word in COMMANDS)):
            yield from (line.strip() for line in block.split("\n"))


def is_of_the_reader(command):
    """Whether a command reads a file that isn't in the repository."""
    return any(not os.path.exists(os.path.join(ROOT, file)) for file in re.findall(r"< *(\S+)", command))


def is_run(bench, command):
    """A command of README ends well over the built program, and prints something."""
    line, _, given = command.partition(" > ")[0].partition("<")
    name, *words = shlex.split(line)
    expect(name == "./metarun", "no test runs", command)
    ended = bench.run(words, read(given.strip()).encode() if given else b"")
    expect(ended.status == 0 and ended.output and not ended.errors, command, ended.status, ended.errors)


def tests():
    yield Test("pages: links and anchors resolve", links_resolve)
    yield Test("pages: promises lead to the lines of their clauses", promises_lead_to_their_lines)
    yield Test("pages: promises lead to functions that programs run", promises_are_run)
    yield Test("pages: each wrong body stands in a row of the promises", edits_are_named)
    yield Test("pages: examples are the lines of their files", examples_are_their_files)
    yield Test("pages: words are bounded", words_are_bounded)
    for command in commands_of(read("README.md")):
        if not command.startswith(NOT_RUN) and not is_of_the_reader(command):
            yield Test(f"pages: README's command runs: {command}", is_run, (command,))


def main(words):
    if words == ["--lines"]:
        text = with_set_lines(read(PROMISES))
        with open(os.path.join(ROOT, PROMISES), "w", encoding="utf-8") as file:
            file.write(text)
        return
    run_alone(test for test in tests() if test.function is not is_run)


if __name__ == "__main__":
    main(sys.argv[1:])
