"""The names on a page, in a document and after full reports: what a file says of the loaders of a trace, and files that don't fit.

The n-th line of the file is that of the n-th `new` line, so each text is worked out here from the two files.
"""
import json
import re
import tempfile

from browser import page_of, table_of
from claims import Test, expect, expect_ended
from elements import root_of, rows_of, text_of
from examples import content_of
from forms import FORM as JSON, SCHEMA, expect_follows
from scripts import SERVER, NAMES

HTML, FULL = ("--format", "html"), ("--report", "full")
LONGEST = 60
TRACE = b"new 1 standard\nnew 2 hidden\nalloc 1 1 9\nnew 1 hidden\nunload 2\n# again\n\nnew 2 boot\nnew 7 reflection\nunload 7\n"
MADE = (1, 2, 1, 2, 7)
# files that don't fit, and the line that standard error names
MISFITS = (
    (b"", 1),
    (b"1 a\n2 b\n", 3),
    (b"1 a\n2 b\n1 c\n2 d\n7 e\n8 f\n", 6),
    (b"1 a\n2 b\n1 c\n3 d\n7 e\n", 4),
    (b"1 a\n2\n1 c\n2 d\n7 e\n", 2),
    (b"1 a\n2 b\n1 c\n2 d\n 7 e\n", 5),
    (b"1 a\n2 b\n1 c\n2 d\n65543 e\n", 5),
    (b"1 a\n\n2 b\n1 c\n2 d\n7 e\n", 2),
)
UNREADABLE = b"metarun: the file of names can't be read\n"


def shortened(name):
    return name if len(name) <= LONGEST else name[:LONGEST - 1] + "…"


def page_with(bench, names, options, trace, form=HTML):
    with tempfile.NamedTemporaryFile(dir=bench.room) as file:
        file.write(names)
        file.flush()
        return bench.run([*form, *options, "--names", file.name], trace)


def names_of(root, label):
    """The name in each row of loaders, by the loader's number."""
    return {int(text_of(cells[0]).replace(",", "")): text_of(cells[1]) for cells in rows_of(table_of(root, label))}


def names_are_those_of_the_last_maker(bench):
    """A refused `new` names nobody, and a loader that is made anew has its new name."""
    names = ["first", "second", "not made", "<b>&\"'third\" of x\ty", "unloaded.Loader"]
    ended = page_with(bench, "".join(f"{made} {name}\n" for made, name in zip(MADE, names)).encode(), [], TRACE)
    expect_ended(ended, 0)
    found = names_of(root_of(ended.output), "Loaders")
    expect(found == {1: "first", 2: names[3].replace("\t", "?")}, "the loaders are called", found)
    expect(b"<b>&" not in ended.output and b"unloaded.Loader" not in ended.output, "a name stands as it is, or of a loader that went")


def long_names_are_cut(bench):
    """A name of 60 characters stays, of 61 it ends with an ellipsis, whatever bytes its characters have."""
    for letter in ("a", "é", "語", "𝕏"):
        for length in (59, 60, 61, 5000):
            ended = page_with(bench, f"1 {letter * length}".encode(), [], b"new 1 standard")
            expect_ended(ended, 0)
            found = names_of(root_of(ended.output), "Loaders")
            expect(found == {1: shortened(letter * length)}, length, letter, "are shown as", found)


def a_server_has_its_names(bench):
    """Each loader of the stored trace is called as the stored file says of the line that made it."""
    trace, names = content_of(SERVER), content_of(NAMES).decode().splitlines()
    made = re.findall(rb"^(?:new|(unload)) (\d+)", trace, flags=re.MULTILINE)
    called, told = {}, iter(names)
    for gone, number in made:
        if gone:
            del called[int(number)]
        else:
            loader, name = next(told).split(" ", 1)
            expect(int(loader) == int(number), "the stored names are of another trace")
            called[int(number)] = shortened(name)
    ended = page_with(bench, content_of(NAMES), ["--class-nodes", "4"], trace)
    expect_ended(ended, 0)
    found = names_of(root_of(ended.output), "All loaders")
    expect(found == called, "the loaders are called", found, "and not", called)


def a_part_ends_the_text(bench):
    """After the text as it is without names, a line for each `new` line, a refused one too; none for a trace without any."""
    names = ["first", "second \x01", "refused", "<b>&\"'third\" of x\ty", "é" * 61]
    file = "".join(f"{made} {name}\n" for made, name in zip(MADE, names)).encode()
    shown = ["first", "second ?", "refused", "<b>&\"'third\" of x?y", "é" * 59 + "…"]
    part = "".join(f"{line:>10}{made:>8}  {name}\n" for line, made, name in zip((1, 2, 4, 8, 9), MADE, shown))
    for workers in ("1", "2"):
        options = ["--workers", workers]
        plain = bench.run([*FULL, *options], TRACE + b"report\n")
        ended = page_with(bench, file, options, TRACE + b"report\n", FULL)
        expect_ended(ended, 0)
        wanted = plain.output + b"Names\n      line  loader  name\n" + part.encode()
        expect(ended.output == wanted, "the text ends with", ended.output[len(plain.output):])
    ended = page_with(bench, b"", [], b"purge\n", FULL)
    expect((ended.status, ended.output) == (0, b"1 ok\n"), ended)


def a_document_has_its_names(bench):
    """Beside the members that it has without names, one with a row for each `new` line, a refused one too."""
    names = ["first", "\x01\x7f\\ \"second\"", "", "third\tof 語 𝕏", "é" * 61]
    file = "".join(f"{made} {name}\n" for made, name in zip(MADE, names)).encode()
    shown = ["first", "?\x7f\\ \"second\"", "", "third?of 語 𝕏", "é" * 59 + "…"]
    for options in ([], ["--report", "full"], ["--addresses"]):
        plain = bench.run([*JSON, *options], TRACE + b"report\n")
        ended = page_with(bench, file, options, TRACE + b"report\n", JSON)
        expect_ended(ended, 0)
        whole = json.loads(plain.output)
        whole["names"] = [list(row) for row in zip((1, 2, 4, 8, 9), MADE, shown)]
        expect_follows(whole, SCHEMA)
        text = json.dumps(whole, ensure_ascii=False, separators=(",", ":"), sort_keys=True)
        expect(ended.output == text.encode() + b"\n", "the document is", ended.output, "and not", text)
    ended = page_with(bench, b"", [], b"purge\n", JSON)
    expect(ended.output == bench.run(JSON, b"purge\n").output, "a file of no line changes the document")


def no_names_no_column(bench):
    """Without the option, and with a file of no line for a trace that makes no loader, nobody is called anything."""
    plain = page_of(bench, [], TRACE)
    expect(b">name<" not in plain, "there is a column of names")
    ended = page_with(bench, b"", [], b"purge\n")
    expect_ended(ended, 0)
    expect(ended.output == page_of(bench, [], b"purge\n"), "a file of no line changes the page")


def misfits_are_named(bench):
    for form in (HTML, FULL, JSON):
        for names, line in MISFITS:
            ended = page_with(bench, names, [], TRACE, form)
            wanted = b"metarun: names line %d: not the next loader of the trace\n" % line
            expect((ended.status, ended.output, ended.errors) == (5, b"", wanted), names, ended)


def unreadable_files_are_told(bench):
    """No file, a folder, and bytes that are no UTF-8."""
    for path in ("/nowhere/names", bench.room):
        for form in (HTML, JSON):
            ended = bench.run([*form, "--names", path], TRACE)
            expect((ended.status, ended.output, ended.errors) == (5, b"", UNREADABLE), path, ended)
    ended = page_with(bench, b"1 a\xff\n2 b\n1 c\n2 d\n7 e\n", [], TRACE)
    expect((ended.status, ended.output, ended.errors) == (5, b"", UNREADABLE), ended)


def a_fault_of_the_trace_comes_first(bench):
    ended = bench.run([*HTML, "--names", "/nowhere/names"], b"new 1 standard\nnew\n")
    expect((ended.status, ended.output) == (1, b""), ended)


def tests():
    yield Test("a page calls each loader as the file of names says of the line that made it", names_are_those_of_the_last_maker)
    yield Test("a page cuts long names", long_names_are_cut)
    yield Test("names end a text with full reports", a_part_ends_the_text)
    yield Test("a document has a row for each name", a_document_has_its_names)
    yield Test("a page of a server has its loaders' names", a_server_has_its_names)
    yield Test("a page has no names where no file has any", no_names_no_column)
    yield Test("a file of names that doesn't fit the trace is named by its line", misfits_are_named)
    yield Test("a file of names that can't be read is told", unreadable_files_are_told)
    yield Test("a fault of the trace comes before the file of names", a_fault_of_the_trace_comes_first)
