"""The program metalog: what a log of a JVM becomes, worked by hand, wherever it is cut; what is wrong with a log, and how a run ends."""
import os
import re
import subprocess
import tempfile

from claims import Test, expect, first_difference
from program import Program
from workbench import ROOT

METALOG = os.path.join(ROOT, "crates", "metalog", "out", "metalog")


def at(thread, text, tags="metaspace", level="trace"):
    """A line of a log; the JVM pads a thread's number."""
    return f"[0.123s][{thread:<4}][{level:<5}][{tags:<22}] {text}\n"


def place(number):
    return f"0x{number:016x}"


def arena(number, text, space="non-class"):
    return f"Arena @{place(number)} ({space} sm): {text}"


def born(loader):
    """The birth of a loader, whose arenas have the numbers after its own."""
    return f"CLMS @{place(loader)} : born (nonclass arena: {place(loader + 1)}, class arena: {place(loader + 2)}."


def wanted(level, space="non-class"):
    return f"ChkMgr @{place(9)} ({space}-space): requested chunk: pref_level: lv{level:02}, max_level: lv14, min committed size: 2."


def handed(level, space="non-class"):
    return f"ChkMgr @{place(9)} ({space}-space): handing out chunk @{place(8)}, u, base {place(4096)}, level lv{level:02}."


def enlarged():
    return (f"Enlarged chunk @{place(8)}, u, base {place(4096)}, level lv11 (1024), used: 3, committed: 3, "
            "committed-free: 0.")


def asked(thread, number, words, address, level, space="non-class"):
    """A request that takes a chunk, answered by a block at that address."""
    return [at(thread, arena(number, f"requested {words} words.", space)), at(thread, wanted(level, space), level="debug"),
            at(thread, handed(level, space), level="debug"),
            at(thread, arena(number, f"returning {place(address)}.", space)), told(thread, address)]


def told(thread, address):
    return at(thread, f"Metaspace::allocate: type 7 return {place(address)}.")


BEGIN = at(1, "Initialized with strategy: balanced reclaim.", level="info")
SMALL = [
    BEGIN,
    at(1, born(100), level="debug"),
    *asked(1, 101, 10, 0x1000, 2),
    *asked(1, 102, 65, 0x9000, 4, "class"),
    at(1, f"Adding k: {place(0x9000)} java.lang.Object to loader data: {place(7)} of 'bootstrap'", "class,loader,data"),
    # two threads in two loaders: the second passes the pool first, and is answered last
    at(1, born(200), level="debug"),
    at(2, born(300), level="debug"),
    at(1, arena(201, "requested 20 words.")),
    at(2, arena(301, "requested 30 words.")),
    at(2, wanted(14), level="debug"),
    at(2, handed(14), level="debug"),
    at(1, wanted(12), level="debug"),
    at(1, handed(12), level="debug"),
    at(1, arena(201, f"returning {place(0x2000)}.")),
    told(1, 0x2000),
    at(2, arena(301, f"returning {place(0x3000)}.")),
    told(2, 0x3000),
    # a request that is refused after it enlarged its chunk, and asked again
    at(1, arena(201, "requested 40 words.")),
    at(1, enlarged(), level="debug"),
    at(1, arena(201, "allocation failed, returned NULL.")),
    at(1, "GC(3) Metaspace: 7K(8K)->7K(8K) NonClass: 6K(7K)->6K(7K) Class: 1K(1K)->1K(1K)", "gc,metaspace", "info"),
    at(1, arena(201, "requested 40 words.")),
    at(1, arena(201, f"returning {place(0x2100)}.")),
    told(1, 0x2100),
    # a block is freed, and its words serve another request, whose address comes with the next line
    at(1, arena(201, f"deallocating {place(0x2000)}, word size: 20.")),
    at(1, arena(201, "requested 8 words.")),
    at(1, arena(201, "taken from fbl (now: 1, 12).")),
    told(1, 0x2060),
    at(1, arena(201, f"deallocating {place(0x2060)}, word size: 8.")),
    at(2, f"CLMS @{place(300)} : dies.", level="debug"),
    at(1, f"unloadloader data: {place(6)} of 'app' has a class holder", "class,loader,data"),
]
TRACE = """new 0 boot
alloc 0 0 10
calloc 0 1 65
new 1 standard
new 2 hidden
alloc 2 0 30
alloc 1 0 20
alloc 1 1 40
free 1 0
alloc 1 2 8
free 1 2
unload 2
report
"""


def converted(text, *words):
    """Runs the program over a log: how it ended."""
    return Program(METALOG).run(words, text if isinstance(text, bytes) else text.encode())


def expect_trace(text, trace, *words, warnings=()):
    """Runs the program over a log, and wants that trace and those words of warnings."""
    ended = converted(text, *words)
    expect(ended.status == 0, f"status {ended.status}", ended.errors)
    expect(ended.output == trace.encode(), first_difference(ended.output, trace.encode()))
    lines = ended.errors.decode().splitlines()
    expect(len(lines) == len(warnings) and all(word in line for word, line in zip(warnings, lines)), lines, "and not", warnings)


def a_small_log(bench):
    """Each kind of event, two threads, a refused request and a free block, worked by hand."""
    text = "".join(SMALL)
    expect_trace(text, TRACE)
    expect_trace(text, TRACE.replace("alloc 1 1 40\n", "report\nalloc 1 1 40\n"), "--reports", "gc")
    expect_trace(text, TRACE.replace("report\n", ""), "--reports", "none")
    expect_trace(text[:-1], TRACE)


def a_log_in_pieces(bench):
    """However the pieces of the input end, the trace is the same."""
    text = "".join(SMALL).encode()
    for size in (1, 7, 64, 4096):
        run = subprocess.Popen([METALOG], stdin=subprocess.PIPE, stdout=subprocess.PIPE, bufsize=0)
        for start in range(0, len(text), size):
            run.stdin.write(text[start:start + size])
        run.stdin.close()
        found = run.stdout.read()
        expect(run.wait() == 0 and found == TRACE.encode(), size, first_difference(found, TRACE.encode()))


def a_log_cut_anywhere(bench):
    """Each beginning of a log gives a beginning of its trace but for what wasn't known there, and never a fault."""
    text = "".join(SMALL[:20]).encode()
    commands = re.compile(rb"(new \d+ (boot|standard|hidden|reflection)|c?alloc \d+ \d+ \d+|free \d+ \d+|unload \d+|report)\n")
    for end in range(len(text)):
        ended = converted(text[:end])
        first = text[:end].find(b": born (nonclass")
        line_is_whole = first >= 0 and text[:end].find(b"\n", first) >= 0 or text[first:end].endswith(b".")
        expect(ended.status == (0 if first >= 0 and line_is_whole else 1), end, ended.status, ended.errors)
        expect(b"".join(part.group(0) for part in commands.finditer(ended.output)) == ended.output, end, ended.output)
        known = [line for line in ended.output.splitlines() if line.startswith((b"alloc", b"calloc"))]
        whole = [line for line in TRACE.encode().splitlines() if line.startswith((b"alloc", b"calloc"))]
        expect(all(line in whole for line in known), end, known)


def long_lines(bench):
    """Lines of a megabyte are none, or say what they say."""
    text = "".join(SMALL)
    expect_trace(text.replace(BEGIN, BEGIN + "x" * (1 << 20) + "\n" + at(1, "y" * (1 << 20))), TRACE)
    expect_trace(text.replace("java.lang.Object", "p." * (1 << 19) + "Object"), TRACE)


def wrong_logs(bench):
    """What is wrong with a log is told with its line, and no trace is made of nothing."""
    for text in ("", "\n", "hello\n", BEGIN, "[0.1s][info][gc] Using Serial\n", "\0" * 5000, "[" * 5000):
        ended = converted(text)
        expect(ended.status == 1 and ended.output == b"" and b"-Xlog:metaspace*=trace" in ended.errors, text[:20], ended)
    rest = [line for line in SMALL if line != BEGIN]
    expect_trace("".join(rest), TRACE, warnings=["line 1: the log begins in the middle"])
    dropped = at(1, "     6 messages dropped due to async logging", "", "warning")
    expect_trace("".join([*SMALL, dropped, dropped]), TRACE, warnings=[f"line {len(SMALL) + 1}: the JVM dropped", "2 such lines"])
    unknown = [BEGIN, *asked(1, 501, 10, 0x1000, 12), *SMALL[1:]]
    expect_trace("".join(unknown), TRACE, warnings=["line 2: an arena whose birth", "line 5: an answer to no request"])
    freed = [*SMALL, at(1, arena(201, f"deallocating {place(0x3000)}, word size: 30."))]
    expect_trace("".join(freed), TRACE, warnings=[f"line {len(freed)}: a freed block"])


def lacking_logs(bench):
    """A log that lacks lines, at its end, in the middle or of a level, is told with the line that shows it."""
    request = at(1, arena(201, "requested 9 words."))
    expect_trace("".join([*SMALL, request]), TRACE, warnings=[f"line {len(SMALL) + 1}: the log ends inside of a request"])
    expect_trace("".join([*SMALL, request])[:-3], TRACE)
    again = [*SMALL, request, request, at(1, arena(201, f"returning {place(0x2200)}."))]
    expect_trace("".join(again), TRACE.replace("unload 2\n", "unload 2\nalloc 1 3 9\n"),
                 warnings=[f"line {len(SMALL) + 2}: a request has no answer"])
    reborn = [*SMALL, at(1, born(200)), at(1, f"CLMS @{place(300)} : dies.")]
    expect_trace("".join(reborn), TRACE.replace("report\n", "unload 1\nnew 3 standard\nreport\n"),
                 warnings=[f"line {len(SMALL) + 1}: a loader's death or birth is missing", "2 such lines"])
    expect_trace(BEGIN + at(1, born(100)), "new 0 boot\nreport\n", warnings=["line 2: no line tells of a request"])


def other_releases(bench):
    """A log of JDK 25 is refused at its first arena, in whatever it comes: one line says so, and nothing goes out."""
    first, word, *rest = [at(1, f"Arena @{place(101)} (non-class arena): {text}") for text in (
        "born.", "requested 10 words.", f"returning block (@{place(0x1000)} word size 10) taken from arena, no wastage")]
    added = at(1, f"Adding k: {place(0x9000)} java.lang.Object to loader data: {place(7)} of 'bootstrap'", "class,loader,data")
    later = [first, at(1, born(100)), word, *rest, told(1, 0x1000)]
    with tempfile.TemporaryDirectory() as folder:
        names = os.path.join(folder, "names")
        for text, line in (([added, *later], 2), (later, 1), (later[1:], 2), ([*SMALL, word], len(SMALL) + 1)):
            for words in ((), ("--merge",), ("--names", names)):
                ended = converted("".join(text), *words)
                said = ended.errors.decode().splitlines()
                expect(ended.status == 1 and ended.output == b"", line, words, ended)
                expect(said[-1] == f"metalog: line {line}: the log is of another release than JDK 17", said)
                expect(len(said) == (2 if text is not later and text[0] == later[1] else 1), said)
        expect(not os.path.exists(names), "a file of names of no trace")


def other_release_after_a_piece(bench):
    """What went out before the first line of another release stays, and nothing comes after it."""
    lines = [BEGIN, at(1, born(100)), *asked(1, 101, 2, 0x1000, 2)]
    for number in range(1, 6000):
        lines += [at(1, arena(101, "requested 2 words.")), at(1, arena(101, f"returning {place(0x1000 + 16 * number)}."))]
    whole = converted("".join(lines)).output
    ended = converted("".join([*lines, at(1, f"Arena @{place(101)} (class arena): born."), *lines[2:]]))
    expect(ended.status == 1 and ended.output and whole.startswith(ended.output), ended.status, ended.output[-40:])
    expect(ended.errors == f"metalog: line {len(lines) + 1}: the log is of another release than JDK 17\n".encode(), ended.errors)


def a_loader_is_opened_once(bench):
    """A loader whose kind is told after a hundred thousand other lines has gone out as standard by then, and only once."""
    lines = [BEGIN, at(1, born(100)), at(1, born(200)), *asked(1, 101, 2, 0x1000, 2)]
    for number in range(1, 100_200):
        lines += [at(1, arena(101, "requested 2 words.")), at(1, arena(101, f"returning {place(0x1000 + 16 * number)}."))]
    lines += [*asked(1, 201, 2, 0x9000000, 14), at(1, f"CLMS @{place(200)} : dies.")]
    ended = converted("".join(lines))
    opened = [line for line in ended.output.splitlines() if line.startswith(b"new ")]
    expect(ended.status == 0 and opened == [b"new 0 boot", b"new 1 standard"], ended.status, opened)
    expect(ended.output.endswith(b"alloc 1 0 2\nunload 1\nreport\n"), ended.output[-80:])


def names_are_used_again(bench):
    """With more than 65536 loaders the names of dead ones come again, and only those."""
    lines, names = [BEGIN], []
    for number in range(70000):
        lines += [at(1, born(100)), *asked(1, 101, 2, 0x1000, 14), at(1, f"CLMS @{place(100)} : dies.")]
    ended = converted("".join(lines))
    live = set()
    for line in ended.output.decode().splitlines():
        word, *fields = line.split()
        if word == "new":
            expect(fields[0] not in live, line)
            live.add(fields[0])
            names.append(int(fields[0]))
        elif word == "unload":
            live.remove(fields[0])
    expect(ended.status == 0 and len(names) == 70000 and max(names) == 65535, ended.status, len(names))


def blocks_join(bench):
    """Blocks of one arena that lie side by side join up to so many words, but for those that are freed later."""
    lines = [BEGIN, at(1, born(100)), *asked(1, 101, 10, 0x1000, 2)]
    address = 0x1000 + 80
    for words in (20, 1, 5, 30, 40):
        lines += [at(1, arena(101, f"requested {words} words.")), at(1, arena(101, f"returning {place(address)}.")),
                  told(1, address)]
        address += 8 * max(2, words)
    lines += [at(1, arena(101, f"deallocating {place(0x1000 + 8 * 32)}, word size: 5."))]
    expect_trace("".join(lines), "new 0 boot\nalloc 0 0 32\nalloc 0 3 5\nalloc 0 4 70\nfree 0 3\nreport\n", "--merge")
    expect_trace("".join(lines), "new 0 boot\nalloc 0 0 30\nalloc 0 2 1\nalloc 0 3 5\nalloc 0 4 30\nalloc 0 5 40\nfree 0 3\n"
                 "report\n", "--merge", "31")


def loaders_have_names(bench):
    """The file of names has a line for each loader: its number, and what the log tells of it."""
    with tempfile.TemporaryDirectory() as folder:
        path = os.path.join(folder, "names")
        more = [at(1, f"Adding k: {place(0x2100)} App to loader data: {place(6)} for instance a 'a/Loader'{{{place(5)}}}",
                   "class,loader,data"),
                at(1, f"unloadloader data: {place(6)} of 'app one' @1234", "class,loader,data")]
        expect_trace("".join([*SMALL, *more]), TRACE, "--names", path)
        with open(path, "rb") as file:
            expect(file.read() == b"0 bootstrap\n1 a/Loader 'app one' @1234\n2 ?\n", path)
        expect(converted("".join(SMALL), "--names", folder).status == 5, folder)


def command_lines(bench):
    """What is refused before anything is read, and the texts of the help and of the version."""
    for words in (["--reports"], ["--reports", "all"], ["--merge", "1"], ["--merge", "x"], ["--names"], ["x"], ["--what"],
                  [b"\xff"]):
        ended = converted("".join(SMALL), *words)
        expect(ended.status == 2 and ended.output == b"" and ended.errors, words, ended)
    for word, part in (("--help", b"Exit status:"), ("--version", b"metalog 1.")):
        ended = converted("", word)
        expect(ended.status == 0 and part in ended.output and ended.errors == b"", word, ended)


def tests():
    yield Test("a small log becomes its trace", a_small_log)
    yield Test("a log becomes its trace in any pieces", a_log_in_pieces)
    yield Test("a log that is cut at any byte becomes a trace", a_log_cut_anywhere)
    yield Test("a log with lines of a megabyte becomes its trace", long_lines)
    yield Test("what is wrong with a log is told", wrong_logs)
    yield Test("a log that lacks lines is told", lacking_logs)
    yield Test("a log of another release is refused", other_releases)
    yield Test("a log that goes on in another release is refused there", other_release_after_a_piece)
    yield Test("a loader whose kind is told late is opened once", a_loader_is_opened_once)
    yield Test("names of loaders are used again only once they are free", names_are_used_again)
    yield Test("blocks of a log join", blocks_join)
    yield Test("the loaders of a log have names", loaders_have_names)
    yield Test("the command line of metalog", command_lines)
