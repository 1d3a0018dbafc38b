"""The log of a JVM, of which metalog makes a trace that metarun replays, beside what jcmd says of that JVM at the log's end.

tests/jvm/ has such a log with what jcmd said, and the trace that it gives. Where java, javac and jcmd of JDK 17 are on the
machine, a JVM is run and asked too: the server of tests/java/, which deploys its modules again and again.

    python3 tests/jvm.py METALOG      stores another log: one of a JVM that is process 1, as in a container
"""
import lzma
import os
import re
import shutil
import subprocess
import sys
import tempfile
import threading
from typing import NamedTuple

from claims import Skipped, Test, expect, expect_ended, first_difference
from outputs import answers_of, expect_sums, reports_of
from program import Program
from workbench import FOLDER, ROOT

METALOG = os.path.join(ROOT, "crates", "metalog", "out", "metalog")
STORED = os.path.join(FOLDER, "jvm", "server")
JAVA = os.path.join(FOLDER, "java")
TAGS = "metaspace*=trace,class+loader+data=trace"
JOINED = ("--merge", "128")
CLASS_NODES = ("--class-nodes", "4")
USED_PER_CENT, COMMITTED_PER_CENT = 0.5, 2
WORDS_A_KB = 128
NEWLINE = b"\n"
COLLECTION = re.compile(rb"GC\(\d+\) Metaspace: .* NonClass: .*?->(\d+)K\((\d+)K\) Class: .*?->(\d+)K\((\d+)K\)")
SECONDS = 120

# the classes of java.base that the server begins with, its rounds, modules, and modules of each round that leak
STORED_SERVER = ("300", "3", "2", "1")
LARGE_SERVER = ("9000", "6", "3", "1")


class Said(NamedTuple):
    """What jcmd says: bytes that are used and committed, of the space that is not the class space first, and counts."""

    used: list
    committed: list
    arena_births: int
    arena_deaths: int


def said_in(text):
    """Reads what 'jcmd PID VM.metaspace basic scale=1' prints."""
    used = re.findall(r"^ +(?:Non-class|Class): +(\d+) bytes used\.", text, re.MULTILINE)
    committed = re.findall(r"^ +(?:Non-class|Class) space: +\d+ bytes reserved, +(\d+) bytes \(", text, re.MULTILINE)
    births, deaths = (re.search(rf"^num_arena_{name}: (\d+)\.", text, re.MULTILINE) for name in ("births", "deaths"))
    expect(len(used) == 2 and len(committed) == 2 and births and deaths, "jcmd says", text)
    return Said([int(size) for size in used], [int(size) for size in committed], int(births[1]), int(deaths[1]))


def stored(ending):
    """The content of a stored file."""
    with lzma.open(f"{STORED}.{ending}.xz") as file:
        return file.read()


def said_of_the_stored():
    with open(f"{STORED}.jcmd.txt", encoding="ascii") as file:
        return said_in(file.read())


def converted(log, words=()):
    """The trace that metalog makes of a log with which nothing is wrong."""
    ended = Program(METALOG).run(words, log, seconds=SECONDS)
    expect_ended(ended, 0)
    return ended.output


def replayed(bench, trace):
    """Replays a trace all of whose lines are done, and gives its reports."""
    ended = bench.run(CLASS_NODES, trace, seconds=SECONDS)
    expect_ended(ended, 0)
    answers = answers_of(ended.output)
    expect(all(answer.reply == b"ok" for answer in answers), "a line is refused")
    reports = reports_of(answers)
    for report in reports:
        expect_sums(report)
    return reports


def compared(report, said):
    """Fails the test where a space differs from what jcmd says by more than it may, and says by how much it does."""
    told = []
    for label, most, sizes in (("used", USED_PER_CENT, said.used), ("committed", COMMITTED_PER_CENT, said.committed)):
        differences = [800 * space.numbers[label] / size - 100 for space, size in zip(report.spaces, sizes, strict=True)]
        told.append(f"{label} {' and '.join(f'{difference:+.2f}' for difference in differences)} per cent")
        expect(all(abs(difference) <= most for difference in differences), *told)
    return ", ".join(told)


def expect_loaders(trace, said):
    """Fails the test where the trace has other loaders than the JVM had, each with two arenas."""
    births, deaths = (sum(line.startswith(word) for line in trace.split(NEWLINE)) for word in (b"new ", b"unload "))
    expect(2 * births == said.arena_births and 2 * deaths == said.arena_deaths, births, deaths, said)


def a_stored_log_gives_its_trace(_):
    """Letter by letter; and with spaces behind a thread's number, as the log of a JVM in a container has them."""
    log = stored("log")
    expect(re.search(rb"^\[[0-9.]+s\]\[\d+ +\]", log, re.MULTILINE), "no thread's number is padded")
    trace, wanted = converted(log), stored("trace")
    expect(trace == wanted, first_difference(trace, wanted))


def a_stored_log_is_replayed(bench):
    """The stored trace, and the shorter one that joins blocks."""
    said, trace = said_of_the_stored(), stored("trace")
    expect_loaders(trace, said)
    joined = converted(stored("log"), JOINED)
    expect_loaders(joined, said)
    lines, fewer = trace.count(NEWLINE), joined.count(NEWLINE)
    expect(4 * fewer < lines, "of", lines, "lines joining leaves", fewer)
    near = compared(replayed(bench, trace)[-1], said)
    return f"{lines} lines: {near}; {fewer} lines: {compared(replayed(bench, joined)[-1], said)}"


def a_stored_log_is_replayed_to_each_collection(bench):
    """The log itself has what is used and committed after each collection, in KB that are cut off."""
    log = stored("log")
    told = [list(map(int, sizes)) for sizes in COLLECTION.findall(log)]
    *reports, _ = replayed(bench, converted(log, ("--reports", "gc")))
    for sizes, report in zip(told, reports, strict=True):
        for space, used, committed in zip(report.spaces, sizes[::2], sizes[1::2], strict=True):
            found = [space.numbers[label] / WORDS_A_KB for label in ("used", "committed")]
            expect(abs(found[0] - used) <= max(1, used * USED_PER_CENT / 100), "used", found, sizes)
            expect(abs(found[1] - committed) <= committed * COMMITTED_PER_CENT / 100, "committed", found, sizes)
    expect(len(told) > 1, "the log has too few collections", told)
    return f"{len(told)} collections"


def need_jdk():
    """Skips the test where JDK 17 isn't there."""
    tools = all(shutil.which(name) for name in ("java", "javac", "jcmd"))
    if not tools or b'version "17.' not in subprocess.run(["java", "-version"], capture_output=True, check=True).stderr:
        raise Skipped("java, javac and jcmd of JDK 17")


def compile_server(room):
    """Compiles the server, and gives the folder of its classes."""
    sources = [os.path.join(folder, name) for folder, _, names in os.walk(JAVA) for name in names if name.endswith(".java")]
    subprocess.run(["javac", "-d", room, *sources], check=True, timeout=SECONDS)
    return room


def text_of_jcmd(number):
    words = ["jcmd", str(number), "VM.metaspace", "basic", "scale=1"]
    return subprocess.run(words, capture_output=True, text=True, check=True, timeout=SECONDS).stdout


def asked(log, number):
    """Asks jcmd about a JVM until its log stays as long meanwhile, and gives the log so far and the answer."""
    for _ in range(10):
        before = os.path.getsize(log)
        text = text_of_jcmd(number)
        if os.path.getsize(log) == before:
            with open(log, "rb") as file:
                return file.read(before), text
    raise AssertionError("the JVM doesn't come to rest")


def java_process(process, first):
    """The number of the JVM: the started process's own, or its only child's where words stand before java."""
    if not first:
        return process.pid
    with open(f"/proc/{process.pid}/task/{process.pid}/children", encoding="ascii") as children:
        return int(children.read())


def run_server(room, server, first=()):
    """Runs the server, holds its JVM at the end, and gives its log and what jcmd says."""
    classes, log = compile_server(os.path.join(room, "classes")), os.path.join(room, "meta.log")
    words = [*first, "java", f"-Xlog:{TAGS}:file={log}:uptime,tid,level,tags:filecount=0", "-Xmx256m", "-cp", classes,
             "Held", "Redeployments", classes, *server]
    process = subprocess.Popen(words, stdin=subprocess.PIPE, stdout=subprocess.DEVNULL, stderr=subprocess.PIPE)
    late = threading.Timer(SECONDS, process.kill)
    late.start()
    try:
        expect(any(line == b"held\n" for line in process.stderr), "the JVM ended before it was held")
        return asked(log, java_process(process, first))
    finally:
        late.cancel()
        process.stdin.close()
        process.wait(SECONDS)
        process.stderr.close()


def a_jvm_is_replayed(bench):
    """A server with all classes of java.base and modules that leak: its trace has what the JVM has, as far as stated."""
    need_jdk()
    with tempfile.TemporaryDirectory(dir=bench.room) as room:
        log, text = run_server(room, LARGE_SERVER)
    said, trace = said_in(text), converted(log, JOINED)
    expect_loaders(trace, said)
    return f"{len(log) >> 20} MB of log, {trace.count(NEWLINE)} lines: {compared(replayed(bench, trace)[-1], said)}"


def tests():
    yield Test("a stored log of a JVM gives its trace", a_stored_log_gives_its_trace)
    yield Test("a stored log of a JVM is replayed as jcmd says", a_stored_log_is_replayed)
    yield Test("a stored log of a JVM is replayed as its collections say", a_stored_log_is_replayed_to_each_collection)
    yield Test("a JVM of this machine is replayed as jcmd says", a_jvm_is_replayed)


def store(metalog):
    """Stores a log, its trace, and what jcmd said."""
    with tempfile.TemporaryDirectory() as room:
        log, text = run_server(room, STORED_SERVER, ("unshare", "--fork", "--pid", "--mount-proc"))
    trace = subprocess.run([metalog], input=log, capture_output=True, check=True).stdout
    for ending, content in (("log", log), ("trace", trace)):
        with lzma.open(f"{STORED}.{ending}.xz", "wb", preset=9 | lzma.PRESET_EXTREME) as file:
            file.write(content)
    with open(f"{STORED}.jcmd.txt", "w", encoding="ascii") as file:
        file.write(text)


if __name__ == "__main__":
    store(*sys.argv[1:])
