"""The command line: what is refused before anything is read, what runs as it is asked for, the help and the version."""
import os
import re
import subprocess

from claims import Test, expect, expect_ended
from examples import content_of
from outputs import answers_of, report_of
from workbench import ROOT

TRACE = b"new 1 standard\nalloc 1 1 10\nreport\n"
# words that are refused, and how the text on standard error begins
REFUSED = (
    (["--granules", "4"], b"error: unexpected argument '--granules' found\n"),
    (["trace"], b"error: unexpected argument 'trace' found\n"),
    (["--nodes"], b"error: a value is required for '--nodes <N>' but none was supplied\n"),
    (["--nodes", "0"], b"error: invalid value '0' for '--nodes <N>': 0 is not in 1..=64\n"),
    (["--nodes=65"], b"error: invalid value '65' for '--nodes <N>': 65 is not in 1..=64\n"),
    (["--max-granules", "0"], b"error: invalid value '0' for '--max-granules <N>': 0 is not in 1..=40960\n"),
    (["--max-granules", "40961"],
     b"error: invalid value '40961' for '--max-granules <N>': 40961 is not in 1..=40960\n"),
    (["--class-nodes", "17"], b"error: invalid value '17' for '--class-nodes <N>': 17 is not in 0..=16\n"),
    (["--max-lines", "0"], b"error: invalid value '0' for '--max-lines <N>': 0 is not in 1..=10000000\n"),
    (["--max-lines", "10000001"], b"error: invalid value '10000001' for '--max-lines <N>': 10000001 is not in 1..=10000000\n"),
    (["--workers", "0"], b"error: invalid value '0' for '--workers <N>': 0 is not in 1..=8\n"),
    (["--workers=9"], b"error: invalid value '9' for '--workers <N>': 9 is not in 1..=8\n"),
    (["--policy", "lazy"], b"error: invalid value 'lazy' for '--policy <P>'\n"),
    (["--report", "short"], b"error: invalid value 'short' for '--report <R>'\n"),
    (["--format", "xml"], b"error: invalid value 'xml' for '--format <F>'\n"),
    (["--format"], b"error: a value is required for '--format <F>' but none was supplied\n"),
    (["--names"], b"error: a value is required for '--names <FILE>' but none was supplied\n"),
    (["--format", "html", "--names", "a", "--names", "a"],
     b"error: the argument '--names <FILE>' cannot be used multiple times\n"),
    (["--nodes", "4", "--nodes", "4"], b"error: the argument '--nodes <N>' cannot be used multiple times\n"),
    (["--addresses", "--addresses"], b"error: the argument '--addresses' cannot be used multiple times\n"),
)
# words that are refused with this line alone
REFUSED_IN_A_LINE = (
    (["--addresses", "--workers", "2"], b"metarun: --addresses needs --workers 1\n"),
    (["--format", "json", "--workers", "2"], b"metarun: --format html or json needs --workers 1\n"),
    (["--format", "html", "--workers", "2"], b"metarun: --format html or json needs --workers 1\n"),
    (["--format", "json", "--addresses", "--workers", "2"], b"metarun: --addresses needs --workers 1\n"),
    (["--names", "app.names"], b"metarun: --names needs --format html or json, or --report full\n"),
    (["--names=app.names", "--format=text", "--report", "basic"],
     b"metarun: --names needs --format html or json, or --report full\n"),
    (["--names", "app.names", "--format", "html", "--workers", "2"],
     b"metarun: --format html or json needs --workers 1\n"),
    ([b"\xff"], b"metarun: the command line is no text\n"),
)
DEFAULT = {"policy": "balanced", "granule": "8192", "max granules": "8192", "nodes": "64", "class nodes": "0",
           "workers": "1"}
# words that are accepted, the settings that they change, and what an `alloc` is answered
ACCEPTED = (
    (["--nodes", "4"], {"nodes": "4"}, b"ok"),
    (["--nodes=4"], {"nodes": "4"}, b"ok"),
    (["--nodes", "04", "--max-granules=0000128"], {"nodes": "4", "max granules": "128"}, b"ok"),
    (["--nodes=+4", "--class-nodes", "+2"], {"nodes": "4", "class nodes": "2"}, b"ok"),
    (["--policy=balanced", "--class-nodes", "1"], {"class nodes": "1"}, b"ok"),
    (["--format=text", "--workers", "2"], {"workers": "2"}, b"ok"),
    (["--addresses", "--workers=1", "--policy", "none", "--nodes=1", "--max-granules=1", "--class-nodes=0"],
     {"policy": "none", "max granules": "1", "nodes": "1"}, b"at 0"),
    (["--workers", "8", "--class-nodes", "16", "--max-granules", "40960", "--nodes", "64", "--policy=aggressive"],
     {"policy": "aggressive", "granule": "2048", "max granules": "40960", "class nodes": "16", "workers": "8"}, b"ok"),
)
PARTS_OF_HELP = (
    b"Usage: metarun [OPTIONS]\n",
    b"--workers <N>",
    b"1 to 8 [default: 1]",
    b"--max-granules <N>",
    b"1 to 40960 [default: 8192]",
    b"--nodes <N>",
    b"1 to 64 [default: 64]",
    b"--addresses",
    b"--policy <P>",
    b"[default: balanced] [possible values: balanced, aggressive, none]",
    b"--class-nodes <N>",
    b"--max-lines <N>",
    b"0 to 16 [default: 0]",
    b"--report <R>",
    b"[default: basic] [possible values: basic, full]",
    b"--format <F>",
    b"[default: text] [possible values: text, html, json]",
    b"--names <FILE>",
    b"--help",
    b"--version",
    b"Exit status:",
    b"Example:",
)


def refusal_of(bench, words):
    """What stands on standard error of a refused command line: the status is 2, and nothing was read or written."""
    ended = bench.run(words, TRACE)
    expect((ended.status, ended.output) == (2, b""), words, ended)
    expect(bench.program.bytes_read() == 0, words, "the trace was read")
    return ended.errors


def refuses_bad_lines(bench):
    """Unknown and repeated options, words that are none, missing values, and those out of their range."""
    for words, beginning in REFUSED:
        told = refusal_of(bench, words)
        expect(told.startswith(beginning), words, "is refused with", told)
    for words, line in REFUSED_IN_A_LINE:
        told = refusal_of(bench, words)
        expect(told == line, words, "is refused with", told)


def does_what_is_asked_for(bench):
    """The settings are as a full report tells them, and addresses are told where they are asked for."""
    for words, settings, reply in ACCEPTED:
        ended = bench.run([*words, "--report", "full"], TRACE)
        expect_ended(ended, 0)
        expect(bench.program.bytes_read() == len(TRACE), words, "not all of the trace was read")
        answers = answers_of(ended.output)
        expect([answer.reply for answer in answers] == [b"ok", reply, b"ok"], words, "is answered", answers)
        found = report_of(answers[-1].report).settings
        expect(found == {**DEFAULT, **settings}, words, "sets", found)


def reports_basically(bench):
    """A basic report that is asked for is the one that comes where nothing is."""
    text, wanted = content_of("examples", "first.trace"), content_of("examples", "first.out")
    for words in (["--report=basic"], ["--report", "basic"]):
        expect_ended(bench.run(words, text), 0, b"", wanted)


def text_of(bench, word):
    """What a word that asks for a text alone is told, while nothing is read."""
    ended = bench.run([word], TRACE)
    expect_ended(ended, 0)
    expect(bench.program.bytes_read() == 0, word, "the trace was read")
    return ended.output


def helps(bench):
    """The help has each option with its values and its default, the statuses and an example."""
    for word in ("-h", "--help"):
        text = text_of(bench, word)
        for part in PARTS_OF_HELP:
            expect(part in text, word, "doesn't tell", part, text)


def tells_its_version(bench):
    """The version tells the toolchain's line as the docs do, and the logic of this machine's."""
    with open(os.path.join(ROOT, "docs", "PROMISES.md"), encoding="utf-8") as page:
        line = re.search(r"The toolchain: `([^`]+)`", page.read())[1]
    here = subprocess.run(["rt", "version"], capture_output=True, check=True, text=True).stdout
    # Kits of several names have one logic; the docs name the kit that was used last.
    expect(line.split()[-2:] == here.split()[-2:], "the docs say", line, "and here is", here)
    for word in ("-V", "--version"):
        text = text_of(bench, word)
        expect(text == f"metarun 1.0.0 (proved with {line})\n".encode(), word, text, line)


def tests():
    yield Test("a bad command line is refused before anything is read", refuses_bad_lines)
    yield Test("options are as they are asked for", does_what_is_asked_for)
    yield Test("a report that is asked to be basic is the default one", reports_basically)
    yield Test("the help goes to standard output", helps)
    yield Test("the version goes to standard output", tells_its_version)
