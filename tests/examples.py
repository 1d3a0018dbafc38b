"""The traces of examples/, examples/reports/ and tests/worked/ with the options of their pages, byte for byte.

A page names a trace as **[NAME](NAME.trace)**, with its options behind it between backquotes, and its output is in
NAME.out. A trace that is run with several options has an output for each, which the same paragraph names as
[`OPTIONS`](NAME.WORD.out). Where the options have --workers, the output is the same for each number of workers.
"""
import os
import re

from claims import Test, expect, expect_ended
from workbench import ROOT

NAMED = re.compile(r"\*\*\[(\w+)\]\((\w+)\.trace\)\*\*(?:, `([^`]*)`)?")
RUN = re.compile(r"\[`([^`]*)`\]\((\w+\.\w+\.out)\)")
FOLDERS = ("examples", "examples/reports", "tests/worked")


def content_of(*path):
    with open(os.path.join(ROOT, *path), "rb") as file:
        return file.read()


def runs_of(folder):
    """The runs that a folder's page names: each with the trace's name, the options, and the output's file."""
    for paragraph in content_of(folder, "README.md").decode().split("\n\n"):
        several = [(options.split(), file) for options, file in RUN.findall(paragraph)]
        for name, _, options in NAMED.findall(paragraph):
            for words, file in several or [((options or "").split(), f"{name}.out")]:
                yield name, words, file


def with_each_number_of_workers(options):
    """The options, once for each number of workers where they ask for threads."""
    if "--workers" not in options:
        return [options]
    place = options.index("--workers") + 1
    return [[*options[:place], str(number), *options[place + 1:]] for number in range(1, 9)]


def gives_its_output(bench, folder, name, options, file):
    """A trace gives the output in this file."""
    text, wanted = content_of(folder, f"{name}.trace"), content_of(folder, file)
    for words in with_each_number_of_workers(options):
        expect_ended(bench.run(words, text), 0, b"", wanted)


def each_file_is_named(_, folder):
    """The page names each trace and each output, and there is nothing else that it names."""
    files = set(os.listdir(os.path.join(ROOT, folder)))
    traces, outputs = ({file for file in files if file.endswith(ending)} for ending in (".trace", ".out"))
    runs = list(runs_of(folder))
    expect({f"{name}.trace" for name, _, _ in runs} == traces, "the page doesn't name just the traces", sorted(traces))
    expect({file for _, _, file in runs} == outputs, "the page doesn't name just the outputs", sorted(outputs))


def tests():
    for folder in FOLDERS:
        yield Test(f"the page of {folder} names each trace", each_file_is_named, (folder,))
        for name, options, file in sorted(runs_of(folder)):
            yield Test(f"{folder}/{file[:-len('.out')]} gives its output", gives_its_output,
                       (folder, name, options, file))
