"""What a test is, and what it says where it finds the program wrong."""
import sys
from typing import Callable, NamedTuple


class Test(NamedTuple):
    """A test: a sentence for its name, and a function that gets a Workbench and the arguments."""

    name: str
    function: Callable
    arguments: tuple = ()


class Wrong(Exception):
    """The program did what it must not do."""


class Skipped(Exception):
    """The test needs a tool that isn't here; its text names the tool."""


def run_alone(tests):
    """Runs tests that need no program, prints what comes of each, and ends with status 1 where one fails."""
    failed = 0
    for test in tests:
        try:
            print(f"ok: {test.name}: {test.function(None)}")
        except Wrong as wrong:
            print(f"FAILED: {test.name}: {wrong}")
            failed += 1
    sys.exit(failed != 0)


def expect(holds, *facts):
    """Fails the test where the claim doesn't hold, with the facts that show it."""
    if not holds:
        raise Wrong("; ".join(shown(fact) for fact in facts))


def shown(fact):
    text = fact if isinstance(fact, str) else repr(fact)
    return text if len(text) <= 600 else f"{text[:400]} .. {text[-200:]}"


def expect_ended(ended, status, errors=b"", output=None):
    """Fails the test where a run ended otherwise than so; the output is any where none is given."""
    expect(ended.status == status, f"status {ended.status}, not {status}", ended.errors, ended.output)
    expect(ended.errors == errors, "on standard error stands", ended.errors, "and not", errors)
    if output is not None:
        expect(ended.output == output, first_difference(ended.output, output))


def first_difference(found, wanted):
    """Tells where two outputs differ first, by line."""
    lines = zip(found.split(b"\n") + [b"(its end)"], wanted.split(b"\n") + [b"(its end)"])
    for number, (one, other) in enumerate(lines, 1):
        if one != other:
            return f"line {number} of the output is {shown(one)}, and not {shown(other)}"
    return "the outputs are the same"
