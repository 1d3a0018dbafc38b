"""Runs the system tests over a built program.

Each test says its name and time as it ends, and the last line is 'N passed, M failed'; where a tool is missing that
isn't asked of each machine, also ', K skipped', and the tests that need it. The line before it has the sum of the growths
that tests refused in turn, as they say it. With words, those tests alone whose names have one of them. As many tests run
side by side as there are processors.
"""
import argparse
import concurrent.futures
import importlib
import multiprocessing
import os
import re
import sys
import tempfile
import time
import traceback

sys.dont_write_bytecode = True

from workbench import Workbench, build
from claims import Skipped, Wrong

SUBJECTS = ("hostile", "growths", "limits", "peaks", "devices", "texts", "faults", "options", "examples", "rows", "schedules",
            "orders", "scripts", "release", "metalog", "jvm", "calls", "library", "twin", "pages", "words", "contracts", "lengths", "forms",
            "browser", "naming")
PASSED, FAILED, SKIPPED = "ok", "FAILED", "skipped"
GROWTHS = re.compile(r"\b(\d+) growths\b")
bench = None


def prepare(program, room):
    """Makes what a process of the pool works with."""
    global bench
    bench = Workbench(program, room)


def outcome(subject, number):
    """Runs a test in a process of the pool: what became of it, its seconds, and what it says."""
    test = list(importlib.import_module(subject).tests())[number]
    start = time.monotonic()
    try:
        said, became = test.function(bench, *test.arguments), PASSED
    except Skipped as tool:
        said, became = f"needs {tool}", SKIPPED
    except Wrong as wrong:
        said, became = str(wrong), FAILED
    except Exception:
        said, became = traceback.format_exc(), FAILED
    return became, time.monotonic() - start, said


def chosen(words):
    """Lists the tests: the subject, the number there, and the name."""
    for subject in SUBJECTS:
        for number, test in enumerate(importlib.import_module(subject).tests()):
            if not words or any(word in test.name for word in words):
                yield subject, number, test.name


def run_all(program, words, room):
    """Runs the tests side by side: lists the names of those that passed, failed and were skipped, and counts growths."""
    processors = len(os.sched_getaffinity(0))
    names, growths = {PASSED: [], FAILED: [], SKIPPED: []}, 0
    pool = concurrent.futures.ProcessPoolExecutor(
        processors, multiprocessing.get_context("spawn"), initializer=prepare, initargs=(program, room))
    with pool:
        running = {pool.submit(outcome, subject, number): name for subject, number, name in chosen(words)}
        for done in concurrent.futures.as_completed(running):
            error = done.exception()
            became, seconds, said = (FAILED, 0, repr(error)) if error else done.result()
            names[became].append(running[done])
            growths += sum(map(int, GROWTHS.findall(said or ""))) if became == PASSED else 0
            about = f": {said}" if said else ""
            print(f"{became}: {running[done]} ({seconds:.2f} s){about}", flush=True)
    return names, growths


def main(program, words):
    program = os.path.abspath(program)
    with tempfile.TemporaryDirectory(prefix="metarun-tests-") as room:
        build(room)
        names, growths = run_all(program, words, room)
    if growths:
        print(f"{growths} growths were refused in turn, by all of these tests together")
    skipped = f", {len(names[SKIPPED])} skipped: {'; '.join(names[SKIPPED])}" if names[SKIPPED] else ""
    print(f"{len(names[PASSED])} passed, {len(names[FAILED])} failed{skipped}")
    sys.exit(names[FAILED] != [] or names[PASSED] == [])


if __name__ == "__main__":
    parser = argparse.ArgumentParser(description=__doc__, formatter_class=argparse.RawDescriptionHelpFormatter)
    parser.add_argument("program", metavar="PROGRAM")
    parser.add_argument("words", metavar="WORD", nargs="*", help="a part of a test's name")
    asked = parser.parse_args()
    main(asked.program, asked.words)
