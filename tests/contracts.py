"""Contracts that can be read: no function has more than eight clauses, and no public one more than seven arguments.

`python3 tests/contracts.py` runs these alone.
"""
import functools
import os
import re

from claims import Test, expect, run_alone

ROOT = os.path.dirname(os.path.dirname(os.path.abspath(__file__)))
MOST_CLAUSES, MOST_ARGUMENTS = 8, 7
# What brackets in it say nothing of: texts, characters and comments.
QUOTED = re.compile(r'r(#*)".*?"\1|b?"(?:[^"\\]|\\.)*"|b?\'(?:[^\'\\]|\\.)\'|//[^\n]*', re.S)
FUNCTION = re.compile(r"^[ \t]*(pub(?:\(\w+\))? )?(?:const )?(?:unsafe )?(?:extern \"C\" )?fn (\w+)", re.M)
CLAUSE = re.compile(r"(?:requires|ensures)\b|[{;]")
CLOSING = {"(": ")", "[": "]", "{": "}"}


def end_of(text, at):
    """Where what is opened at a position ends: past the bracket that closes it."""
    closing = []
    while True:
        if text[at] in CLOSING:
            closing.append(CLOSING[text[at]])
        elif closing and text[at] == closing[-1]:
            closing.pop()
        at += 1
        if not closing:
            return at


def arguments_at(text, at):
    """How many arguments stand between brackets, and where these end."""
    end, count, start, depth = end_of(text, at), 0, at + 1, 0
    for here in range(at + 1, end):
        depth += (text[here] in "([{<") - (text[here] in ")]}" or text[here] == ">" and text[here - 1] != "-")
        if here == end - 1 or text[here] == "," and depth == 0:
            count += bool(text[start:here].strip())
            start = here + 1
    return count, end


def clauses_at(text, at):
    """How many clauses follow, up to the body or the end."""
    count = 0
    while True:
        while text[at] == "[":
            at = end_of(text, at)
        found = CLAUSE.match(text, at)
        if not found:
            at += 1
        elif found.group() in "{;":
            return count
        else:
            count += 1
            at = end_of(text, text.index("{", found.end()))


def functions_in(text):
    """The functions of a source, each with whether it is public, its arguments and its clauses."""
    text = QUOTED.sub("", text)
    for found in FUNCTION.finditer(text):
        at, depth = found.end(), 0
        while text[at] != "(" or depth:
            depth += (text[at] == "<") - (text[at] == ">" and text[at - 1] != "-")
            at += 1
        arguments, end = arguments_at(text, at)
        yield found.group(2), bool(found.group(1)), arguments, clauses_at(text, end)


@functools.cache
def functions():
    """The functions of all crates, by their files."""
    found = []
    for folder, folders, files in os.walk(os.path.join(ROOT, "crates")):
        folders[:] = [name for name in folders if name not in ("out", "target")]
        for name in files:
            if name.endswith(".rt"):
                path = os.path.join(folder, name)
                with open(path, encoding="utf-8") as file:
                    found += [(os.path.relpath(path, ROOT), *function) for function in functions_in(file.read())]
    return sorted(found)


def are_read_aloud(_):
    many = [(path, name, clauses) for path, name, _, _, clauses in functions() if clauses > MOST_CLAUSES]
    expect(not many, "of more than eight clauses", many)
    return f"{sum(clauses for *_, clauses in functions())} clauses of {len(functions())} functions"


def take_few_arguments(_):
    many = [(path, name, count) for path, name, public, count, _ in functions() if public and count > MOST_ARGUMENTS]
    expect(not many, "of more than seven arguments", many)
    return f"{sum(public for _, _, public, *_ in functions())} public functions"


def tests():
    yield Test("contracts: a function has at most eight clauses", are_read_aloud)
    yield Test("contracts: a public function has at most seven arguments", take_few_arguments)


if __name__ == "__main__":
    run_alone(tests())
