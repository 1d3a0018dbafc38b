"""Which fault a text has, and what is answered to one without: tables worked by hand from docs/FORMATS.md.

A text with a fault ends with status 1 and the fault's line on standard error, and nothing is written. The reader in
grammar.py, by which texts.py judges, finds the same.
"""
from claims import Test, expect, expect_ended
from examples import content_of
from grammar import fault_of

# lines with the first of their faults
LINES = (
    (b"alloc 1 01 10", "BadNumber"),
    (b"alloc 1 +1 10", "BadNumber"),
    (b"alloc 1 -1 10", "BadNumber"),
    (b"alloc 1 1a 10", "BadNumber"),
    (b"alloc 1  10", "BadNumber"),
    (b"alloc 65536 1 10", "NumberTooLarge"),
    (b"alloc 1 4294967296 10", "NumberTooLarge"),
    (b"alloc 1 1 18446744073709551616", "NumberTooLarge"),
    (b"alloc 1 1 99999999999999999999999", "NumberTooLarge"),
    (b"alloc 1 1 9999999999999999999999x", "BadNumber"),
    (b"alloc  1 1 10", "FieldCount"),
    (b"alloc 1 1", "FieldCount"),
    (b" purge", "UnknownCommand"),
    (b"purge\r", "UnknownCommand"),
    (b" report", "UnknownCommand"),
    (b"report\r", "UnknownCommand"),
    (b"Purge", "UnknownCommand"),
    (b"Calloc 1 1 1", "UnknownCommand"),
    (b"calloc 1 1", "FieldCount"),
    (b"calloc 1 1 1 1", "FieldCount"),
    (b"calloc 1 01 10", "BadNumber"),
    (b"calloc 65536 1 10", "NumberTooLarge"),
    (b"calloc 1 4294967296 10", "NumberTooLarge"),
    (b"calloc 1 1 18446744073709551616", "NumberTooLarge"),
    (b"nonsense 1 1 1 1 1 1", "UnknownCommand"),
    (b" ", "UnknownCommand"),
    (b"new 1 app", "BadKind"),
    (b"new 1 ", "BadKind"),
    (b"new x app", "BadNumber"),
    (b"new 65536 app", "NumberTooLarge"),
    (b"new 1", "FieldCount"),
    (b"new 1 boot 1", "FieldCount"),
    (b"purge ", "FieldCount"),
    (b"\0", "UnknownCommand"),
    (b"purge\0", "UnknownCommand"),
    (b"p\xffrge", "UnknownCommand"),
    (b"free 1 \xff", "BadNumber"),
    (b"#" * 81, "LineTooLong"),
    (b"x" * 81, "LineTooLong"),
)
# texts with their first faulty line and its fault
TEXTS = (
    (b"purge\n\n# \nnew\nalloc\n", 4, "FieldCount"),
    (b"\n\nfree 1 01", 3, "BadNumber"),
    (b"new 1 standard\n\nalloc 1 1\n", 3, "FieldCount"),
    (b"purge\n" * 100000 + b"\n", 100001, "TooManyLines"),
    (b"purge\n" * 100000 + b"#" * 81, 100001, "TooManyLines"),
    (b"\n" * 99999 + b"report\n\n", 100001, "TooManyLines"),
)
COMMENT = b"# 3456789 123456789 123456789 123456789 123456789 123456789 123456789 1234567890"
# texts without a fault, and what they are answered
WITHOUT = (
    (b"", b""),
    (b"\n", b""),
    (b"sync", b"1 ok\n"),
    (b"new 1 standard", b"1 ok\n"),
    (b"new 1 standard\n", b"1 ok\n"),
    (b"# c\n\nsync\n", b"3 ok\n"),
    (b"purge\n\n# \xff\0 any bytes\n", b"1 ok\n"),
    (b"#" * 80, b""),
    (b"#" * 80 + b"\n", b""),
    (COMMENT + b"\nsync\n", b"2 ok\n"),
    (b"purge\n" * 100000, b"".join(b"%d ok\n" % line for line in range(1, 100001))),
)
# the lines of a text with each word, and the fault of each beginning, of no byte, of one, .., by the letter of its kind
BEGINNINGS = (
    (b"new 1 hidden", ".UUCCCKKKKKK."),
    (b"alloc 1 2 30", ".UUUUCCCCCN.."),
    (b"calloc 1 3 5", ".UUUUUCCCCCN."),
    (b"write 1 2 3 40", ".UUUUCCCCCCCN.."),
    (b"# done", "......."),
    (b"", "."),
    (b"read 1 2 3", ".UUUCCCCCN."),
    (b"free 1 2", ".UUUCCCN."),
    (b"unload 1", ".UUUUUCN."),
    (b"purge", ".UUUU."),
    (b"sync", ".UUU."),
    (b"report", ".UUUUU."),
    (b"", "."),
)
LETTERS = {"U": "UnknownCommand", "C": "FieldCount", "K": "BadKind", "N": "BadNumber"}


def expect_fault(bench, text, line, kind):
    """Fails the test where a text isn't told to have this fault, with addresses and without."""
    fault = f"metarun: line {line}: {kind}\n".encode()
    expect(fault_of(text) == fault, "the reader finds in", text, fault_of(text))
    for words in ([], ["--addresses"]):
        ended = bench.run(words, text)
        expect(ended[:3] == (1, b"", fault), words, text, "ends with", ended[:3])


def expect_accepted(bench, text):
    """Fails the test where a text is told to have a fault; gives what is written without addresses and with them."""
    expect(fault_of(text) == b"", "the reader finds in", text, fault_of(text))
    outputs = []
    for words in ([], ["--addresses"]):
        ended = bench.run(words, text)
        expect((ended.status, ended.errors) == (0, b""), words, text, "ends with", ended[:3])
        outputs.append(ended.output)
    return outputs


def tells_the_first_fault_of_a_line(bench):
    """Each line as the only one of a text, with a newline and without."""
    for line, kind in LINES:
        expect_fault(bench, line, 1, kind)
        expect_fault(bench, line + b"\n", 1, kind)


def tells_the_first_faulty_line(bench):
    """Texts of which another line is faulty, or one too many."""
    for text, line, kind in TEXTS:
        expect_fault(bench, text, line, kind)


def answers_each_command(bench):
    """Texts without a fault, none of whose commands tells an address."""
    for text, output in WITHOUT:
        outputs = expect_accepted(bench, text)
        expect(outputs == [output, output], text, "is answered", outputs)


def answers_the_last_line(bench):
    """Line 100,000 is a report, of nothing."""
    nothing = content_of("tests", "worked", "no_chunk_yet.out").partition(b"2 ok\n")[0]
    expect_ended(bench.run((), b"\n" * 99999 + b"report\n"), 0, b"", b"100000" + nothing.removeprefix(b"1"))


def reads_or_blames_each_beginning(bench):
    """A beginning of a text is without a fault, or its last line is blamed."""
    whole = b""
    for number, (line, letters) in enumerate(BEGINNINGS, 1):
        expect(len(letters) == len(line) + 1, line, "has so many letters", len(letters))
        for size, letter in enumerate(letters):
            if letter == ".":
                expect_accepted(bench, whole + line[:size])
            else:
                expect_fault(bench, whole + line[:size], number, LETTERS[letter])
        whole += line + b"\n"


def tests():
    yield Test("each line has its first fault", tells_the_first_fault_of_a_line)
    yield Test("the first faulty line is blamed", tells_the_first_faulty_line)
    yield Test("each command of a text without a fault is answered", answers_each_command)
    yield Test("the last line that a trace may have is answered", answers_the_last_line)
    yield Test("each beginning of a text is read or blamed", reads_or_blames_each_beginning)
