"""Texts that the program must answer: cut, malformed, too long and endless ones, against a reader of their own."""
import os
import random
import resource
import threading
import time

from claims import Test, expect, expect_ended, first_difference
from grammar import FIELDS, KINDS, commands_of, fault_of, lines_of
from outputs import answers_of
from program import MEGABYTE
from rows import rows_of

ALL_COMMANDS = b"""# all commands
new 1 standard
alloc 1 1 10
calloc 1 2 10
write 1 1 0 7

read 1 1 0
new 2 hidden
new 3 boot
new 4 reflection
free 1 1
sync
alloc 65535 4294967295 18446744073709551615
unload 1
purge
report
"""
TEXTS = 2000
# eight times the longest text
LIMITS = {resource.RLIMIT_AS: 64 * MEGABYTE}
PIECES = 8
WORDS = (*FIELDS, *KINDS)
NUMBERS = (b"65535", b"65536", b"4294967295", b"4294967296", b"18446744073709551615", b"18446744073709551616",
           b"00", b"01", b"-1")
OF_ALLOCATIONS = {b"NoLoader", b"BlockExists", b"ZeroWords", b"TooLarge", b"ReserveLimit", b"CommitLimit"}
# but for OutOfMemory, since nothing is refused here
REFUSALS = {
    b"new": {b"LoaderExists", b"IdsUsedUp"},
    b"alloc": OF_ALLOCATIONS,
    b"calloc": OF_ALLOCATIONS,
    b"write": {b"NoLoader", b"NoBlock", b"OutOfRange"},
    b"read": {b"NoLoader", b"NoBlock", b"OutOfRange"},
    b"free": {b"NoLoader", b"NoBlock"},
    b"unload": {b"NoLoader"},
    b"purge": set(),
    b"sync": set(),
    b"report": set(),
}


def expect_reply(word, reply):
    """Fails the test where a command is answered by what is no reply to it."""
    kind, _, rest = reply.partition(b" ")
    if kind == b"refused":
        expect(rest in REFUSALS[word], word, "is answered by", reply)
    elif word == b"read":
        expect(kind == b"value" and rest.isdigit(), word, "is answered by", reply)
    else:
        expect(reply == b"ok", word, "is answered by", reply)


def expect_read(ended, text):
    """Fails the test where the program reads a text otherwise than the reader does. Tells whether it has a fault."""
    fault = fault_of(text)
    if fault:
        expect_ended(ended, 1, fault, b"")
        return True
    expect_ended(ended, 0)
    answers, commands = answers_of(ended.output), commands_of(text)
    expect([answer.line for answer in answers] == [number for number, _ in commands], "other lines are answered", text)
    for answer, (_, word) in zip(answers, commands):
        expect_reply(word, answer.reply)
        expect((word == b"report") == (answer.report != []), "a report stands behind another command", text)
    return False


def reads_each_beginning(bench, trace):
    """Each beginning of a trace; its whole lines are answered as in the whole trace."""
    whole = bench.run((), trace)
    expect_ended(whole, 0)
    faults = 0
    for size in range(len(trace) + 1):
        text = trace[:size]
        ended = bench.run((), text)
        faults += expect_read(ended, text)
        if ended.status == 0 and (text == b"" or text.endswith(b"\n")):
            expect(whole.output.startswith(ended.output), first_difference(ended.output, whole.output))
    return f"{len(trace) + 1} texts, {faults} of them faulty"


def flipped(chance, text):
    at = chance.randrange(len(text))
    return text[:at] + bytes([text[at] ^ 1 << chance.randrange(8)]) + text[at + 1:]


def cut(chance, text):
    at = chance.randrange(len(text))
    return text[:at] + text[at + chance.randint(1, 4):]


def doubled(chance, text):
    at = chance.randrange(len(text))
    end = at + chance.randint(1, 30)
    return text[:end] + text[at:end] + text[end:]


def inserted(chance, text):
    at = chance.randint(0, len(text))
    piece = chance.choice([b" ", b"\n", b"\r", b"\t", b"\0", b"#", b"0", bytes([chance.randrange(256)]), *WORDS])
    return text[:at] + piece + text[at:]


def with_returns(chance, text):
    """A text whose lines end as on another system, all of them or one."""
    at = chance.randrange(text.count(b"\n") + 1)
    lines = text.split(b"\n")
    if chance.randrange(2):
        return b"\r\n".join(lines)
    return b"\n".join(line + b"\r" * (number == at) for number, line in enumerate(lines))


def with_digits(chance, text):
    """A text with another number in a field's place: a limit, the one past it, or one of many digits."""
    lines = text.split(b"\n")
    at = chance.randrange(len(lines))
    fields = lines[at].split(b" ")
    place = chance.randrange(len(fields))
    many = bytes(chance.choice(b"0123456789") for _ in range(chance.randint(1, 90)))
    fields[place] = chance.choice([many, *NUMBERS])
    lines[at] = b" ".join(fields)
    return b"\n".join(lines)


def lengthened(chance, text):
    """A text with a comment of about as many bytes as a line may have."""
    comment = b"#" * chance.randint(78, 83) + b"\n"
    at = chance.choice([0, *(place + 1 for place, byte in enumerate(text) if byte == 10)])
    return text[:at] + comment + text[at:]


CHANGES = (flipped, cut, doubled, inserted, with_returns, with_digits, lengthened)


def malformed(number):
    """The malformed text of that number, by a seed of its own."""
    chance = random.Random(f"text {number}")
    text = b"".join(chance.sample(lines_with_ends(ALL_COMMANDS), chance.randint(1, 16)))
    for _ in range(chance.randint(1, 2)):
        text = chance.choice(CHANGES)(chance, text) or b"\n"
    return text


def lines_with_ends(text):
    return [line + b"\n" for line in lines_of(text)]


def reads_malformed_texts(bench, piece):
    """Malformed texts from a seed, every eighth of them."""
    numbers = range(piece, TEXTS, PIECES)
    faults = sum(expect_read(bench.run((), malformed(number)), malformed(number)) for number in numbers)
    expect(0 < faults < len(numbers), "all of the texts are faulty, or none", faults)
    return f"{len(numbers)} texts, {faults} of them faulty"


def expect_soon(start):
    """Fails the test where an answer took more than a second of the clock."""
    expect(time.monotonic() - start < 1, "it took", time.monotonic() - start)


def reads_the_longest_text(bench):
    """100,000 lines of 80 bytes are a trace; with one byte more, or with an empty line more, they aren't."""
    comment = b"#" * 80 + b"\n"
    whole = comment * 100000
    for text, fault in ((whole, b""), (whole + b"#", b"metarun: line 100001: TooManyLines\n"),
                        (whole + b"\n", b"metarun: line 100001: TooManyLines\n"),
                        (b"#" * 8100001, b"metarun: line 1: LineTooLong\n"),
                        (b"purge\n" * 100000 + b"#" * 7500001, b"metarun: line 100001: TooManyLines\n")):
        start = time.monotonic()
        ended = bench.run((), text, limits=LIMITS)
        expect_soon(start)
        wanted = b"".join(b"%d ok\n" % number for number in range(1, 100001)) if text.startswith(b"purge") else b""
        expect_ended(ended, 1 if fault else 0, fault, b"" if fault else wanted)


def feed(pipe, piece):
    """Writes the piece into the pipe until nobody reads any more."""
    try:
        while True:
            os.write(pipe, piece)
    except BrokenPipeError:
        os.close(pipe)


def reads_an_endless_text(bench, piece, fault):
    """A text without end is refused once as much was read as a trace can have."""
    source, pipe = os.pipe()
    start = time.monotonic()
    process = bench.program.start(devices=(source, None, None), limits=LIMITS)
    os.close(source)
    writer = threading.Thread(target=feed, args=(pipe, piece))
    writer.start()
    ended = bench.program.wait(process, 20)
    writer.join()
    expect_soon(start)
    expect_ended(ended, 1, fault, b"")


def tests():
    yield Test("each beginning of a trace with all commands is read", reads_each_beginning, (ALL_COMMANDS,))
    for name, _, rows in rows_of("names.rows"):
        trace = "".join(f"{command}\n" for command, _ in rows).encode()
        yield Test(f"each beginning is read where {name}", reads_each_beginning, (trace,))
    for piece in range(PIECES):
        yield Test(f"malformed texts are read, part {piece + 1} of {PIECES}", reads_malformed_texts, (piece,))
    yield Test("the longest text is read, and a longer one refused", reads_the_longest_text)
    for name, piece, fault in (("comments", b"#\n", b"metarun: line 100001: TooManyLines\n"),
                               ("one line", b"#", b"metarun: line 1: LineTooLong\n"),
                               ("commands", b"purge\n", b"metarun: line 100001: TooManyLines\n")):
        yield Test(f"an endless text is refused: {name}", reads_an_endless_text, (piece * 8192, fault))
