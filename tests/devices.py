"""Devices that are closed, full, of the wrong kind, or fail after some bytes: statuses, and what went out before."""
import fcntl
import os
import socket
import threading

from claims import Test, expect, expect_ended
from grammar import fault_of
from program import CLOSED

INPUT_FAILED = b"metarun: input failed\n"
OUTPUT_FAILED = b"metarun: output failed\n"
TRACE = b"new 1 standard\nalloc 1 1 10\nreport\n"
REPORTS = b"new 1 standard\n" + b"".join(b"alloc 1 %d 10\nreport\n" % block for block in range(12))
LONG = b"# a long comment\n" * 1500 + TRACE
FAULTY = b"new 1 app\n"
PIPE_BYTES = 4096
# words that ask for a text alone
TEXTS = ("--help", "--version")
# words, text and input of runs that end in each way
ENDINGS = (
    ([], TRACE, None),
    ([], FAULTY, None),
    (["--granules"], TRACE, None),
    (["--help"], b"", None),
    (["--addresses", "--workers", "2"], TRACE, None),
    ([], TRACE, CLOSED),
)


def whole_of(bench, text):
    """What the program writes for a text while all devices are well."""
    ended = bench.run((), text)
    expect_ended(ended, 0)
    return ended.output


def input_is_no_text(bench):
    """The input is closed, a directory, or open for writing alone; help, version and a refused line read nothing."""
    folder = os.open("/", os.O_RDONLY)
    null = os.open("/dev/null", os.O_WRONLY)
    for device in (CLOSED, folder, null):
        for words in ([], ["--addresses"]):
            expect_ended(bench.run(words, devices=(device, None, None)), 5, INPUT_FAILED, b"")
        for word in TEXTS:
            ended = bench.run([word], devices=(device, None, None))
            expect(ended.status == 0 and ended.output and not ended.errors, ended)
        ended = bench.run(["--granules"], devices=(device, None, None))
        expect(ended.status == 2 and ended.errors and not ended.output, ended)
    os.close(folder)
    os.close(null)


def input_fails_in_the_midst(bench):
    """The first, the second, .. read fails, until none does, also behind a line that has a fault."""
    for text in (LONG, FAULTY + LONG):
        wanted = bench.run((), text)
        for number in range(1, 100):
            ended = bench.run_with("devices", {"READ_FAILS": number}, (), text)
            if ended.status != 5:
                break
            expect_ended(ended, 5, INPUT_FAILED, b"")
        expect(3 < number < 99, "so many reads failed", number - 1)
        expect(ended[:3] == wanted[:3], ended, wanted)


def input_fails_after_bytes(bench):
    """The read of the first, the second, .. byte fails, or the one behind the last, also behind a faulty line."""
    for text in (b"x" * 10, FAULTY):
        for number in range(1, len(text) + 2):
            ended = bench.run_with("devices", {"READ_MOST": 1, "READ_FAILS": number}, (), text)
            expect_ended(ended, 5, INPUT_FAILED, b"")


def input_comes_in_pieces(bench):
    """A read gives one byte, seven, or as many as a piece less one; or it is interrupted."""
    for text in (TRACE, REPORTS, FAULTY, b""):
        wanted = bench.run((), text)
        for most in (1, 7, 8191):
            ended = bench.run_with("devices", {"READ_MOST": most}, (), text)
            expect(ended[:3] == wanted[:3], ended, wanted)
        for number in (1, 2):
            ended = bench.run_with("devices", {"READ_BREAKS": number}, (), text)
            expect(ended[:3] in (wanted[:3], (5, b"", INPUT_FAILED)), ended)


def input_is_reset(bench):
    """The other end of a socket goes with unread bytes, which is an error behind the bytes that it sent."""
    for sent in (b"", TRACE[:1], TRACE):
        own, other = socket.socketpair()
        own.sendall(b"unread")
        process = bench.program.start(devices=(own.fileno(), None, None))
        own.close()
        other.sendall(sent)
        other.close()
        expect_ended(bench.program.wait(process), 5, INPUT_FAILED, b"")


def output_takes_nothing(bench):
    """The output is closed, full, open for reading alone, or a pipe that nobody reads: but no bytes need no device."""
    full = os.open("/dev/full", os.O_WRONLY)
    null = os.open("/dev/null", os.O_RDONLY)
    source, unread = os.pipe()
    os.close(source)
    for device in (CLOSED, full, null, unread):
        devices = (None, device, None)
        expect_ended(bench.run((), TRACE, devices=devices), 5, OUTPUT_FAILED)
        for word in TEXTS:
            expect_ended(bench.run([word], TRACE, devices=devices), 5, OUTPUT_FAILED)
        expect_ended(bench.run((), b"# nothing is answered\n", devices=devices), 0)
        expect_ended(bench.run((), FAULTY, devices=devices), 1, fault_of(FAULTY))
    for device in (full, null, unread):
        os.close(device)


def output_fails_in_the_midst(bench):
    """The first, the second, .. write of seven bytes, or of one, fails or takes nothing: a beginning went out."""
    for text, most in ((TRACE, 7), (b"new 1 standard\n", 1)):
        whole = whole_of(bench, text)
        count = -(-len(whole) // most)
        for rule in ("WRITE_FAILS", "WRITE_STOPS"):
            for number in range(1, count + 1):
                ended = bench.run_with("devices", {"WRITE_MOST": most, rule: number}, (), text)
                expect_ended(ended, 5, OUTPUT_FAILED, whole[:most * (number - 1)])
            ended = bench.run_with("devices", {"WRITE_MOST": most, rule: count + 1}, (), text)
            expect_ended(ended, 0, b"", whole)


def output_takes_pieces(bench):
    """A write takes one byte, seven, or 4096; or it is interrupted."""
    for text in (TRACE, REPORTS):
        whole = whole_of(bench, text)
        for most in (1, 7, 4096):
            expect_ended(bench.run_with("devices", {"WRITE_MOST": most}, (), text), 0, b"", whole)
        for number in (1, 2):
            ended = bench.run_with("devices", {"WRITE_BREAKS": number, "WRITE_MOST": 100}, (), text)
            begun = whole[:100 * (number - 1)]
            expect(ended[:3] in ((0, whole, b""), (5, begun, OUTPUT_FAILED)), ended)


def start_into_pipe(bench, text):
    """Starts a run whose output is a pipe of the least size, and gives the pipe's end to be read."""
    source, pipe = os.pipe()
    fcntl.fcntl(pipe, fcntl.F_SETPIPE_SZ, PIPE_BYTES)
    process = bench.program.start((), text, (None, pipe, None))
    os.close(pipe)
    return process, source


def read_bytes(source, count, at_a_time):
    """Reads so many bytes, or all where there are fewer."""
    found = b""
    while len(found) < count:
        piece = os.read(source, min(at_a_time, count - len(found)))
        if not piece:
            break
        found += piece
    return found


def reader_goes(bench, counts):
    """A pipe's reader goes after so many bytes of an output that the pipe doesn't hold."""
    whole = whole_of(bench, REPORTS)
    expect(len(whole) > 2 * PIPE_BYTES, "the output is short", len(whole))
    for count in counts:
        process, source = start_into_pipe(bench, REPORTS)
        found = read_bytes(source, count, count)
        os.close(source)
        expect_ended(bench.program.wait(process), 5, OUTPUT_FAILED)
        expect(found == whole[:count], "another beginning went out", found)


def reader_takes_one_byte_at_a_time(bench):
    """A pipe's reader takes single bytes, and gets the whole text."""
    for text in (TRACE, REPORTS):
        process, source = start_into_pipe(bench, text)
        found = read_bytes(source, 1 << 30, 1)
        os.close(source)
        expect_ended(bench.program.wait(process), 0)
        expect(found == whole_of(bench, text), "another text went out", found)


def errors_take_nothing(bench):
    """Standard error is closed, full or unread: no status changes, nor what stands on standard output."""
    full = os.open("/dev/full", os.O_WRONLY)
    source, unread = os.pipe()
    os.close(source)
    for device in (CLOSED, full, unread):
        for words, text, own in ENDINGS:
            wanted = bench.run(words, text, devices=(own, None, None))
            ended = bench.run(words, text, devices=(own, None, device))
            expect(ended[:2] == wanted[:2], ended, wanted)
        expect_ended(bench.run((), TRACE, devices=(None, full, device)), 5)
    expect_ended(bench.run((), TRACE, devices=(CLOSED, CLOSED, CLOSED)), 5)
    os.close(full)
    os.close(unread)


def both_ends_are_slow(bench):
    """The input comes through a pipe byte by byte while the output is read byte by byte."""
    own, other = os.pipe()
    source, pipe = os.pipe()
    process = bench.program.start(devices=(own, pipe, None))
    os.close(own)
    os.close(pipe)
    writer = threading.Thread(target=write_slowly, args=(other,))
    writer.start()
    found = read_bytes(source, 1 << 30, 1)
    writer.join()
    os.close(source)
    expect_ended(bench.program.wait(process), 0)
    expect(found == whole_of(bench, TRACE), "another text went out", found)


def write_slowly(pipe):
    for byte in TRACE:
        os.write(pipe, bytes([byte]))
    os.close(pipe)


def tests():
    yield Test("an input that is no text fails", input_is_no_text)
    yield Test("an input fails in the midst", input_fails_in_the_midst)
    yield Test("an input fails after no byte, after one, ..", input_fails_after_bytes)
    yield Test("an input comes in pieces", input_comes_in_pieces)
    yield Test("an input is reset by the other end", input_is_reset)
    yield Test("an output that takes nothing fails", output_takes_nothing)
    yield Test("an output fails in the midst", output_fails_in_the_midst)
    yield Test("an output takes pieces", output_takes_pieces)
    yield Test("an output's reader goes after the first, the second, .. byte", reader_goes, (range(1, 129),))
    yield Test("an output's reader goes about a pipe's size", reader_goes, (range(PIPE_BYTES - 64, PIPE_BYTES + 64),))
    yield Test("an output's reader takes one byte at a time", reader_takes_one_byte_at_a_time)
    yield Test("an error output that takes nothing changes no status", errors_take_nothing)
    yield Test("input and output pass byte by byte", both_ends_are_slow)
