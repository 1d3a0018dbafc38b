"""The twin of bench/twin, an unproved program in Rust with the same rules: with one worker both write the same."""
import glob
import os
import random
import shutil
import subprocess

from claims import Skipped, Test, expect, first_difference
from program import Program
from workbench import ROOT

TWIN = os.path.join(ROOT, "bench", "twin")
TRACES = 200
LINES = 1500
CHANGES = 20
ONE_SPOILT_OF = 5
SEED = 20261124
KINDS = ("standard", "boot", "reflection", "hidden")


def built(bench):
    """Builds the twin, where there is a compiler for it."""
    if not shutil.which("cargo") or not shutil.which("rustc"):
        raise Skipped("cargo and rustc")
    room = bench.built("twin")
    words = ["cargo", "build", "--quiet", "--release", "--offline", "--target-dir", room]
    made = subprocess.run(words, cwd=TWIN, capture_output=True, text=True)
    expect(made.returncode == 0, made.stderr)
    return Program(os.path.join(room, "release", "twin"))


def expect_same(bench, twin, options, text):
    """Fails the test where the two end otherwise, or write other bytes."""
    one, other = bench.run(options, text), twin.run(options, text)
    expect(one.output == other.output, options, first_difference(other.output, one.output))
    expect((one.status, one.errors) == (other.status, other.errors), options, one[:3], other[:3])
    return one


def options_by_chance(chance):
    """Options by chance: small limits more often than large ones."""
    words = ["--policy", chance.choice(("balanced", "aggressive", "none"))]
    words += ["--max-granules", str(chance.choice((1, 3, 20, 150, 600, 8192, 40960)))]
    words += ["--nodes", str(chance.choice((1, 2, 3, 64))), "--class-nodes", str(chance.choice((0, 1, 2, 16)))]
    return words + ["--addresses"] * chance.randrange(2)


def command(chance):
    """A command by chance, over few names, with numbers of all lengths."""
    loader, block = chance.randrange(12), chance.choice((chance.randrange(20), chance.getrandbits(32)))
    words = chance.getrandbits(chance.choice((3, 6, 6, 9, 12, 15, 19, 20)))
    index, value = chance.getrandbits(chance.choice((0, 2, 5, 12))), chance.getrandbits(chance.choice((1, 27, 64)))
    shapes = {f"new {loader} {chance.choice(KINDS)}": 6, f"alloc {loader} {block} {words}": 40,
              f"calloc {loader} {block} {words}": 15, f"free {loader} {chance.randrange(20)}": 15,
              f"write {loader} {chance.randrange(20)} {index} {value}": 10, "# a comment": 1, "": 1,
              f"read {loader} {chance.randrange(20)} {index}": 10, f"unload {loader}": 2,
              "purge": 1, "sync": 1, "report": 1}
    return chance.choices(list(shapes), shapes.values())[0]


def changed_digit(chance, line):
    """The line with one digit other than 0 made less, or left: no number becomes too large, and none begins with 0."""
    places = [place for place, byte in enumerate(line) if b"1"[0] <= byte <= b"9"[0]]
    if not places:
        return line
    place = chance.choice(places)
    return line[:place] + b"%d" % chance.randint(1, int(line[place:place + 1])) + line[place + 1:]


def changed(chance, text):
    """The text with lines left out, doubled and exchanged, and with digits changed: none of this is a fault."""
    lines = text.split(b"\n")[:-1]
    for _ in range(CHANGES):
        place, other = chance.randrange(len(lines)), chance.randrange(len(lines))
        match chance.randrange(4):
            case 0:
                del lines[place]
            case 1:
                lines.insert(other, lines[place])
            case 2:
                lines[place], lines[other] = lines[other], lines[place]
            case _:
                lines[place] = changed_digit(chance, lines[place])
    return b"".join(line + b"\n" for line in lines)


def spoilt(chance, text):
    """The text with a byte changed, put in or left out."""
    place = chance.randrange(len(text))
    return text[:place] + chance.choice((b"", b" ", b"0", b"\n", b"x", b"9" * 20)) + text[place + chance.randrange(2):]


def examples_are_answered_the_same(bench):
    """Each trace of examples/, of examples/reports/ and of tests/worked/, with and without addresses."""
    twin = built(bench)
    folders = ("examples", os.path.join("examples", "reports"), os.path.join("tests", "worked"))
    names = [name for folder in folders for name in glob.glob(os.path.join(ROOT, folder, "*.trace"))]
    expect(names, "there are no traces")
    for name in names:
        with open(name, "rb") as file:
            text = file.read()
        for options in ([], ["--addresses", "--class-nodes", "2"], ["--policy", "none"], ["--policy=aggressive"]):
            expect_same(bench, twin, options, text)
    return f"{len(names)} traces"


def random_traces_are_answered_the_same(bench):
    """Random traces with options by chance: each as it is and with changes, and one of five with a byte spoilt.

    At most one of five may end at a fault, since then nothing runs.
    """
    twin, chance, runs, faulty = built(bench), random.Random(SEED), 0, 0
    for number in range(TRACES):
        options = options_by_chance(chance)
        text = "".join(f"{command(chance)}\n" for _ in range(LINES)).encode()
        texts = [text, changed(chance, text)] + [spoilt(chance, text)] * (number % ONE_SPOILT_OF == 0)
        statuses = [expect_same(bench, twin, options, text).status for text in texts]
        expect(statuses[:2] == [0, 0], "the trace has a fault")
        runs, faulty = runs + len(texts), faulty + statuses.count(1)
    expect(0 < 5 * faulty <= TRACES, "of", runs, "runs so many end at a fault:", faulty)
    return f"{runs} runs, {faulty} of them with a fault"


def tests():
    yield Test("twin: answers each example the same", examples_are_answered_the_same)
    yield Test(f"twin: answers {TRACES} random traces the same", random_traces_are_answered_the_same)
