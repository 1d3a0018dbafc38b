"""The released program: ./metarun answers from it at once where it fits, and says which of its faults a release has.

The tree of these tests has the scripts, a source for each released crate, and the built program as its release.
"""
import io
import os
import resource
import shutil
import subprocess
import tarfile
import tempfile

from claims import Skipped, Test, expect, first_difference
from workbench import ROOT, tools

FILES = {"metarun": "metarun", "metalog": "metalog", "libms_c.a": "ms_c"}
TRACE = os.path.join(ROOT, "examples", "two.trace")
ANSWER = os.path.join(ROOT, "examples", "two.out")


class Tree:
    """A small repository with the scripts as they are, whose release has the built program under each name."""

    def __init__(self, bench):
        if not shutil.which("xz"):
            raise Skipped("xz")
        self.bench = bench
        self.top = tempfile.mkdtemp(dir=bench.room)
        os.mkdir(self.path("release"))
        for name in ("metarun", os.path.join("release", "releasing.sh")):
            shutil.copy(os.path.join(ROOT, name), self.path(name))
        os.symlink("metarun", self.path("metalog"))
        for crate in FILES.values():
            self.write(os.path.join("crates", crate, "src", "main.rt"), crate.encode())
        self.write("crates.txt", b"metarun:\nmetalog:\nms_c staticlib:\n")
        made = self.bash("sum_released && release_all")
        expect(made.returncode == 0, made.stderr)

    def path(self, name):
        """The path of one of its files."""
        return os.path.join(self.top, name)

    def write(self, name, data):
        """Writes one of its files."""
        os.makedirs(os.path.dirname(self.path(name)), exist_ok=True)
        with open(self.path(name), "wb") as file:
            file.write(data)

    def read(self, name):
        """Reads one of its files."""
        with open(self.path(name), "rb") as file:
            return file.read()

    def built(self):
        """The bytes of the built program."""
        with open(self.bench.program.path, "rb") as file:
            return file.read()

    def pack(self, **programs):
        """Packs programs, whose names and bytes are given, and leaves release/sums as it is."""
        packed = io.BytesIO()
        with tarfile.open(fileobj=packed, mode="w:xz") as archive:
            for name, data in programs.items():
                member = tarfile.TarInfo(name)
                member.size = len(data)
                archive.addfile(member, io.BytesIO(data))
        self.write("release/programs.tar.xz", packed.getvalue())

    def bash(self, command):
        """Runs a command over the functions of the release, with the built program under each name; no toolchain is asked but for its line."""
        program = self.bench.program.path
        built = " ".join(f"[{file}]={program}" for file in FILES)
        script = f"here={self.top}; declare -A built_as=({built}); rt() {{ echo a toolchain; }}; source {self.path('release/releasing.sh')}; {command}"
        return subprocess.run(["bash", "-c", script], capture_output=True, text=True, timeout=60)

    def run(self, *without, name="metarun"):
        """Runs a script over the example, without the toolchain."""
        with open(TRACE, "rb") as trace:
            return subprocess.run([self.path(name)], stdin=trace, capture_output=True, timeout=60,
                                  env={"PATH": tools(self.bench, *without)})

    def expect_refused(self, text, refused=1):
        """Fails the test where the script and the comparison don't both say this of the release, in which so many files don't fit."""
        shutil.rmtree(self.path("crates/metarun/out"), ignore_errors=True)
        ended = self.run()
        expect(ended.returncode == 127 and ended.stdout == b"", ended)
        expect(text in ended.stderr.decode(), text, ended.stderr)
        compared = self.bash("sum_released; compare_release")
        expect(compared.returncode == 1 and f"FAILED: {text}" in compared.stdout, text, compared.stdout)
        expect("run ./check --release, and commit release/" in compared.stdout, compared.stdout)
        expect(compared.stdout.endswith(f"{3 - refused} passed, {refused} failed\n"), compared.stdout)


def answer():
    """What the example is answered."""
    with open(ANSWER, "rb") as file:
        return file.read()


def spent():
    """The processor seconds of all that this process has run and waited for."""
    used = resource.getrusage(resource.RUSAGE_CHILDREN)
    return used.ru_utime + used.ru_stime


def answers_at_once(bench):
    """The first call and the second write the example's answer within two processor seconds, and nothing on standard error."""
    tree, took = Tree(bench), []
    for name in ("metarun", "metarun", "metalog"):
        start = spent()
        ended = tree.run(name=name)
        took.append(spent() - start)
        expect(ended.returncode == 0 and ended.stderr == b"", ended.stderr)
        expect(ended.stdout == answer(), first_difference(ended.stdout, answer()))
    expect(max(took) < 2, took)
    compared = tree.bash("sum_released; compare_release")
    expect(compared.returncode == 0 and compared.stdout.endswith("3 passed, 0 failed\n"), compared.stdout)
    return f"{took[0]:.2f} and {took[1]:.2f} processor seconds"


def is_unpacked_by_python(bench):
    """Where xz is missing python3 unpacks it; where both are missing the script says so."""
    tree = Tree(bench)
    ended = tree.run("xz")
    expect(ended.returncode == 0 and ended.stdout == answer(), ended)
    shutil.rmtree(tree.path("crates/metarun/out"))
    ended = tree.run("xz", "python3")
    expect(ended.returncode == 127 and b"neither xz nor python3 is on PATH" in ended.stderr, ended.stderr)


def tells_a_flipped_byte(bench):
    """One byte flipped, at each of ten places of what both programs are packed in, and in the program before that."""
    tree = Tree(bench)
    whole = tree.read("release/programs.tar.xz")
    for at in [len(whole) * tenth // 10 for tenth in range(10)]:
        tree.write("release/programs.tar.xz", whole[:at] + bytes([whole[at] ^ 1]) + whole[at + 1:])
        tree.expect_refused("metarun of release/ is damaged", refused=2)
    program = bytearray(tree.built())
    program[len(program) // 2] ^= 1
    tree.pack(metarun=bytes(program), metalog=tree.built())
    tree.expect_refused("metarun of release/ is damaged")


def tells_another_tree(bench):
    """One byte of a source changed, and a source more."""
    tree = Tree(bench)
    tree.write("crates/metarun/src/main.rt", b"metaruN")
    tree.expect_refused("metarun of release/ was proved from other sources")
    tree.write("crates/metarun/src/main.rt", b"metarun")
    tree.write("crates/metarun/specs/More.antt", b"")
    tree.expect_refused("metarun of release/ was proved from other sources")


def tells_a_missing_release(bench):
    """No file, no line, and neither."""
    tree = Tree(bench)
    lines = tree.read("release/sums").splitlines(keepends=True)
    tree.write("release/sums", b"".join(line for line in lines if not line.startswith(b"metarun ")))
    tree.expect_refused("release/ has no metarun")
    tree.pack(metalog=tree.built())
    tree.expect_refused("release/ has no metarun")
    tree.write("release/sums", b"".join(lines))
    tree.expect_refused("release/ has no metarun")
    os.remove(tree.path("release/programs.tar.xz"))
    tree.expect_refused("release/ has no metarun", refused=2)


def tells_a_foreign_program(bench):
    """A release whose sums fit each other and the sources, of a program that the proof doesn't give."""
    tree = Tree(bench)
    tree.write("other", b"another program")
    made = tree.bash(f"sum_released; built=${{built_as[metarun]}} built_as[metarun]={tree.path('other')}; release_all; "
                     "built_as[metarun]=$built; compare_release")
    expect(made.returncode == 1 and "metarun of release/ has other bytes than what was proved here" in made.stdout, made.stdout)


def tests():
    yield Test("release: the first call answers within two seconds", answers_at_once)
    yield Test("release: xz or python3 unpacks it", is_unpacked_by_python)
    yield Test("release: a flipped byte is found", tells_a_flipped_byte)
    yield Test("release: another tree is told", tells_another_tree)
    yield Test("release: a missing one is told", tells_a_missing_release)
    yield Test("release: a foreign program is told", tells_a_foreign_program)
