"""What a test works with: the built program, and small C programs and libraries built for it once."""
import os
import shutil
import subprocess
import sys
import tempfile

from program import Program

FOLDER = os.path.dirname(os.path.abspath(__file__))
ROOT = os.path.dirname(FOLDER)


class Workbench:
    """The built program, and the folder that has what was built beside it."""

    def __init__(self, program, room):
        self.program = Program(program)
        self.room = room

    def built(self, name):
        """The path of a C file's program or library, built before the tests began."""
        return os.path.join(self.room, name)

    def run(self, words=(), given=b"", **how):
        """Runs the program over a text."""
        return self.program.run(words, given, **how)

    def run_with(self, library, settings, words=(), given=b"", **how):
        """Runs the program over a text with a preloaded library and its settings."""
        environment = {"LD_PRELOAD": self.built(library), **{name: str(value) for name, value in settings.items()}}
        return self.program.run(words, given, environment=environment, **how)


def compiler():
    """The C compiler's words: cc or gcc, else the toolchain's own."""
    for name in ("cc", "gcc"):
        if shutil.which(name):
            return [name]
    page = subprocess.run(["rt", "doc"], capture_output=True, text=True, check=True).stdout.strip()
    tools = os.path.join(os.path.dirname(page), "toolchain", "bin")
    return [os.path.join(tools, "clang"), f"-fuse-ld={os.path.join(tools, 'ld.lld')}"]


def build(room):
    """Builds the C files: each is a library to be preloaded, which calls the C library that it is loaded beside."""
    how = ["-O2", "-shared", "-fPIC", "-nostdlib", "-fno-builtin"]
    for name in ("refuse", "devices", "colliding"):
        words = [*compiler(), *how, "-o", os.path.join(room, name), os.path.join(FOLDER, "c", f"{name}.c")]
        subprocess.run(words, check=True)


def tools(bench, *without):
    """A folder to be a PATH, with a link to each tool of the system but those without, and no toolchain."""
    folder = tempfile.mkdtemp(dir=bench.room)
    for place in ("/bin", "/usr/bin"):
        for name in os.listdir(place):
            if name not in (*without, "rt") and not os.path.lexists(os.path.join(folder, name)):
                os.symlink(os.path.join(place, name), os.path.join(folder, name))
    if "python3" not in without and not os.path.lexists(os.path.join(folder, "python3")):
        os.symlink(sys.executable, os.path.join(folder, "python3"))
    return folder
