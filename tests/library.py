"""The library for C, linked as users link it: the examples of examples/c and examples/rust, and growths refused.

What is proved ends where C begins, so these tests show that the header fits the exports, that the account is the
operating system's, and that memory goes back.
"""
import os
import re
import shutil
import subprocess
import tempfile

from claims import Skipped, Test, expect, first_difference
from workbench import FOLDER, ROOT, compiler, tools

EXAMPLES = os.path.join(ROOT, "examples", "c")
OUT = os.path.join(ROOT, "crates", "ms_c", "out")
ARCHIVE = os.path.join(OUT, "libms_c.a")
PREFIX = "nizgrabul_"
WRAPPED = "-Wl,--wrap=malloc,--wrap=realloc,--wrap=free"
SOURCES = os.path.join(ROOT, "crates", "ms_c", "src")
MARKS = ("///", "/*", "*", "*/")
# What a copy of the example has.
COPIED = ("Makefile", "CMakeLists.txt", "nizgrabul.h", "nizgrabul.pc", "nizgrabul-config.cmake",
          "nizgrabul-config-version.cmake", "calls.c", "runtime.c", "threads.c")
# Variables of the environment that would have the Makefile do otherwise.
OF_MAKE = ("LIBRARY", "TOOLCHAIN", "MAKEFLAGS", "MAKELEVEL")
# A call of the header, one with its comment, and an export with its docs.
CALL = re.compile(r"^\w+ (nizgrabul_\w+)\(", re.MULTILINE)
COMMENTED = re.compile(r"(/\*(?:(?!\*/).)*\*/)\n\w+ (nizgrabul_\w+)\(", re.DOTALL)
EXPORT = re.compile(r"((?:^///.*\n)+)#\[unsafe\(no_mangle\)\]\npub extern \"C\" fn (\w+)", re.MULTILINE)


def toolchain():
    """The toolchain's folder."""
    page = subprocess.run(["rt", "doc"], capture_output=True, text=True, check=True).stdout.strip()
    return os.path.dirname(page)


def linked(bench, folder, name, *more):
    """Builds a C program over the library, and gives its path."""
    expect(os.path.exists(ARCHIVE), "there is no archive of the library")
    program = bench.built(f"library_{name}")
    how = ["-std=c11", "-O2", "-Wall", "-Wextra", "-Werror", f"-I{EXAMPLES}", *more]
    heap = os.path.join(toolchain(), "c", "liblibc_c.a")
    words = [*compiler(), *how, "-o", program, os.path.join(folder, f"{name}.c"), ARCHIVE, heap]
    made = subprocess.run(words, capture_output=True, text=True)
    expect(made.returncode == 0, made.stderr)
    return program


def printed(words, **how):
    """What a program prints that ends well."""
    ended = subprocess.run(words, capture_output=True, timeout=300, **how)
    expect(ended.returncode == 0, f"status {ended.returncode}", ended.stderr, ended.stdout)
    return ended.stdout


def expect_calls_answered(program):
    """Fails the test where the example's calls are answered otherwise than by hand."""
    found = printed([program])
    with open(os.path.join(EXAMPLES, "calls.out"), "rb") as file:
        wanted = file.read()
    expect(found == wanted, first_difference(found, wanted))


def answers_each_call(bench):
    """Each call's answer and numbers, worked by hand."""
    expect_calls_answered(linked(bench, EXAMPLES, "calls"))


def example_tree(bench, name):
    """A copy of the example, with the archive released beside it as in the repository; its folder."""
    for tool in ("make", "xz"):
        if not shutil.which(tool):
            raise Skipped(tool)
    expect(os.path.exists(ARCHIVE), "there is no archive of the library")
    copy = bench.built(name)
    folder, release = os.path.join(copy, "examples", "c"), os.path.join(copy, "release")
    for place in (folder, release):
        os.makedirs(place)
    for file in COPIED:
        shutil.copy(os.path.join(EXAMPLES, file), folder)
    with open(os.path.join(release, "libms_c.a.xz"), "wb") as file:
        file.write(printed(["xz", "-c", ARCHIVE]))
    return folder


def is_made_by_its_makefile(bench):
    """The programs are built by `make` alone, over the released library, in a copy whose folders lie to each other as here."""
    folder = example_tree(bench, "library_make")
    others = {name: word for name, word in os.environ.items() if name not in OF_MAKE}
    printed(["make", "-C", folder], env={**others, "CC": " ".join(compiler()), "CFLAGS": "-Werror"})
    expect_calls_answered(os.path.join(folder, "calls"))
    printed([os.path.join(folder, "runtime")])
    expect_threads_served([os.path.join(folder, "threads")])


def is_found_by_pkg_config(bench):
    """Installed in a folder of its own, the library is found there by pkg-config, and a program is built by what that says."""
    if not shutil.which("pkg-config"):
        raise Skipped("pkg-config")
    folder = example_tree(bench, "library_install")
    others = {name: word for name, word in os.environ.items() if name not in OF_MAKE}
    prefix = os.path.join(folder, "installed")
    printed(["make", "-C", folder, "install", f"PREFIX={prefix}"], env=others)
    found = {**others, "PKG_CONFIG_PATH": os.path.join(prefix, "lib", "pkgconfig")}
    words = printed(["pkg-config", "--cflags", "--libs", "nizgrabul"], env=found).decode().split()
    version = printed(["pkg-config", "--modversion", "nizgrabul"], env=found).decode().strip()
    expect(f"#define NIZGRABUL_VERSION {version}\n" in header(), "the header has another version than", version)
    program = os.path.join(folder, "installed_calls")
    printed([*compiler(), "-o", program, os.path.join(folder, "calls.c"), *words])
    expect_calls_answered(program)


FOR_CMAKE = """cmake_minimum_required(VERSION 3.13)
project(program LANGUAGES C)
if(ADDED)
  add_subdirectory("${{ADDED}}" nizgrabul)
else()
  find_package(nizgrabul {version} EXACT REQUIRED)
endif()
add_executable(program "{folder}/calls.c")
target_link_libraries(program nizgrabul::nizgrabul)
"""


def is_found_by_cmake(bench):
    """CMake finds it installed, by its version alone, or adds the example's folder; a program is built by its target."""
    if not shutil.which("cmake"):
        raise Skipped("cmake")
    folder = example_tree(bench, "library_cmake")
    others = {name: word for name, word in os.environ.items() if name not in OF_MAKE}
    prefix, source = os.path.join(folder, "installed"), os.path.join(folder, "program")
    printed(["make", "-C", folder, "install", f"PREFIX={prefix}"], env=others)
    os.makedirs(source)
    version = int(re.search(r"#define NIZGRABUL_VERSION (\d+)\n", header())[1])
    for wanted, setting, finds in ((version, f"CMAKE_PREFIX_PATH={prefix}", True), (version, f"ADDED={folder}", True),
                                   (version - 1, f"CMAKE_PREFIX_PATH={prefix}", False)):
        with open(os.path.join(source, "CMakeLists.txt"), "w", encoding="ascii") as file:
            file.write(FOR_CMAKE.format(version=wanted, folder=folder))
        room = tempfile.mkdtemp(dir=folder)
        how = ["cmake", "-S", source, "-B", room, f"-D{setting}", f"-DCMAKE_C_COMPILER={compiler()[0]}"]
        made = subprocess.run(how, capture_output=True, env=others)
        expect((made.returncode == 0) == finds, made.stdout, made.stderr)
        if finds:
            printed(["cmake", "--build", room], env=others)
            expect_calls_answered(os.path.join(room, "program"))


def makefile_says_what_is_missing(bench):
    """A line says which tool is missing: the C compiler, the toolchain, or what unpacks the library."""
    folder = example_tree(bench, "library_missing")
    others = {name: word for name, word in os.environ.items() if name not in OF_MAKE}
    for without, settings, text in (
            ((), ["CC=no_such_compiler"], b"a C compiler is missing: no_such_compiler\n"),
            (("rt",), [], b"the Rattle toolchain is missing: rt is not on PATH\n"),
            (("xz", "python3"), [], b"xz and python3 are missing, one of which unpacks ../../release/libms_c.a.xz\n")):
        path = {"PATH": tools(bench, *without)} if without else {}
        made = subprocess.run(["make", "-C", folder, *settings], env={**others, **path}, capture_output=True)
        expect(made.returncode != 0 and text in made.stderr, text, made.stderr)
        subprocess.run(["make", "-C", folder, "clean"], env=others, capture_output=True, check=True)


def commits_real_memory(bench):
    """Words of committed granules are written and read back, and words of all others fault."""
    return printed([linked(bench, EXAMPLES, "runtime")]).decode().strip().replace("\n", "; ")


def answers_each_seat(bench):
    """Each call of a seat and each of its statuses, worked by hand, with each growth refused in turn."""
    return printed([linked(bench, os.path.join(FOLDER, "c"), "seats", WRAPPED)]).decode().strip()


SERVED = "{} threads, 64 loaders: each word is as it was written\nall loaders went, and no granule is left\n"


def expect_threads_served(words, threads=4):
    """Fails the test where a run of the example with threads prints otherwise."""
    found = printed(words)
    expect(found.decode() == SERVED.format(threads), found)


def serves_threads(bench):
    """Eight threads have 64 loaders that come, allocate, go and move, over one pool."""
    program = linked(bench, EXAMPLES, "threads", "-pthread")
    expect_threads_served([program, "8", "100000"], 8)


def sanitized(bench, which):
    """The same under one of the compiler's sanitizers, which finds nothing."""
    flag = f"-fsanitize={which}"
    probe = [*compiler(), flag, "-o", bench.built(f"library_{which}"), "-x", "c", "-"]
    if subprocess.run(probe, input=b"int main(void) { return 0; }", capture_output=True).returncode != 0:
        raise Skipped(f"a C compiler with {flag}")
    program = linked(bench, EXAMPLES, "threads", "-pthread", "-g", flag)
    expect_threads_served([program, "8", "10000"], 8)


def gives_all_memory_back(bench):
    """Each growth is refused in turn."""
    return printed([linked(bench, os.path.join(FOLDER, "c"), "wanting", WRAPPED)]).decode().strip()


def tells_whose_each_word_is(bench):
    """With 1,000 loaders, while a third of them is gone, and once others have come under their numbers."""
    return printed([linked(bench, os.path.join(FOLDER, "c"), "holders"), "1000"]).decode().strip()


CPP = """#include "nizgrabul.h"
int main() {
    nizgrabul_handle handle = {};
    nizgrabul_options options = {};
    nizgrabul_run run = {};
    options.nodes = 1;
    options.max_granules = 1;
    if (nizgrabul_version() != NIZGRABUL_VERSION || nizgrabul_new(&options, &handle) != NIZGRABUL_DONE) return 1;
    if (nizgrabul_new_loader(&handle, 1, NIZGRABUL_STANDARD).status != NIZGRABUL_DONE) return 2;
    if (nizgrabul_alloc_with_run(&handle, 1, 1, 10, &run).status != NIZGRABUL_DONE || run.granules != 1) return 3;
    nizgrabul_delete(&handle);
}
"""


def fits_a_cpp_program(bench):
    """The header is read by a C++ compiler, where there is one, and a C++ program is linked and runs."""
    made = next((name for name in ("c++", "g++") if shutil.which(name)), None)
    if not made:
        raise Skipped("a C++ compiler")
    program, heap = bench.built("library_cpp"), os.path.join(toolchain(), "c", "liblibc_c.a")
    how = ["-std=c++11", "-Wall", "-Wextra", "-Werror", f"-I{EXAMPLES}", "-o", program]
    printed([made, *how, "-x", "c++", "-", "-x", "none", ARCHIVE, heap], input=CPP.encode())
    printed([program])


def header():
    """The text of the header."""
    with open(os.path.join(EXAMPLES, "nizgrabul.h"), encoding="utf-8") as file:
        return file.read()


def exports_are_the_headers(bench):
    """The archive's own exports are the header's calls, and no name without the prefix is among them."""
    listed = printed([shutil.which("nm") or os.path.join(toolchain(), "toolchain", "bin", "llvm-nm"), "-g", ARCHIVE])
    names = {line.split()[-1] for line in listed.decode().splitlines() if len(line.split()) == 3}
    expect(all(name.startswith(PREFIX) for name in names), sorted(names))
    calls = set(CALL.findall(header()))
    expect(names == calls, "in one of header and archive alone", sorted(names ^ calls))
    return f"{len(names)} exports"


def comments_are_the_crates(bench):
    """Each call's comment in the header has the words of the export's docs."""
    docs = {}
    for name in os.listdir(SOURCES):
        if not name.endswith(".rt"):
            continue
        with open(os.path.join(SOURCES, name), encoding="utf-8") as file:
            docs.update({call: words(text) for text, call in EXPORT.findall(file.read())})
    comments = {call: words(text) for text, call in COMMENTED.findall(header())}
    expect(docs.keys() == comments.keys(), sorted(docs.keys() ^ comments.keys()))
    other = [call for call in docs if docs[call] != comments[call]]
    expect(not other, "the header says otherwise", other)
    return f"{len(docs)} comments"


def words(comment):
    """The words of a comment, without its marks, and without the backticks of calls."""
    return [word for word in re.sub(r"`(nizgrabul_\w+)`", r"\1", comment).split() if word not in MARKS]


def runs_from_rust(bench, program):
    """A safe wrapper in plain Rust, built with cargo and no dependency."""
    if not shutil.which("cargo") or not shutil.which("rustc"):
        raise Skipped("cargo and rustc")
    folder = os.path.join(ROOT, "examples", "rust")
    environment = {**os.environ, "NIZGRABUL": OUT, "TOOLCHAIN_C": os.path.join(toolchain(), "c")}
    room = bench.built("library_rust")
    run = ["cargo", "run", "--quiet", "--offline", "--target-dir", room, "--bin", program]
    found = printed(run, cwd=folder, env=environment)
    with open(os.path.join(folder, f"{program}.out"), "rb") as file:
        wanted = file.read()
    expect(found == wanted, first_difference(found, wanted))


def refuses_misuse_in_rust(bench):
    """The wrapper's examples of what its lifetimes and its ownership forbid do not compile."""
    if not shutil.which("cargo") or not shutil.which("rustdoc"):
        raise Skipped("cargo and rustdoc")
    environment = {**os.environ, "NIZGRABUL": OUT, "TOOLCHAIN_C": os.path.join(toolchain(), "c")}
    run = ["cargo", "test", "--offline", "--doc", "--target-dir", bench.built("library_rust")]
    found = printed(run, cwd=os.path.join(ROOT, "examples", "rust"), env=environment)
    expect(b"test result: ok. 2 passed; 0 failed" in found, found)


def tests():
    yield Test("library: each call answers from C", answers_each_call)
    yield Test("library: the example's Makefile builds it", is_made_by_its_makefile)
    yield Test("library: pkg-config finds it installed", is_found_by_pkg_config)
    yield Test("library: CMake finds it and its target", is_found_by_cmake)
    yield Test("library: the Makefile says what is missing", makefile_says_what_is_missing)
    yield Test("library: real memory follows the account", commits_real_memory)
    yield Test("library: each call of a seat answers", answers_each_seat)
    yield Test("library: threads over one pool", serves_threads)
    yield Test("library: threads under ThreadSanitizer", sanitized, ("thread",))
    yield Test("library: threads under AddressSanitizer", sanitized, ("address",))
    yield Test("library: each growth is refused in turn", gives_all_memory_back)
    yield Test("library: whose each word is, of 1,000 loaders", tells_whose_each_word_is)
    yield Test("library: the header is C++ too", fits_a_cpp_program)
    yield Test("library: exports have the prefix", exports_are_the_headers)
    yield Test("library: the header has the docs' words", comments_are_the_crates)
    yield Test("library: a safe wrapper in Rust", runs_from_rust, ("classes",))
    yield Test("library: safe threads in Rust over one pool", runs_from_rust, ("threads",))
    yield Test("library: misuse in Rust does not compile", refuses_misuse_in_rust)
