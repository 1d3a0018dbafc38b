#!/usr/bin/env python3
"""Measures what an allocation costs, and a free, beside HotSpot's own on the machine's JVM.

Prints nanoseconds by way, the least of so many rounds, each of one loader's so many blocks of so many words; programs run by
turns. The library's ways, `malloc` and a bump pointer are in costs.c, over the library that was built, else the released one.

HotSpot's are calls of its own from Java, by the WhiteBox interface of the product's libjvm, less what an empty call of that
interface takes. `arena` is MetaspaceArena's allocation and deallocation under a lock, in an arena of its own; `loader` an
allocation in a class loader's metaspace, with its lock, its count against the limit and its zeroing, which touches the words for
the first time. It needs cc, rt and a JDK 17.
"""
import argparse
import os
import re
import subprocess
import tempfile

HERE = os.path.dirname(os.path.abspath(__file__))
TOP = os.path.dirname(HERE)
WAYS = ("number", "unnamed", "bare", "system", "malloc", "bump")
TURNS = 5
WHITE_BOX = """package sun.hotspot;
public class WhiteBox {
    private static native void registerNatives();
    static { registerNatives(); }
    public native int getVMPageSize();
    public native long allocateMetaspace(ClassLoader loader, long bytes);
    public native long createMetaspaceTestContext(long commitLimit, long reserveLimit);
    public native void destroyMetaspaceTestContext(long context);
    public native long createArenaInTestContext(long context, boolean isMicro);
    public native void destroyMetaspaceTestArena(long arena);
    public native long allocateFromMetaspaceTestArena(long arena, long words);
    public native void deallocateToMetaspaceTestArena(long arena, long start, long words);
}
"""
COSTS = """import java.io.InputStream;
import sun.hotspot.WhiteBox;

public class Costs {
    static final WhiteBox box = new WhiteBox();
    static long seen;

    /** A loader that has a metaspace, since it has a class. */
    static class Owner extends ClassLoader {
        Owner(byte[] bytes) {
            super(null);
            defineClass("Small", bytes, 0, bytes.length);
        }
    }

    public static void main(String[] given) throws Exception {
        int blocks = Integer.parseInt(given[0]), rounds = Integer.parseInt(given[2]);
        long words = Long.parseLong(given[1]);
        double call = 1e18, take = 1e18, give = 1e18, loaders = 1e18;
        long[] starts = new long[blocks];
        byte[] small;
        try (InputStream file = Costs.class.getResourceAsStream("Small.class")) {
            small = file.readAllBytes();
        }
        for (int round = 0; round < rounds; round++) {
            long context = box.createMetaspaceTestContext(0, 0), arena = box.createArenaInTestContext(context, false);
            ClassLoader owner = new Owner(small);
            long begun = System.nanoTime();
            for (int block = 0; block < blocks; block++) seen += box.getVMPageSize();
            long called = System.nanoTime();
            for (int block = 0; block < blocks; block++) starts[block] = box.allocateFromMetaspaceTestArena(arena, words);
            long taken = System.nanoTime();
            for (int block = 0; block < blocks; block++) box.deallocateToMetaspaceTestArena(arena, starts[block], words);
            long freed = System.nanoTime();
            // an array of bytes has a head of 8, of which its first byte is one
            for (int block = 0; block < blocks; block++) seen += box.allocateMetaspace(owner, 8 * words - 7);
            long owned = System.nanoTime();
            box.destroyMetaspaceTestArena(arena);
            box.destroyMetaspaceTestContext(context);
            call = Math.min(call, called - begun);
            take = Math.min(take, taken - called);
            give = Math.min(give, freed - taken);
            loaders = Math.min(loaders, owned - freed);
        }
        System.out.printf("costs %.1f %.1f %.1f %.1f%n", call / blocks, take / blocks, give / blocks, loaders / blocks);
    }
}

class Small {}
"""


def printed(words, **how):
    """What a command prints."""
    return subprocess.run(words, capture_output=True, text=True, check=True, **how).stdout


def program(room):
    """Builds costs.c over the library, and gives its path."""
    library = os.path.join(TOP, "crates", "ms_c", "out", "libms_c.a")
    if not os.path.exists(library):
        library = os.path.join(room, "libms_c.a")
        with open(library, "wb") as file:
            subprocess.run(["xz", "-dc", os.path.join(TOP, "release", "libms_c.a.xz")], stdout=file, check=True)
    heap = os.path.join(os.path.dirname(printed(["rt", "doc"]).strip()), "c", "liblibc_c.a")
    made = os.path.join(room, "costs")
    printed(["cc", "-std=gnu11", "-O2", "-o", made, os.path.join(HERE, "costs.c"), library, heap])
    return made


def java(room):
    """Builds the program for the JVM, and gives the words that run it."""
    boot, classes = os.path.join(room, "boot"), os.path.join(room, "classes")
    for name, text in (("WhiteBox.java", WHITE_BOX), ("Costs.java", COSTS)):
        with open(os.path.join(room, name), "w", encoding="ascii") as file:
            file.write(text)
    printed(["javac", "-d", boot, os.path.join(room, "WhiteBox.java")])
    printed(["javac", "-cp", boot, "-d", classes, os.path.join(room, "Costs.java")])
    return ["java", "-XX:+UnlockDiagnosticVMOptions", "-XX:+WhiteBoxAPI", "-XX:MetaspaceSize=4g", f"-Xbootclasspath/a:{boot}",
            "-cp", classes, "Costs"]


def hotspot(words):
    """The nanoseconds of an empty call, of an arena's allocation and deallocation, and of a loader's allocation."""
    return [float(cost) for cost in re.search(r"^costs (.*)$", printed(words), re.MULTILINE)[1].split()]


def main(sizes):
    with tempfile.TemporaryDirectory(prefix="bench-costs-") as room:
        ours, theirs = program(room), [*java(room), *sizes]
        runs = {way: [] for way in WAYS}
        calls = []
        for _ in range(TURNS):
            for way in WAYS:
                runs[way].append([float(cost) for cost in printed([ours, way, *sizes]).split()])
            calls.append(hotspot(theirs))
    version = re.search(r"\(build (\S+)\)", subprocess.run(["java", "-version"], capture_output=True, text=True, check=True).stderr)
    call, take, give, loader = (min(costs) for costs in zip(*calls))
    print(f"{sizes[0]} blocks of {sizes[1]} words, nanoseconds; {os.cpu_count()} processors; JDK {version[1] if version else ''}\n")
    print("    Way               allocate   free")
    for way in WAYS:
        least = [min(costs) for costs in zip(*runs[way])]
        print(f"    {way:<16} {least[0]:9.1f} {least[1]:6.1f}")
    print(f"    {'HotSpot arena':<16} {take - call:9.1f} {give - call:6.1f}")
    print(f"    {'HotSpot loader':<16} {loader - call:9.1f}")
    print(f"\nAn empty call of the JVM's interface took {call:.1f}, which is subtracted.")


if __name__ == "__main__":
    parser = argparse.ArgumentParser(description=__doc__, formatter_class=argparse.RawDescriptionHelpFormatter)
    for name, default in ("blocks", 20000), ("words", 10), ("rounds", 20):
        parser.add_argument(name, metavar=name.upper(), type=int, nargs="?", default=default, help=f"{default} if not said")
    asked = parser.parse_args()
    main([str(size) for size in (asked.blocks, asked.words, asked.rounds)])
