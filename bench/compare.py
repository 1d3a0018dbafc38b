"""Holds metarun against its twin, once ./metarun is built.

For each shape of traces.py, or those named: whether both print the same bytes, and as a row of a table the millions of
instructions that each takes over the whole trace (valgrind's callgrind), the one for each of the other's, and the most
memory that is resident (MB of 10^6 bytes). It needs cargo, valgrind and /usr/bin/time.
"""
import argparse
import os
import re
import subprocess
import sys
import tempfile

HERE = os.path.dirname(os.path.abspath(__file__))
METARUN = os.path.join(os.path.dirname(HERE), "crates", "metarun", "out", "metarun")


def built(room):
    """Builds the twin, and gives its path."""
    words = ["cargo", "build", "--quiet", "--release", "--offline", "--target-dir", room]
    subprocess.run(words, cwd=os.path.join(HERE, "twin"), check=True)
    return os.path.join(room, "release", "twin")


def output_and_memory(program, trace, room, words=()):
    """What a program prints over a trace, with these words, and the bytes that it held at most."""
    told = os.path.join(room, "memory")
    with open(trace, "rb") as text:
        timed = ["/usr/bin/time", "--format=%M", f"--output={told}", program, *words]
        output = subprocess.run(timed, stdin=text, stdout=subprocess.PIPE, check=True).stdout
    with open(told, encoding="ascii") as file:
        return output, 1024 * int(file.read())


def instructions(program, trace, room):
    """The instructions of a whole run."""
    counts = os.path.join(room, "callgrind")
    words = ["valgrind", "--tool=callgrind", f"--callgrind-out-file={counts}", program]
    with open(trace, "rb") as text:
        ended = subprocess.run(words, stdin=text, stdout=subprocess.DEVNULL, stderr=subprocess.PIPE, check=True)
    return int(re.search(rb"refs:\s+([\d,]+)", ended.stderr)[1].replace(b",", b""))


def main(names):
    with tempfile.TemporaryDirectory(prefix="compare-") as room:
        programs = [METARUN, built(os.path.join(room, "target"))]
        traces = os.path.join(room, "traces")
        subprocess.run([sys.executable, os.path.join(HERE, "traces.py"), traces, *names], check=True,
                       stdout=subprocess.DEVNULL)
        print("| Shape | Instructions, M | The twin's | Ratio | Memory, MB | The twin's |\n|---|---|---|---|---|---|")
        for trace in sorted(os.listdir(traces)):
            path = os.path.join(traces, trace)
            (one, memory), (other, twins_memory) = (output_and_memory(program, path, room) for program in programs)
            if one != other:
                raise SystemExit(f"the outputs over {trace} differ")
            count, twins = (instructions(program, path, room) for program in programs)
            numbers = f"{count / 1e6:.1f} | {twins / 1e6:.1f} | {count / twins:.2f}"
            print(f"| `{trace[:-6]}` | {numbers} | {memory / 1e6:.1f} | {twins_memory / 1e6:.1f} |", flush=True)


if __name__ == "__main__":
    parser = argparse.ArgumentParser(description=__doc__, formatter_class=argparse.RawDescriptionHelpFormatter)
    parser.add_argument("names", metavar="NAME", nargs="*", help="a shape of traces.py")
    main(parser.parse_args().names)
