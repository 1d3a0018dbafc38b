#!/usr/bin/env python3
"""Prints a table of lines by crate."""
import argparse
import pathlib

TOP = pathlib.Path(__file__).resolve().parent.parent


def crates():
    """The crates in the order of crates.txt, lowest first."""
    for line in (TOP / "crates.txt").read_text().splitlines():
        if line.strip() and not line.startswith("#"):
            yield line.split(":")[0].split()[0]


def lines(files):
    return sum(len(file.read_text().splitlines()) for file in files)


def row(name):
    crate = TOP / "crates" / name
    source = sorted(crate.glob("src/**/*.rt"))
    if not source:
        raise SystemExit(f"{crate}/src has no source")
    tests = [file for file in source if "tests" in file.relative_to(crate).with_suffix("").parts]
    return (
        lines(source) - lines(tests),
        lines(tests),
        lines(crate.glob("specs/**/*.antt")),
        lines(crate.glob("proofs/**/*.antt")),
        len(list(crate.glob("must-fail/*.edit"))),
    )


argparse.ArgumentParser(description=__doc__).parse_args()
print("| Crate | Code | Tests | Specs | Proofs | Edits |\n|---|---|---|---|---|---|")
rows = {name: row(name) for name in crates()}
rows["all"] = tuple(sum(column) for column in zip(*rows.values()))
for name, numbers in rows.items():
    print(f"| {name} | " + " | ".join(map(str, numbers)) + " |")
