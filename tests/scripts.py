"""The scripts of examples/: those of scripts/ print traces, with the reports that their page tells of; those of jvm/ answer questions
about the trace of a server, as their page says, and as its reports do."""
import os
import re
import shutil
import subprocess

from claims import Skipped, Test, expect, expect_ended, first_difference
from outputs import answers_of, expect_sums, reports_of
from workbench import ROOT

JVM = os.path.join(ROOT, "examples", "jvm")
SERVER = os.path.join("examples", "jvm", "server.trace")
NAMES = os.path.join("examples", "jvm", "server.names")
ROUNDS, LEAKS = 8, 1
CLASS_NODES = ("--class-nodes", "16")
WORDS_A_MB, GRANULES_A_MB = 131072, 16
COMMAND = re.compile(r"^    \$ (.+)\n((?:    .*\n)+)", re.MULTILINE)


def printed(name, text=b"", **settings):
    """What a script prints for a text and its settings."""
    if not shutil.which("awk"):
        raise Skipped("awk")
    words = [word for setting, value in settings.items() for word in ("-v", f"{setting}={value}")]
    script = os.path.join(ROOT, "examples", "scripts", f"{name}.awk")
    made = subprocess.run(["awk", "-f", script, *words], input=text, capture_output=True, check=True)
    expect(made.stderr == b"", made.stderr)
    return made.stdout


def reported(bench, words, text, granule=8192):
    """Runs a trace all of whose lines are done, and gives its reports."""
    ended = bench.run(words, text)
    expect_ended(ended, 0)
    answers = answers_of(ended.output)
    expect(len(answers) == text.count(b"\n"), "not each line is answered", len(answers))
    expect(all(answer.reply == b"ok" for answer in answers), "a line is refused", ended.output)
    reports = reports_of(answers)
    for report in reports:
        expect_sums(report, granule)
    return reports


def redeployments_leak(bench):
    """With a leak each round leaves a loader more; without one they stay where they were."""
    for leak in (0, 1):
        reports = reported(bench, ["--class-nodes", "2"], printed("redeployments", rounds=20, leak=leak))
        loaders = [len(report.loaders) for report in reports]
        expect(loaders == [5 + leak * (number - 1) for number in (5, 10, 15, 20)], loaders)


def hidden_classes_come_and_go(bench):
    """However many come and go, a hundred of them stand, each with a chunk of 128 words in each space."""
    reports = reported(bench, ["--class-nodes", "1"], printed("hidden_classes", classes=1200, live=100))
    expect(len(reports) == 3, reports)
    for report in reports:
        numbers = [(space.numbers["chunks"], space.numbers["capacity"]) for space in report.spaces]
        expect(numbers == [(100, 12800), (100, 12800)], numbers)


def run_command(bench, command):
    """Runs a command of the page from the top of the repository, over the built program."""
    if not shutil.which("awk"):
        raise Skipped("awk")
    environment = {**os.environ, "METARUN": bench.program.path}
    words = ["sh", "-c", command.replace("./metarun", '"$METARUN"')]
    ended = subprocess.run(words, cwd=ROOT, env=environment, capture_output=True, text=True, check=True)
    expect(ended.stderr == "", ended.stderr)
    return ended.stdout


def commands_of_the_page():
    """The commands of the page about the server, by their scripts, each with what the page says that it prints."""
    with open(os.path.join(JVM, "README.md"), encoding="ascii") as file:
        blocks = COMMAND.findall(file.read())
    return {re.search(r"(\w+)\.(?:awk|sh)", command)[1]: (command, re.sub("^    ", "", lines, flags=re.MULTILINE))
            for command, lines in blocks}


def server_trace():
    with open(os.path.join(ROOT, SERVER), "rb") as file:
        return file.read()


def server_reports(bench, policy="balanced"):
    """The full reports of the server's trace, under a policy."""
    words = [*CLASS_NODES, "--report", "full", "--policy", policy]
    return reported(bench, words, server_trace(), granule=2048 if policy == "aggressive" else 8192)


def megabytes(words):
    return f"{words / WORDS_A_MB:.2f}"


def the_page_says_what_is_printed(bench):
    """Each script of the folder is asked once, and prints what the page says."""
    commands = commands_of_the_page()
    scripts = {name.split(".")[0] for name in os.listdir(JVM) if name.endswith((".awk", ".sh"))}
    expect(set(commands) == scripts, "the page asks", sorted(commands), "and the folder has", sorted(scripts))
    for command, wanted in commands.values():
        found = run_command(bench, command)
        expect(found == wanted, first_difference(found.encode(), wanted.encode()))


def the_leaking_class_is_first(bench):
    """The server leaks a module each round, and a module has a loader of this class."""
    command, _ = commands_of_the_page()["leaks"]
    rows = [line.split() for line in run_command(bench, command).splitlines()[1:]]
    grows, first, middle, last, *_, kind, name = rows[0]
    expect((grows, kind, name) == ("grows", "standard", "Redeployments$ModuleLoader"), rows[0])
    expect(int(first) < int(middle) < int(last) == ROUNDS * LEAKS, rows[0])
    report = server_reports(bench)[-1]
    expect(sum(int(row[3]) for row in rows) == len(report.loaders), "other loaders than the report's", rows)
    live = sum(space.numbers["live"] for space in report.spaces)
    expect(abs(sum(float(row[4]) for row in rows) - live / WORDS_A_MB) < 0.005 * len(rows), live, rows)


def the_smallest_limit_suffices(bench):
    """Under the limit that the script finds no line is refused, and under one granule less a line is."""
    *limits, smallest = run_command(bench, f"sh examples/jvm/limit.sh {SERVER} 1").splitlines()
    granules = int(re.search(r"=(\d+)k$", smallest)[1]) // 64
    expect(smallest.startswith(f"smallest: {granules / GRANULES_A_MB:.2f} MB"), smallest)
    refused = {}
    for most in (granules, granules - 1, GRANULES_A_MB):
        answers = answers_of(bench.run([*CLASS_NODES, "--max-granules", str(most)], server_trace()).output)
        refused[most] = [answer.line for answer in answers if answer.reply == b"refused CommitLimit"]
    expect(refused[granules] == [] and refused[granules - 1], granules, refused)
    lines = refused[GRANULES_A_MB]
    expect(limits == [f"1 MB: {len(lines)} requests refused, the first in line {lines[0]}"], limits, lines[0])


def policies_commit_as_reported(bench):
    """Each policy's most and last committed size is that of the last full report."""
    lines = run_command(bench, commands_of_the_page()["policies"][0]).splitlines()
    for line, policy in zip(lines, ("balanced", "aggressive", "none"), strict=True):
        report = server_reports(bench, policy)[-1]
        peak, last = " ".join(report.peaks["granules"][1:]), " ".join(report.usages[2]["committed"][1:3])
        expect(line.split(maxsplit=1) == [policy, f"at most {peak}, at the end {last}"], line, peak, last)


def what_is_lost_adds_up(bench):
    """The rows are the kinds' sums, and with the free chunks they make what is committed."""
    lines = run_command(bench, commands_of_the_page()["lost"][0]).splitlines()
    report = server_reports(bench)[-1]
    committed = sum(space.numbers["committed"] for space in report.spaces)
    free = committed - sum(space.numbers["fronts"] for space in report.spaces)
    for line, (kind, sums) in zip(lines[1:5], report.kinds.items(), strict=True):
        loaders, _, _, fronts, used, live, freed, waste = sums
        sizes = [live, fronts - used, freed, waste]
        shares = [text for size in sizes for text in (megabytes(size), f"{100 * size / committed:.1f}")]
        expect(line.split() == [kind, str(loaders), *shares], line, shares)
    expect(lines[5].split()[3:] == [megabytes(free), f"{100 * free / committed:.1f}", "per", "cent", "of",
                                    megabytes(committed), "MB"], lines[5], free, committed)


def the_class_space_is_the_most_reported(bench):
    """One node suffices, and the sizes are the greatest of all reports."""
    said = run_command(bench, commands_of_the_page()["class_space"][0])
    reports = reported(bench, ["--class-nodes", "1"], server_trace())
    most = [max(report.spaces[1].numbers[label] for report in reports) for label in ("capacity", "committed")]
    capacity, committed = map(megabytes, most)
    expect(said == f"8 MB suffice: at most {capacity} MB in chunks, {committed} MB committed\n", said, most)


def a_script_ends_where_the_program_fails(bench):
    """Where the program doesn't end well, no script answers anything."""
    for script in ("limit", "class_space"):
        path = os.path.join(JVM, f"{script}.sh")
        ended = subprocess.run(["sh", path, path], env={**os.environ, "METARUN": bench.program.path}, capture_output=True)
        expect(ended.returncode == 1 and ended.stdout == b"", script, ended)


def tests():
    yield Test("redeployments leak as they are asked to", redeployments_leak)
    yield Test("hidden classes come and go", hidden_classes_come_and_go)
    yield Test("the page about a server says what its scripts print", the_page_says_what_is_printed)
    yield Test("a server's leaking class stands first", the_leaking_class_is_first)
    yield Test("a server's smallest limit suffices", the_smallest_limit_suffices)
    yield Test("a server's policies commit what is reported", policies_commit_as_reported)
    yield Test("what a server loses adds up", what_is_lost_adds_up)
    yield Test("a server's class space is the most reported", the_class_space_is_the_most_reported)
    yield Test("a script ends where the program fails", a_script_ends_where_the_program_fails)
