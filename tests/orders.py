"""One order for all: what two and four workers print is what one worker prints over some order of the same lines.

The trace meets both of its limits. Its last phase alone has lines that get in each other's way: there who comes first
has the node, the granules, or what a purge left; under policy none granules stay committed until then. An order mixes
the lines of that phase and keeps those of each worker as they are, the purge among the first one's. Each order is
written as a trace of its own and run by one worker; its replies are put back under the numbers of their lines, and what
it reports at the end stays.

So what the outputs of several workers are compared with is the same program's own: with one worker it runs each line by
`System::step`, one after another. That this gives what the rules say is for the rows and the proofs; here is tested only
that threads add nothing to it.

No loader of the trace is asked to let a chunk grow. An allocation over the shared pool takes the lock once for a growth
that is refused and once more for the chunk that it takes then, and between both another worker's line may come: such an
allocation has no place of its own among whole lines, and its output may be that of none of the orders.
"""
from claims import Test, expect, expect_ended
from outputs import answers_of

RUNS = 100
SETTINGS = {"balanced": ["--nodes", "1", "--max-granules", "73"],
            "none": ["--nodes", "1", "--max-granules", "127", "--policy", "none"]}
BEFORE = ["new 1 standard", "new 2 boot", "new 3 boot", "sync", "sync", "sync", "sync"]
PHASE = ["alloc 1 1 8192", "alloc 2 1 300000", "alloc 3 1 300000", "unload 1", "unload 2", "purge", "alloc 3 2 600"]
AFTER = ["report"]


def worker_of(line, workers):
    """Who has a line of the phase: it is the fifth, so the loaders' first, second and third worker have them."""
    word, *fields = line.split()
    return 0 if word == "purge" else (int(fields[0]) - 1 + BEFORE.count("sync")) % workers


def mixed(lanes):
    """All orders of these lists' members that keep each list's own."""
    left = [lane for lane in lanes if lane]
    if not left:
        yield []
    for place, lane in enumerate(left):
        for rest in mixed([*left[:place], lane[1:], *left[place + 1:]]):
            yield [lane[0], *rest]


def text_of(lines):
    return "".join(f"{line}\n" for line in lines).encode()


def put_back(output, order):
    """The output of a trace with this order of the phase, as the trace in its own order has it."""
    answers = answers_of(output)
    expect(len(answers) == len(BEFORE + PHASE + AFTER), "a line is not answered", output)
    numbers = [*range(len(BEFORE)), *order, *range(len(BEFORE) + len(order), len(answers))]
    lines = {}
    for number, answer in zip(numbers, answers):
        lines[number] = [b"%d %s" % (number + 1, answer.reply), *answer.report]
    return b"".join(line + b"\n" for number in sorted(lines) for line in lines[number])


def outputs_of_orders(bench, options, workers):
    """How many orders there are for so many workers, and what one worker prints over them."""
    lanes = [[] for _ in range(workers)]
    for number, line in enumerate(PHASE, len(BEFORE)):
        lanes[worker_of(line, workers)].append(number)
    orders, outputs = 0, set()
    for order in mixed(lanes):
        ended = bench.run(options, text_of([*BEFORE, *(PHASE[number - len(BEFORE)] for number in order), *AFTER]))
        expect_ended(ended, 0)
        orders += 1
        outputs.add(put_back(ended.output, order))
    return orders, outputs


def is_one_order(bench, policy, workers):
    """Each run of so many workers prints what one of the orders does."""
    options = SETTINGS[policy]
    orders, outputs = outputs_of_orders(bench, options, workers)
    for refusal in (b"refused CommitLimit", b"refused ReserveLimit"):
        expect(any(refusal in output for output in outputs), "no order meets", refusal)
    seen = set()
    for _ in range(RUNS):
        ended = bench.run([*options, "--workers", str(workers)], text_of([*BEFORE, *PHASE, *AFTER]))
        expect_ended(ended, 0)
        expect(ended.output in outputs, "no order of the lines is answered so", ended.output)
        seen.add(ended.output)
    return f"{orders} orders, {len(outputs)} outputs, {len(seen)} of them seen"


def tests():
    for policy in SETTINGS:
        for workers in (2, 4):
            name = f"one order: what {workers} workers print under policy {policy}, {RUNS} times"
            yield Test(name, is_one_order, (policy, workers))
