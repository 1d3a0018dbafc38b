"""Prints a trace of 64 standard loaders that ask for blocks in phases.

LINES is about how many lines it has, at most 100,000; a `sync` ends each phase; WORDS is above those of the largest block.
"""
import argparse
import random

parser = argparse.ArgumentParser(description=__doc__, formatter_class=argparse.RawDescriptionHelpFormatter)
for name in 'lines', 'phases', 'words':
    parser.add_argument(name, metavar=name.upper(), type=int)
asked = parser.parse_args()
most_lines, phases, most_words = asked.lines, asked.phases, asked.words
random.seed(64)
loaders = range(64)
lines = [f'new {loader} standard' for loader in loaders]
live = {loader: [] for loader in loaders}
next_block = [0] * 64
for _ in range(phases):
    for value in range((most_lines - 64 - phases) // phases):
        loader = random.randrange(64)
        chance = random.random()
        if chance < 0.5 or not live[loader]:
            lines.append(f'alloc {loader} {next_block[loader]} {random.randrange(1, most_words)}')
            live[loader].append(next_block[loader])
            next_block[loader] += 1
        elif chance < 0.6:
            block = live[loader].pop(random.randrange(len(live[loader])))
            lines.append(f'free {loader} {block}')
        elif chance < 0.8:
            lines.append(f'write {loader} {random.choice(live[loader])} 0 {value}')
        else:
            lines.append(f'read {loader} {random.choice(live[loader])} 0')
    lines.append('sync')
print('\n'.join(lines[:100000]))
