"""Writes the traces that the program is measured with into a folder.

Without a name it writes all of them. Each has at most 100,000 lines, and depends on its name alone.

  mixed          numbers of all lengths; all but the lines' reading is refused: for the parser
  words          one loader with one block of 4,096 words, which are read and written at random
  one_size       one loader, 99,999 blocks of 10 words
  short_lived    20,000 loaders, each made, given one block and unloaded
  exchange       8 loaders, each with 100 blocks; then one block is freed and one allocated, at random
  one_loader     one standard loader, 99,999 blocks of 2 to 64 words
  many_loaders   1,000 standard loaders in groups of 8, 90 blocks each; then all are unloaded
  churn          1,920 standard loaders of 50 blocks each, 64 of them loaded at a time
  free_blocks    8 standard loaders of 150 blocks each; then up to 8 are freed and as many allocated
  hidden         24,000 hidden loaders of two blocks each, 1,000 of them loaded at a time
  boot           one boot loader, blocks of up to 16,384 words, a third of them freed
  large_blocks   one standard loader, up to 20 blocks of at most a root chunk, which come and go at random
  reused         one standard loader, up to 4 blocks of a root chunk, which come and go; 4 words of each are written
  reports        1,000 standard loaders, 40,000 blocks among them, 500 unloaded, and 200 reports
  purges         100,000 purges of nothing
"""
import argparse
import pathlib
import random


def words_of(chance):
    """Nine blocks in ten are small."""
    kind = chance.randrange(100)
    if kind < 60:
        return chance.randint(2, 16)
    if kind < 90:
        return chance.randint(17, 64)
    if kind < 99:
        return chance.randint(65, 256)
    return chance.randint(257, 2048)


def taken(chance, names):
    """Takes one of the names out."""
    place = chance.randrange(len(names))
    names[place], names[-1] = names[-1], names[place]
    return names.pop()


def mixed(chance):
    for _ in range(100000):
        number = chance.randint(0, 65535)
        block = chance.randint(0, 4294967295)
        index = chance.randint(0, 2 ** chance.randint(1, 63))
        value = chance.randint(0, 2 ** chance.randint(1, 64) - 1)
        yield chance.choice([f'alloc {number} {block} {index}', f'write {number} {block} {index} {value}',
                             f'read {number} {block} {index}', f'free {number} {block}'])


def words(chance):
    yield 'new 1 standard'
    yield 'alloc 1 1 4096'
    for _ in range(99998):
        index = chance.randrange(4096)
        yield chance.choice([f'read 1 1 {index}', f'write 1 1 {index} {chance.randrange(1000000)}'])


def one_size(chance):
    yield 'new 1 standard'
    for block in range(1, 100000):
        yield f'alloc 1 {block} 10'


def short_lived(chance):
    for loader in range(20000):
        yield f'new {loader} standard'
        yield f'alloc {loader} 1 {words_of(chance)}'
        yield f'unload {loader}'


def exchange(chance):
    loaded = {loader: [] for loader in range(8)}
    for loader in loaded:
        yield f'new {loader} standard'
    block = 0
    for round in range(49800):
        loader = round % 8 if round < 800 else chance.randrange(8)
        if round >= 800:
            yield f'free {loader} {taken(chance, loaded[loader])}'
        block += 1
        loaded[loader].append(block)
        yield f'alloc {loader} {block} {words_of(chance)}'


def one_loader(chance):
    yield 'new 1 standard'
    for block in range(1, 100000):
        yield f'alloc 1 {block} {chance.randint(2, 64)}'


def many_loaders(chance):
    for first in range(0, 1000, 8):
        group = range(first, first + 8)
        for loader in group:
            yield f'new {loader} standard'
        for block in range(90):
            for loader in group:
                yield f'alloc {loader} {block} {words_of(chance)}'
    loaders = list(range(1000))
    while loaders:
        yield f'unload {taken(chance, loaders)}'
    yield 'purge'


def churn(chance):
    for loader in range(1920):
        if loader >= 64:
            yield f'unload {loader - 64}'
        yield f'new {loader} standard'
        for block in range(50):
            yield f'alloc {loader} {block} {words_of(chance)}'
    for loader in range(1920 - 64, 1920):
        yield f'unload {loader}'
    yield 'purge'


def free_blocks(chance):
    loaded = {loader: [] for loader in range(8)}
    for loader in loaded:
        yield f'new {loader} standard'
    block = 0
    for _ in range(150):
        for loader in loaded:
            block += 1
            loaded[loader].append(block)
            yield f'alloc {loader} {block} {words_of(chance)}'
    lines = 1208
    while lines < 99900:
        loader = chance.randrange(8)
        burst = chance.randint(1, 8)
        for _ in range(burst):
            yield f'free {loader} {taken(chance, loaded[loader])}'
        for _ in range(burst):
            block += 1
            loaded[loader].append(block)
            yield f'alloc {loader} {block} {words_of(chance)}'
        lines += 2 * burst


def hidden(chance):
    loaded = []
    for loader in range(24000):
        if len(loaded) == 1000:
            yield f'unload {taken(chance, loaded)}'
        loaded.append(loader)
        yield f'new {loader} hidden'
        yield f'alloc {loader} 1 {chance.randint(20, 100)}'
        yield f'alloc {loader} 2 {chance.randint(2, 60)}'
    for loader in loaded:
        yield f'unload {loader}'
    yield 'purge'


def boot(chance):
    yield 'new 1 boot'
    live = []
    lines = 1
    block = 0
    while lines < 20000:
        kind = chance.randrange(100)
        most, least = (64, 1) if kind < 70 else (2048, 65) if kind < 95 else (16384, 2049)
        block += 1
        live.append(block)
        lines += 1
        yield f'alloc 1 {block} {chance.randint(least, most)}'
        if chance.randrange(3) == 0:
            lines += 1
            yield f'free 1 {taken(chance, live)}'
    yield 'unload 1'
    yield 'purge'


def large_blocks(chance):
    yield 'new 1 standard'
    live, block = [], 0
    for _ in range(99999):
        if live and (len(live) == 20 or chance.random() < 0.5):
            yield f'free 1 {taken(chance, live)}'
        else:
            block += 1
            live.append(block)
            yield f'alloc 1 {block} {chance.randint(1, 524288)}'


def reused(chance):
    yield 'new 1 standard'
    live, block, lines = [], 0, 1
    while lines < 6000:
        if live and (len(live) == 4 or chance.random() < 0.4):
            lines += 1
            yield f'free 1 {taken(chance, live)}'
            continue
        block += 1
        live.append(block)
        lines += 5
        yield f'alloc 1 {block} 524288'
        for _ in range(4):
            yield f'write 1 {block} {chance.randrange(524288)} {chance.randrange(1000000)}'


def reports(chance):
    loaders = list(range(1000))
    for loader in loaders:
        yield f'new {loader} standard'
    for block in range(40000):
        yield f'alloc {chance.choice(loaders)} {block} {words_of(chance)}'
        if block % 80 == 79:
            yield f'unload {taken(chance, loaders)}'
        if block % 200 == 199:
            yield 'report'


def purges(chance):
    for _ in range(100000):
        yield 'purge'


TRACES = [mixed, words, one_size, short_lived, exchange, one_loader, many_loaders, churn, free_blocks, hidden, boot,
          reports, purges, large_blocks, reused]


def main():
    parser = argparse.ArgumentParser(description=__doc__, formatter_class=argparse.RawDescriptionHelpFormatter)
    parser.add_argument('folder', metavar='FOLDER', type=pathlib.Path)
    parser.add_argument('names', metavar='NAME', nargs='*', help='a trace to write')
    asked = parser.parse_args()
    there = [trace.__name__ for trace in TRACES]
    for name in asked.names:
        if name not in there:
            parser.error(f'no trace is called {name}')
    asked.folder.mkdir(parents=True, exist_ok=True)
    for trace in TRACES:
        if asked.names and trace.__name__ not in asked.names:
            continue
        lines = list(trace(random.Random(trace.__name__)))
        assert len(lines) <= 100000, trace.__name__
        (asked.folder / f'{trace.__name__}.trace').write_text('\n'.join(lines) + '\n')
        print(f'{trace.__name__}: {len(lines)} lines')


main()
