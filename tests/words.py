"""One word, one meaning: `place` where nothing is placed, names that docs/STYLE.md says aren't used, and comments that
say of a function that it tells, where it returns.

`python3 tests/words.py` runs these alone.
"""
import functools
import os
import re

from claims import Test, expect, run_alone

ROOT = os.path.dirname(os.path.dirname(os.path.abspath(__file__)))
STYLE = "docs/STYLE.md"
# The crates that have handles: C's, and those of threads.
WITH_HANDLES = ("crates/ms_c/", "crates/ms_run/")
# What begins a comment, by the end of a file's name.
MARKS = {".rt": "//", ".antt": "--", ".edit": "#"}
TEXT = re.compile(r'"(?:[^"\\]|\\.)*"')
WORD = re.compile(r"[A-Za-z_][A-Za-z0-9_]*")
# English phrases with the word, and what programs print, in the sources and on the pages.
PHRASES = re.compile(
    r"\b[Ii]n(to)? (its |their |the (\w+'s )?)?place( of)?\b|\b[Tt]ak(e|es|ing|en) (its|the|their) place\b"
    r"|places of 8192 words|`\w+/[^`]*`|`place`|::place\b|\bms_base\.specs\.Place\b|\bspecs/Place\b|\[Place\]")
# What has the word in its name because a block is placed there, by what it says.
PLACEMENTS = {
    "places a block": "place place_free place_at_top place_own place_alone place_bare place_hosted",
    "says where a block is placed": "Places PlacesBare PlacesBlock PlacesFree PlacesHosted PlacesIn PlacesOwn",
    "says what comes of looking for a place for a block": "FindsPlace MayPlace PlaceRefused",
    "the definitions of where a block goes": "Place",
    "prints which places for blocks there are": "tell_places tell_places_of tell_all_places MOST_PLACES",
    "says of a thing that it goes where another was": "in_place",
}
ALLOWED = frozenset(" ".join(PLACEMENTS.values()).split())
# The files in which a block is placed: only their comments and variables speak of its place.
PLACERS = re.compile(
    r"crates/(ms_base/(specs/(Place|Asks|Lib)|proofs/examples/Arena)|ms_member/(specs|proofs|must-fail|src/member)\b|ms_loaders?/proofs/"
    r"|ms_arena/((src|specs)/(lib|arena|raw|books|Arena|Alloc|Books)\.|proofs/(BookLemmas|(arena|raw|books)/)|must-fail/)"
    r"|ms_run/proofs/|library_tests/src/tests/arenas|calls/src/)")
FUNCTION = re.compile(r"\s*(pub(\(\w+\))? )?(const )?(unsafe )?(extern \"C\" )?fn \w")
DECLARED = re.compile(
    r"\b(?:fn|struct|enum|trait|mod|const|static|type|let(?: mut)?|for|record|data|abbrev(?: pub)?) ([A-Za-z_]\w*)|\b([a-z_]\w*): ")


def read(path):
    with open(os.path.join(ROOT, path), encoding="utf-8") as file:
        return file.read()


@functools.cache
def sources():
    """The sources, specs, proofs and wrong bodies of all crates."""
    found = []
    for folder, folders, files in os.walk(os.path.join(ROOT, "crates")):
        folders[:] = [name for name in folders if name not in ("out", "target")]
        found += [os.path.relpath(os.path.join(folder, name), ROOT) for name in files if name.endswith(tuple(MARKS))]
    return sorted(found)


def lines_of(path):
    """The lines of a file with their numbers, without what stands between quotes."""
    for number, line in enumerate(read(path).split("\n"), 1):
        yield number, TEXT.sub('""', line)


def parts_of(name):
    """The words of a name, in small letters: those between underscores, and those that begin with a capital."""
    return [part.lower() for part in re.findall(r"[A-Z]+(?![a-z])|[A-Z]?[a-z]+", name)]


def says_place(line):
    """The names of a line that have the word, but for those that place a block."""
    return [name for name in WORD.findall(PHRASES.sub("", line))
            if {"place", "places"} & set(parts_of(name)) - {name} and name not in ALLOWED]


def speaks_of_place(path, line):
    """Whether a line says `place` or `places` as a word, where nothing is placed."""
    words = {name.lower() for name in WORD.findall(PHRASES.sub("", line))}
    return bool({"place", "places"} & words) and not PLACERS.match(path)


def pages():
    """The pages that speak of the project, but for what they show of its output."""
    return ["README.md"] + sorted(f"docs/{name}" for name in os.listdir(os.path.join(ROOT, "docs")) if name.endswith(".md"))


def a_place_is_a_blocks(_):
    """No name, no comment and no page says `place` but of where a block is placed; nor do names of files."""
    wrong = [f"{path}:{number}: {line.strip()[:80]}" for path in sources() for number, line in lines_of(path)
             if says_place(line) or speaks_of_place(path, line)]
    wrong += [path for path in sources() for name in re.split(r"[/.+-]", path)
              if {"place", "places"} & set(parts_of(name)) and name not in ALLOWED and not path.endswith(".edit")]
    wrong += [f"{page}:{number}: {line.strip()[:80]}" for page in pages() for number, line in lines_of(page)
              if says_place(line) or re.search(r"\bplaces?\b", PHRASES.sub("", line)) and not re.search(r"\b(blocks?|allocation)\b", line)]
    expect(not wrong, f"{len(wrong)} say place of what is an index, an entry, a cell, a position or a slot:", *wrong[:20])
    return f"{len(sources())} files, {len(pages())} pages"


def unused():
    """What names STYLE says aren't used: whole ones, beginnings, ends."""
    sentence = re.search(r"Not used: (.*?)\. Names", read(STYLE), re.DOTALL).group(1)
    names = " ".join(name for name in re.findall(r"`([^`]+)`", sentence) if not re.search(r"\d", name)).split()
    return ([name for name in names if "_" not in name], [name for name in names if name.endswith("_")],
            [name for name in names if name.startswith("_")])


def names_are_used_ones(_):
    """No source, spec or proof gives a thing a name that STYLE says isn't used; a handle is the C library's alone."""
    whole, starts, ends = unused()
    expect("ctx" in whole and starts and ends, "the names of STYLE weren't read", whole, starts, ends)
    wrong = []
    for path in sources():
        for number, line in lines_of(path):
            for found in DECLARED.findall(line.split(MARKS[os.path.splitext(path)[1]])[0]):
                name = found[0] or found[1]
                is_used = name == "handle" and path.startswith(WITH_HANDLES)
                if not is_used and (name in whole or name.startswith(tuple(starts)) or name.endswith(tuple(ends))):
                    wrong.append(f"{path}:{number}: {name}")
    expect(not wrong, *wrong[:20])
    return f"{len(whole) + len(starts) + len(ends)} names aren't used"


def functions_of(text):
    """The functions of a source that have a doc comment: the line of each, the comment, and what stands up to its body."""
    lines = text.split("\n")
    for number, line in enumerate(lines):
        if FUNCTION.match(line):
            start = number
            while start and re.match(r"\s*(///|#\[)", lines[start - 1]):
                start -= 1
            above = " ".join(line.strip()[4:] for line in lines[start:number] if line.strip().startswith("///"))
            if above:
                yield number + 1, above, re.split(r"\b(?:requires|ensures)\b|\{\n", "\n".join(lines[number:]), maxsplit=1)[0]


def functions_return(_):
    """A comment says of a function with a result that it returns, not that it tells."""
    wrong, count = [], 0
    for path in sources():
        if path.endswith(".rt") and "/src/" in path:
            for number, comment, head in functions_of(read(path)):
                count += 1
                if "->" in head and re.search(r"\b([Tt]ells?|told|telling)\b", comment):
                    wrong.append(f"{path}:{number}: {comment[:100]}")
    expect(not wrong, *wrong[:20])
    return f"{count} comments"


def tests():
    yield Test("words: a place is where a block was placed", a_place_is_a_blocks)
    yield Test("words: no name is one that isn't used", names_are_used_ones)
    yield Test("words: a function returns, and doesn't tell", functions_return)


if __name__ == "__main__":
    run_alone(tests())
