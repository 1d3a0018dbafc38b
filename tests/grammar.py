"""A small reader of traces, written from docs/FORMATS.md alone: which fault a text has, and its commands."""
LOADER, BLOCK, WORD = 65535, 4294967295, 18446744073709551615
KIND = "kind"
KINDS = (b"standard", b"boot", b"reflection", b"hidden")
FIELDS = {
    b"new": (LOADER, KIND),
    b"alloc": (LOADER, BLOCK, WORD),
    b"calloc": (LOADER, BLOCK, WORD),
    b"write": (LOADER, BLOCK, WORD, WORD),
    b"read": (LOADER, BLOCK, WORD),
    b"free": (LOADER, BLOCK),
    b"unload": (LOADER,),
    b"purge": (),
    b"sync": (),
    b"report": (),
}
MOST_LINES, MOST_BYTES = 100000, 80


def lines_of(text):
    """Cuts a text at each newline; an empty rest is no line."""
    lines = text.split(b"\n")
    return lines if lines[-1] else lines[:-1]


def is_command(line):
    return line != b"" and not line.startswith(b"#")


def field_fault(field, greatest):
    """Tells the fault of a field: of a kind, or of a number up to the greatest."""
    if greatest == KIND:
        return None if field in KINDS else "BadKind"
    digits = field != b"" and all(byte in b"0123456789" for byte in field)
    if not digits or (field[:1] == b"0" and len(field) > 1):
        return "BadNumber"
    return "NumberTooLarge" if int(field) > greatest else None


def line_fault(number, line):
    """Tells the fault of a line, the first of those that it has."""
    if number > MOST_LINES:
        return "TooManyLines"
    if len(line) > MOST_BYTES:
        return "LineTooLong"
    if not is_command(line):
        return None
    word, *fields = line.split(b" ")
    if word not in FIELDS:
        return "UnknownCommand"
    if len(fields) != len(FIELDS[word]):
        return "FieldCount"
    faults = (field_fault(field, greatest) for field, greatest in zip(fields, FIELDS[word]))
    return next((fault for fault in faults if fault), None)


def fault_of(text):
    """Tells what stands on standard error for a faulty text, and b'' for another."""
    for number, line in enumerate(lines_of(text), 1):
        fault = line_fault(number, line)
        if fault:
            return f"metarun: line {number}: {fault}\n".encode()
    return b""


def commands_of(text):
    """Lists the command lines of a text without a fault: number and first word."""
    lines = enumerate(lines_of(text), 1)
    return [(number, line.split(b" ")[0]) for number, line in lines if is_command(line)]


def without(text, numbers):
    """The text with these lines blank, so that the others keep their numbers."""
    lines = text.split(b"\n")
    return b"\n".join(b"" if number in numbers else line for number, line in enumerate(lines, 1))
