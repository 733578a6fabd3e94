"""Which scripts `brc run` takes, and what its answers look like, by the rules of docs/HEAP.md, read anew.

What a script prints depends on its sections' order, so `fits` only looks whether an output is one that the script may have.
"""

import re

MOST_BYTES = 16_777_216
MOST_SECTIONS = 63
MOST_TIMES = 1_000_000
MOST_TEXT = 4_096

NUMBER = re.compile(rb"(0|[1-9][0-9]*)\Z")
REGISTER = re.compile(rb"r(0|[1-9]|1[0-5])\Z")
INTEGER = re.compile(rb"(0|-?[1-9][0-9]*)\Z")
NAME = re.compile(rb"[!-~]{1,64}\Z")
SECTION_NAME = re.compile(rb"[a-z0-9]{1,32}\Z")
PRINTED = re.compile(rb"[ -~]*\Z")

# (R a register, N a name, I an integer, X an index, K a key)
FORMS = {
    b"int": "RI",
    b"list": "R",
    b"dict": "R",
    b"mailbox": "R",
    b"copy": "RR",
    b"drop": "R",
    b"push": "RR",
    b"pop": "RR",
    b"get": "RRX",
    b"set": "RXR",
    b"len": "RR",
    b"put": "RKR",
    b"find": "RRK",
    b"del": "RRK",
    b"share": "NR",
    b"fetch": "RN",
    b"unshare": "RN",
    b"send": "RR",
    b"recv": "RR",
    b"add": "RRR",
    b"print": "R",
}

FAULTS = {
    1: "OutOfMemory",
    2: "HeapFull",
    3: "FrameFull",
    4: "Busy",
    5: "WrongKind",
    6: "NoSuchPlace",
    7: "NoSuchKey",
    8: "Full",
    16: "Overflow",
    17: "LedgerFull",
}


def is_number(word, most):
    return len(word) <= 20 and NUMBER.match(word) is not None and int(word) <= most


def is_integer(word):
    return len(word) <= 20 and INTEGER.match(word) is not None and -(1 << 63) <= int(word) < 1 << 63


def is_key(word):
    return NAME.match(word[1:]) is not None if word[:1] == b"'" else is_integer(word)


FITS = {
    "R": lambda word: REGISTER.match(word) is not None,
    "N": lambda word: NAME.match(word) is not None,
    "I": is_integer,
    "X": lambda word: is_number(word, (1 << 32) - 1),
    "K": is_key,
}


def is_instruction(line):
    first, space, rest = line.partition(b" ")
    if not space:
        return False
    if first == b"text":
        register, space, text = rest.partition(b" ")
        return bool(
            space and FITS["R"](register) and len(text) <= MOST_TEXT and PRINTED.match(text)
        )
    form = FORMS.get(first)
    words = rest.split(b" ")
    if form is None or len(words) != len(form):
        return False
    if not all(FITS[letter](word) for letter, word in zip(form, words)):
        return False
    registers = [word for letter, word in zip(form, words) if letter == "R"]
    return len(set(registers)) == len(registers)


def first_word(line):
    return line.partition(b" ")[0]


def is_closed(lines):
    """Whether the first of the lines that begins with `end`, `section` or `repeat` begins with `end`."""
    words = (first_word(line) for line in lines)
    return next((word for word in words if word in (b"end", b"section", b"repeat")), None) == b"end"


def bad_line(text):
    """The least bad line of a script; None where it is one."""
    if len(text) > MOST_BYTES:
        return 0
    lines = text.split(b"\n")
    if not lines[-1]:
        lines.pop()
    if not any(first_word(line) == b"section" for line in lines):
        return 1
    names, is_open = [], False
    for at, line in enumerate(lines, 1):
        if not line or (line[:1] == b"#" and max(line) < 128):
            continue
        first, space, rest = line.partition(b" ")
        if first == b"section":
            if not (space and SECTION_NAME.match(rest)) or rest in names or len(names) == MOST_SECTIONS:
                return at
            names.append(rest)
        elif first == b"repeat":
            if not (space and is_number(rest, MOST_TIMES)) or not names or not is_closed(lines[at:]):
                return at
            is_open = True
        elif first == b"end":
            if line != b"end" or not is_open:
                return at
            is_open = False
        elif not is_instruction(line) or not names:
            return at
    return None


def section_names(text):
    lines = text.split(b"\n")
    return [line.partition(b" ")[2].decode() for line in lines if line.startswith(b"section ")]


def is_number_list(words):
    return all(NUMBER.match(word.encode()) for word in words)


def fits(text, status, output):
    """Whether a script may end with this status and this output."""
    names = section_names(text)
    lines = output.split("\n")
    if lines.pop() != "":
        return False
    at, faulted, done = 0, False, 0
    while at < len(lines):
        name, colon, _said = lines[at].partition(": ")
        if not colon or name not in names[done:]:
            break
        done += names[done:].index(name)
        fault = re.fullmatch(r"fault ([0-9]+) ([A-Za-z]+) line ([0-9]+)", _said)
        if fault and FAULTS.get(int(fault[1])) == fault[2]:
            faulted = True
        at += 1
    if at == len(lines) or not re.fullmatch(r"ledger [0-9]+ [0-9]+ [0-9]+", lines[at]):
        return False
    allocs, frees, live = (int(word) for word in lines[at].split(" ")[1:])
    remains = [line for line in lines[at + 1 :] if line.startswith("remain ")]
    cycles = [line for line in lines[at + 1 :] if line.startswith("cycle ")]
    if lines[at + 1 :] != remains + cycles or len(remains) != live or allocs - frees != live:
        return False
    if not all(re.fullmatch(r"remain [0-9]+ (int|text|list|dict|mailbox) [0-9]+", line) for line in remains):
        return False
    if not all(is_number_list(line.split(" ")[1:]) for line in cycles):
        return False
    if faulted:
        return status == 4
    return status == (1 if live else 0)
