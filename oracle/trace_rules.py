"""What `brc replay` answers, by the rules of docs/HEAP.md: read anew here, and slowly, so that the proved program can be compared.

    trace_rules.py < TRACE

writes the world, or the error line on standard error, and ends with the status. `broken.py` compares the program with it.
"""

import re
import sys

MOST_BYTES = 16_777_216
MOST_ENTRIES = 1_048_576
MOST_REGISTRATIONS = 65_536
GLOBALS = 265
FIRST_MORTAL = 266
KINDS = ("int", "text", "list", "dict", "mailbox")
CONTAINERS = ("list", "dict", "mailbox")
NUMBER = re.compile(rb"(0|[1-9][0-9]*)\Z")
FREE = "free"
DEFAULT, QUEUED, MERGED = "default", "queued", "merged"


class Refused(Exception):
    """A line is bad, or isn't enabled."""

    def __init__(self, line, reason):
        super().__init__(f"brc: line {line}: {reason}")


class NotEnabled(Exception):
    """A condition of an event fails."""


def needs(condition):
    if not condition:
        raise NotEnabled


# ---- the text


def number(word, least, most):
    """The number that the word spells, in these limits; else None."""
    if not NUMBER.match(word) or len(word) > 20:
        return None
    value = int(word)
    return value if least <= value <= most else None


LIMITS = {
    "thread": (1, 64),
    "cell": (0, 65_535),
    "place": (0, 65_535),
    "entry": (0, MOST_ENTRIES - 1),
    "word": (0, 2_047),
}

PLACES = {b"f": "place", b"e": "entry", b"i": "cell", b"w": "cell", b"q": "cell"}


def operand(word, form):
    """The value of one word in this form; else None."""
    if form in LIMITS:
        return number(word, *LIMITS[form])
    if form == "kind":
        kind = word.decode("ascii", "replace")
        return kind if kind in KINDS else None
    if word == b"h":
        return ("h", None) if "h" in form else None
    letter = word[:1]
    if not letter or letter.decode("latin-1") not in form or letter not in PLACES:
        return None
    value = number(word[1:], *LIMITS[PLACES[letter]])
    return None if value is None else (letter.decode(), value)


# (the words behind the event's own; a string of letters is a source or a drop)
FORMS = {
    b"claim": ("cell",),
    b"local": ("cell",),
    b"shared": ("cell",),
    b"born": ("cell", "kind", "place"),
    b"up": ("fei", "place"),
    b"down": ("fw",),
    b"see": ("cell",),
    b"free": ("cell",),
    b"untie": ("cell",),
    b"zero": ("cell",),
    b"shup": ("fei", "place"),
    b"shdown": ("fw",),
    b"ask": ("fw",),
    b"last": ("fwqh",),
    b"enq": ("cell",),
    b"drain": ("word",),
    b"add": ("cell",),
    b"close": ("word",),
    b"nudge": ("thread", "word"),
    b"wake": (),
    b"lock": ("place",),
}

# (the events that format 2 alone has)
SECOND_FORMS = {
    b"offer": ("cell",),
    b"open": ("word",),
}

CHANGES = {
    b"keep": (),
    b"put": ("place",),
    b"take": ("entry", "place"),
    b"swap": ("entry", "place"),
}


def operands(words, forms):
    if len(words) != len(forms):
        return None
    values = [operand(word, form) for word, form in zip(words, forms)]
    return None if None in values else values


def event_of(edition, line):
    """The event of a line, as its thread, its word and its operands; None where it isn't a trace line of this edition."""
    words = line.split(b" ")
    if len(words) < 2:
        return None
    if words[0] == b"0":
        if words[1] not in (b"register", b"gather"):
            return None
        values = operands(words[2:], ("thread",))
        return None if values is None else (0, words[1].decode(), values)
    thread = number(words[0], 1, 64)
    if thread is None:
        return None
    if words[1] == b"unlock":
        if len(words) < 3 or words[2] not in CHANGES:
            return None
        values = operands(words[3:], CHANGES[words[2]])
        return None if values is None else (thread, "unlock", [words[2].decode(), *values])
    forms = {**FORMS, **SECOND_FORMS} if edition == 2 else FORMS
    if words[1] not in forms:
        return None
    values = operands(words[2:], forms[words[1]])
    return None if values is None else (thread, words[1].decode(), values)


def sizes_of(line):
    """The cells and the limit of a head; None where the line is none."""
    words = line.split(b" ")
    if len(words) != 3 or words[0] != b"heap":
        return None
    sizes = (number(words[1], 512, 65_536), number(words[2], 1, 4_294_967_294))
    return None if None in sizes else sizes


def read_trace(text):
    """The edition, the cells, the limit and the events of a trace."""
    if len(text) > MOST_BYTES:
        raise Refused(0, "not a trace line")
    lines = text.split(b"\n")
    unended = lines.pop()
    edition = 2 if lines[:1] == [b"trace 2"] else 1
    sizes, events = None, []
    for at, line in enumerate(lines, 1):
        if at < edition:
            continue
        if at == edition:
            sizes = sizes_of(line)
            if sizes is None:
                raise Refused(at, "not a trace line")
        else:
            event = event_of(edition, line)
            if event is None:
                raise Refused(at, "not a trace line")
            events.append(event)
    if unended or sizes is None:
        raise Refused(len(lines) + 1, "not a trace line")
    return (edition, *sizes, events)


# ---- the world


class Thread:
    def __init__(self):
        self.status = "active"
        self.hand = None
        self.locked = None
        self.frame = {}
        self.queued, self.popped, self.work = set(), set(), set()
        self.closed = set()
        self.notified = set()
        self.allocs = self.frees = 0


class Cell:
    def __init__(self):
        self.owner, self.local, self.count, self.state = FREE, 0, 0, DEFAULT
        self.mutex, self.bearer, self.kind, self.entries = 0, None, None, []


class World:
    def __init__(self, edition, cells, limit):
        self.edition, self.size, self.limit = edition, cells, limit
        self.registrations = self.past_allocs = self.past_frees = 0
        self.cells = {}
        self.threads = {}
        self.globals = self.cell(GLOBALS)
        self.globals.kind = "dict"

    def cell(self, at):
        return self.cells.setdefault(at, Cell())

    def words(self):
        return (self.size + 31) // 32

    def lives(self, at):
        return at >= FIRST_MORTAL and at in self.cells and self.cells[at].kind is not None

    # ---- one event

    def step(self, event):
        thread, word, values = event
        if thread == 0:
            getattr(self, word)(*values)
            return
        t = self.threads.get(thread)
        needs(t is not None and t.status != "gathered")
        if t.locked is not None:
            from_entry = word in ("up", "shup") and values[0][0] == "e"
            needs(word == "unlock" or from_entry)
        elif word in ("up", "shup"):
            needs(values[0][0] != "e")
        if t.status == "closing":
            needs(word == "close")
        if t.status == "opening":
            needs(word == "open")
        if t.status == "left":
            needs(word in ("down", "shdown", "ask", "last", "enq", "untie", "add", "free", "nudge"))
        names_a_hand = word in ("local", "shared", "born", "see", "zero", "untie", "enq", "add")
        if not names_a_hand and not (word == "last" and values[0][0] == "h"):
            needs(t.hand is None)
        getattr(self, word)(thread, t, *values)

    # what sources and drops name

    def source(self, t, named):
        letter, at = named
        if letter == "i":
            needs(at <= GLOBALS)
            return at
        if letter == "f":
            needs(at in t.frame)
            return t.frame[at]
        entries = self.cell(t.frame[t.locked]).entries
        needs(at < len(entries))
        return entries[at]

    def dropped(self, t, named):
        letter, at = named
        if letter == "f":
            needs(at in t.frame)
            return t.frame[at]
        if letter == "w":
            needs(at in t.work and self.cell(at).entries)
            return self.cell(at).entries[-1]
        if letter == "q":
            needs(at in t.popped)
            return at
        needs(t.hand is not None)
        return t.hand[1]

    def goes(self, t, named):
        letter, at = named
        if letter == "f":
            del t.frame[at]
        elif letter == "w":
            self.cell(at).entries.pop()
        elif letter == "q":
            t.popped.remove(at)
        else:
            t.hand = None

    def mine(self, thread, t, x):
        return x >= FIRST_MORTAL and t.status == "active" and self.cell(x).owner == thread

    def may_up(self, thread, t, x):
        return x < FIRST_MORTAL or (self.mine(thread, t, x) and self.cell(x).local < self.limit)

    def takes_if_dead(self, t, x):
        cell = self.cell(x)
        if cell.state == MERGED and cell.count == 0:
            t.work.add(x)

    # ---- threads

    def register(self, new):
        free = [n for n, t in sorted(self.threads.items()) if t.status == "gathered"]
        if self.edition == 1 or not free:
            needs(new == len(self.threads) + 1)
            again = None
        else:
            needs(new == free[0])
            again = self.threads[new]
        if self.edition == 2:
            needs(self.registrations < MOST_REGISTRATIONS)
        self.registrations += 1
        self.threads[new] = t = Thread()
        if again is not None:
            t.status = "opening"
            t.closed, t.notified = set(range(self.words())), again.notified
            self.past_allocs += again.allocs
            self.past_frees += again.frees

    def gather(self, thread):
        t = self.threads.get(thread)
        needs(t is not None and t.status == "left")
        needs(t.hand is None and not t.popped and not t.work)
        t.status = "gathered"

    # ---- birth

    def claim(self, thread, t, c):
        needs(FIRST_MORTAL <= c < self.size and self.cell(c).owner == FREE)
        needs(t.allocs < 1 << 47)
        self.cell(c).owner = ("claimed", thread)
        t.hand = ("claimed", c)

    def local(self, thread, t, c):
        needs(t.hand == ("claimed", c))
        self.cell(c).local = 1
        t.hand = ("counted", c)

    def shared(self, thread, t, c):
        needs(t.hand == ("counted", c))
        self.cell(c).count, self.cell(c).state = 0, DEFAULT
        t.hand = ("ready", c)

    def born(self, thread, t, c, kind, k):
        needs(t.hand == ("ready", c) and k not in t.frame)
        cell = self.cell(c)
        cell.owner = cell.bearer = thread
        cell.kind, cell.entries = kind, []
        t.frame[k] = c
        t.allocs += 1
        t.hand = None

    # ---- counting

    def up(self, thread, t, named, k):
        x = self.source(t, named)
        needs(k not in t.frame and self.may_up(thread, t, x))
        if x >= FIRST_MORTAL:
            self.cell(x).local += 1
        t.frame[k] = x

    def down(self, thread, t, named):
        x = self.dropped(t, named)
        needs(x < FIRST_MORTAL or self.mine(thread, t, x))
        self.goes(t, named)
        if x >= FIRST_MORTAL:
            self.cell(x).local -= 1
            if self.cell(x).local == 0:
                t.hand = ("zero", x)

    def shup(self, thread, t, named, k):
        x = self.source(t, named)
        needs(k not in t.frame and not self.may_up(thread, t, x))
        self.cell(x).count += 1
        t.frame[k] = x

    def shdown(self, thread, t, named):
        x = self.dropped(t, named)
        needs(x >= FIRST_MORTAL and not self.mine(thread, t, x))
        cell = self.cell(x)
        needs(cell.state == DEFAULT and cell.count >= 1)
        self.goes(t, named)
        cell.count -= 1

    # ---- a death or a merge by the owner

    def see(self, thread, t, c):
        needs(t.hand == ("zero", c))
        cell = self.cell(c)
        if cell.count == 0 and cell.state == DEFAULT:
            t.work.add(c)
            t.hand = None
        else:
            t.hand = ("over", c)

    def free(self, thread, t, c):
        needs(t.hand is None and c in t.work and not self.cell(c).entries)
        t.work.remove(c)
        cell = self.cell(c)
        cell.owner, cell.kind = FREE, None
        t.frees += 1

    def untie(self, thread, t, c):
        cell = self.cell(c)
        if self.edition == 2:
            needs(t.status == "active")
        if t.hand == ("over", c):
            t.hand = ("untied", c)
        elif t.hand == ("offered", c):
            t.hand = ("yielding", c)
        elif t.hand == ("shut", c):
            needs(self.edition == 1 and cell.owner != 0)
            t.hand = ("taking", c)
        else:
            needs(t.hand is None and c in t.popped and cell.owner == thread and cell.state == QUEUED)
            t.hand = ("popping", c)
        cell.owner = 0

    def zero(self, thread, t, c):
        needs(t.hand == ("untied", c))
        self.cell(c).state = MERGED
        t.hand = None
        self.takes_if_dead(t, c)

    # ---- queues

    def offer(self, thread, t, c):
        needs(t.status == "active" and c < self.size and c not in t.work)
        needs(self.cell(c).owner == thread)
        self.cell(c).state = QUEUED
        t.hand = ("offered", c)

    def open(self, thread, t, k):
        needs(t.status == "opening" and k < self.words() and k == self.words() - len(t.closed))
        t.closed.remove(k)
        if not t.closed:
            t.status = "active"

    def ask(self, thread, t, named):
        x = self.dropped(t, named)
        needs(x >= FIRST_MORTAL and not self.mine(thread, t, x))
        if self.cell(x).state == DEFAULT:
            self.cell(x).state = QUEUED
            self.goes(t, named)
            t.hand = ("asked", x)

    def last(self, thread, t, named):
        x = self.dropped(t, named)
        needs(x >= FIRST_MORTAL)
        cell = self.cell(x)
        needs(cell.state != DEFAULT)
        if named[0] in "fw":
            needs(not self.mine(thread, t, x))
        elif named[0] == "q":
            needs(cell.state == MERGED)
        else:
            phase = t.hand[0]
            needs(phase == "held" or (phase in ("asked", "shut") and cell.owner == 0))
        self.goes(t, named)
        cell.count -= 1
        self.takes_if_dead(t, x)

    def enq(self, thread, t, c):
        needs(t.hand == ("asked", c))
        q = self.threads[self.cell(c).bearer]
        if c // 32 in q.closed:
            t.hand = ("shut", c)
        else:
            q.queued.add(c)
            t.hand = None

    def drain(self, thread, t, k):
        needs(t.status == "active" and k < self.words())
        drained = {c for c in t.queued if c // 32 == k}
        t.queued -= drained
        t.popped |= drained

    def add(self, thread, t, c):
        needs(t.hand in (("taking", c), ("popping", c), ("yielding", c)))
        if self.edition == 2:
            needs(t.status == "active")
        cell = self.cell(c)
        cell.count += cell.local
        cell.state = MERGED
        t.hand = ("held", c) if t.hand[0] == "taking" else None
        self.takes_if_dead(t, c)

    def close(self, thread, t, k):
        needs(not t.frame and t.hand is None and t.locked is None)
        if self.edition == 1:
            needs(not t.work)
        else:
            needs(all(c in t.work for c in self.cells if self.cells[c].owner == thread))
        needs(k < self.words() and k == len(t.closed))
        needs(k > 0 or not t.popped)
        self.drain_closed(t, k)
        t.status = "left" if len(t.closed) == self.words() else "closing"

    def drain_closed(self, t, k):
        drained = {c for c in t.queued if c // 32 == k}
        t.queued -= drained
        t.popped |= drained
        t.closed.add(k)

    def nudge(self, thread, t, other, k):
        needs(other in self.threads and k < self.words())
        self.threads[other].notified.add(k // 32)

    def wake(self, thread, t):
        needs(t.status == "active")
        t.notified.clear()

    # ---- locks

    def lock(self, thread, t, k):
        needs(t.status == "active" and k in t.frame)
        cell = self.cell(t.frame[k])
        needs(cell.mutex == 0)
        cell.mutex = thread
        t.locked = k

    def unlock(self, thread, t, change, *values):
        needs(t.locked is not None)
        cell = self.cell(t.frame[t.locked])
        entries = cell.entries
        if change != "keep":
            needs(cell.kind in CONTAINERS and values[-1] != t.locked)
        if change == "put":
            (j,) = values
            needs(j in t.frame and len(entries) < MOST_ENTRIES)
            entries.append(t.frame.pop(j))
        elif change == "take":
            i, j = values
            needs(i < len(entries) and j not in t.frame)
            t.frame[j] = entries.pop(i)
        elif change == "swap":
            i, j = values
            needs(i < len(entries) and j in t.frame)
            entries[i], t.frame[j] = t.frame[j], entries[i]
        cell.mutex = 0
        t.locked = None

    # ---- what is shown

    def live(self):
        return [c for c in sorted(self.cells) if self.lives(c)]

    def shown(self):
        lines = ["edition 2"] if self.edition == 2 else []
        lines.append(f"world {self.size} {self.limit}")
        for n, t in sorted(self.threads.items()):
            lines.append(f"thread {n} {t.status}")
            if t.hand is not None:
                lines.append(f"hand {n} {t.hand[0]} {t.hand[1]}")
            if t.locked is not None:
                lines.append(f"locked {n} {t.locked} {t.frame[t.locked]}")
            lines += [f"frame {n} {k} {c}" for k, c in sorted(t.frame.items())]
            lines += [f"queued {n} {c}" for c in sorted(t.queued)]
            lines += [f"popped {n} {c}" for c in sorted(t.popped)]
            lines += [f"work {n} {c}" for c in sorted(t.work)]
        lines += [f"entry {GLOBALS} {i} {x}" for i, x in enumerate(self.globals.entries)]
        for c in self.live():
            cell = self.cells[c]
            merged = cell.state == MERGED
            local = "-" if merged else cell.local
            total = cell.count if merged else cell.local + cell.count
            lines.append(
                f"object {c} {cell.kind} {cell.owner} {local} {cell.count} {cell.state} {total}"
            )
            lines += [f"entry {c} {i} {x}" for i, x in enumerate(cell.entries)]
        allocs = self.past_allocs + sum(t.allocs for t in self.threads.values())
        frees = self.past_frees + sum(t.frees for t in self.threads.values())
        lines.append(f"ledger {allocs} {frees} {len(self.live())}")
        return "".join(line + "\n" for line in lines)


def replay(text):
    """The status, the output and the error line that a trace comes to."""
    try:
        edition, cells, limit, events = read_trace(text)
        world = World(edition, cells, limit)
        for at, event in enumerate(events, edition + 1):
            try:
                world.step(event)
            except NotEnabled:
                raise Refused(at, "not enabled") from None
    except Refused as refused:
        return 3, "", f"{refused}\n"
    return (1 if world.live() else 0), world.shown(), ""


if __name__ == "__main__":
    status, output, error = replay(sys.stdin.buffer.read())
    sys.stdout.write(output)
    sys.stderr.write(error)
    sys.exit(status)
