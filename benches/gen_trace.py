#!/usr/bin/env python3
"""Writes a trace of all kinds of events, of which each is enabled where it stands.

    python3 gen_trace.py LINES [SEED] > long.trace

The same LINES and SEED give the same bytes. LINES is the whole length, the head included; from some 60,000 on every
kind of event is there. A million lines are 12.8 MB; a trace may have 16,777,216 bytes.

Eight threads work in four pairs in a heap of 65,536 cells. The two threads of a pair hold one list, through which they
pass references; it lies in place 1 of both frames. A ninth thread makes objects of its own and leaves once half of the
lines are written: it closes its 2,048 queue words and is gathered. Each thread or pair plays one scene after another,
and their lines are mixed, a few of one and then a few of another, as the seed has it.
"""
import random
import sys

CELLS = 65_536
FIRST_MORTAL = 266
GLOBALS = 265
CELLS_PER_WORD = 32
PAIRS = [(1, 2), (3, 4), (5, 6), (7, 8)]
GUEST = 9
KINDS = ["int", "text", "list", "dict", "mailbox"]

# Places of a frame: the globals, the pair's list, those of a scene, and those of objects that stay.
GLOBALS_PLACE, LIST_PLACE, SCENE_PLACE, KEPT_PLACE = 0, 1, 10, 1_000
MOST_KEPT = 7_000

# How many lines it takes until both threads of a pair hold its list.
LINES_OF_A_LIST = 11


class Heap:
    """The cells that are free, and how many objects each thread keeps."""

    def __init__(self, seed):
        self.random = random.Random(seed)
        self.free = list(range(CELLS - 1, FIRST_MORTAL - 1, -1))
        self.kept = {}

    def born(self, thread, kind, place):
        """A new object: its cell, and the lines of its birth."""
        cell = self.free.pop()
        return cell, [
            f"{thread} claim {cell}",
            f"{thread} local {cell}",
            f"{thread} shared {cell}",
            f"{thread} born {cell} {kind} {place}",
        ]

    def gone(self, *cells):
        """These cells are free again."""
        self.free.extend(cells)


def own_life(heap, thread):
    """The owner counts its object up and down, gives it up, and gives the block back."""
    cell, lines = heap.born(thread, heap.random.choice(KINDS), SCENE_PLACE)
    yield from lines
    more = heap.random.randint(0, 6)
    for place in range(SCENE_PLACE + 1, SCENE_PLACE + 1 + more):
        yield f"{thread} up f{SCENE_PLACE} {place}"
    for place in range(SCENE_PLACE + more, SCENE_PLACE - 1, -1):
        yield f"{thread} down f{place}"
    yield f"{thread} see {cell}"
    yield f"{thread} free {cell}"
    heap.gone(cell)


def list_life(heap, thread):
    """A list gets entries, one is read and one exchanged; it dies, and its entries go one by one."""
    held, spare = SCENE_PLACE + 1, SCENE_PLACE + 2
    cell, lines = heap.born(thread, "list", SCENE_PLACE)
    yield from lines
    entry, lines = heap.born(thread, "int", held)
    yield from lines
    count = heap.random.randint(1, 5)
    for _ in range(count):
        yield f"{thread} up f{held} {spare}"
        yield f"{thread} lock {SCENE_PLACE}"
        yield f"{thread} unlock put {spare}"
    yield f"{thread} lock {SCENE_PLACE}"
    yield f"{thread} up e{heap.random.randrange(count)} {spare}"
    yield f"{thread} unlock keep"
    yield f"{thread} lock {SCENE_PLACE}"
    yield f"{thread} unlock swap {heap.random.randrange(count)} {spare}"
    for place in (spare, held, SCENE_PLACE):
        yield f"{thread} down f{place}"
    yield f"{thread} see {cell}"
    for _ in range(count):
        yield f"{thread} down w{cell}"
    yield f"{thread} see {entry}"
    yield f"{thread} free {entry}"
    yield f"{thread} free {cell}"
    heap.gone(cell, entry)


def lent(heap, owner, other):
    """Another thread counts an object on its shared word; the owner's count ends first, and the object is merged."""
    cell, lines = heap.born(owner, "text", SCENE_PLACE)
    yield from lines
    yield f"{owner} lock {LIST_PLACE}"
    yield f"{owner} unlock put {SCENE_PLACE}"
    yield f"{other} lock {LIST_PLACE}"
    yield f"{other} shup e0 {SCENE_PLACE}"
    yield f"{other} unlock keep"
    more = range(SCENE_PLACE + 1, SCENE_PLACE + 1 + heap.random.randint(0, 5))
    for place in more:
        yield f"{other} shup f{SCENE_PLACE} {place}"
    for place in more:
        yield f"{other} shdown f{place}"
    yield f"{owner} lock {LIST_PLACE}"
    yield f"{owner} unlock take 0 {SCENE_PLACE}"
    yield f"{owner} down f{SCENE_PLACE}"
    yield f"{owner} see {cell}"
    yield f"{owner} untie {cell}"
    yield f"{owner} zero {cell}"
    yield f"{other} last f{SCENE_PLACE}"
    yield f"{other} free {cell}"
    heap.gone(cell)


def handed_over(heap, owner, other):
    """Another thread has the only reference, gives it up, and asks the owner to merge."""
    cell, lines = heap.born(owner, "dict", SCENE_PLACE)
    yield from lines
    yield f"{owner} lock {LIST_PLACE}"
    yield f"{owner} unlock put {SCENE_PLACE}"
    yield f"{other} lock {LIST_PLACE}"
    yield f"{other} unlock take 0 {SCENE_PLACE}"
    yield f"{other} ask f{SCENE_PLACE}"
    yield f"{other} enq {cell}"
    yield f"{other} nudge {owner} {cell // CELLS_PER_WORD}"
    yield f"{owner} wake"
    yield f"{owner} drain {cell // CELLS_PER_WORD}"
    yield f"{owner} untie {cell}"
    yield f"{owner} add {cell}"
    yield f"{owner} last q{cell}"
    yield f"{owner} free {cell}"
    heap.gone(cell)


def kept(heap, thread):
    """An object that stays to the end; past some thousands a thread makes no more of them."""
    count = heap.kept.get(thread, 0)
    if count == MOST_KEPT:
        yield from own_life(heap, thread)
        return
    heap.kept[thread] = count + 1
    _, lines = heap.born(thread, heap.random.choice(KINDS), KEPT_PLACE + count)
    yield from lines


def pair_scenes(heap, first, second):
    """The pair's list, and then scenes without end."""
    cell, lines = heap.born(first, "list", LIST_PLACE)
    yield from lines
    yield f"{first} up i{GLOBALS} {GLOBALS_PLACE}"
    yield f"{first} up f{LIST_PLACE} {SCENE_PLACE}"
    yield f"{first} lock {GLOBALS_PLACE}"
    yield f"{first} unlock put {SCENE_PLACE}"
    yield f"{second} up i{GLOBALS} {GLOBALS_PLACE}"
    yield f"{second} lock {GLOBALS_PLACE}"
    yield f"{second} unlock take 0 {LIST_PLACE}"
    while True:
        owner, other = heap.random.choice([(first, second), (second, first)])
        draw = heap.random.random()
        if draw < 0.35:
            yield from own_life(heap, owner)
        elif draw < 0.6:
            yield from list_life(heap, owner)
        elif draw < 0.75:
            yield from lent(heap, owner, other)
        elif draw < 0.9:
            yield from handed_over(heap, owner, other)
        else:
            yield from kept(heap, owner)


def guest_scenes(heap, has_to_leave):
    """Objects of its own until it has to leave; then all its queue words are closed, and it is gathered."""
    while not has_to_leave():
        yield from own_life(heap, GUEST)
    for word in range(CELLS // CELLS_PER_WORD):
        yield f"{GUEST} close {word}"
    yield f"0 gather {GUEST}"


def trace(count, seed):
    """The lines of the trace."""
    heap = Heap(seed)
    lines = [f"heap {CELLS} 4294967294"]
    lines += [f"0 register {thread}" for thread in range(1, GUEST + 1)]
    scenes = [pair_scenes(heap, *pair) for pair in PAIRS]
    # The lists are passed first, one pair after the other, so that each is the only entry of the globals.
    for scene in scenes:
        lines += [next(scene) for _ in range(LINES_OF_A_LIST)]
    scenes.append(guest_scenes(heap, lambda: len(lines) > count // 2))
    while len(lines) < count:
        scene = heap.random.choice(scenes)
        for _ in range(heap.random.randint(1, 4)):
            line = next(scene, None)
            if line is None:
                scenes.remove(scene)
                break
            lines.append(line)
    return lines[:count]


def main():
    if len(sys.argv) not in (2, 3):
        sys.exit(__doc__)
    seed = int(sys.argv[2]) if len(sys.argv) == 3 else 1
    sys.stdout.write("".join(line + "\n" for line in trace(int(sys.argv[1]), seed)))


if __name__ == "__main__":
    main()
