"""A reader of DOT, and of the texts that `brc graph` takes, written from docs/HEAP.md alone and from the grammar that graphviz publishes.

python3 oracle/dot_rules.py BRC FILE..      draws each file by `BRC graph`, reads the picture as DOT, and compares its nodes, edges and boxes
                                            with what the file says; a file that is refused must be bad by the rules, at that line
python3 oracle/dot_rules.py BRC -n COUNT SEED FILE..   the same of so many texts, each a file that is broken at random

The last line is `N pictures, M refusals, K not as the rules say`."""
import random
import re
import subprocess
import sys

KINDS = "int text list dict mailbox".split()
STATUSES = "active closing left gathered opening".split()
HOLDING = "asked shut taking held".split()
PHASES = HOLDING + "claimed counted ready zero over untied popping offered yielding".split()

# ---- DOT: graph = [strict] (graph | digraph) [ID] { statements }

TOKEN = re.compile(r'\s*("(?:[^"\\]|\\.)*"|[A-Za-z_][A-Za-z_0-9]*|-?(?:\.\d+|\d+(?:\.\d*)?)|->|--|[{}\[\];,=:])')


def tokens(text):
    at, found = 0, []
    while text[at:].strip():
        token = TOKEN.match(text, at)
        if not token:
            raise SyntaxError(f"no token at {text[at:at + 20]!r}")
        found.append(token.group(1))
        at = token.end()
    return found


class Dot:
    """Nodes with their attributes, edges with theirs in order, and the nodes of each subgraph by its name."""

    def __init__(self, text):
        self.rest = tokens(text)
        self.nodes, self.edges, self.boxes = {}, [], {}
        self.take("digraph")
        if self.rest[0] != "{":
            self.name()
        self.take("{")
        self.statements(None)
        if self.rest:
            raise SyntaxError("something stands behind the graph")

    def take(self, token):
        if not self.rest or self.rest.pop(0) != token:
            raise SyntaxError(f"no {token}")

    def name(self):
        token = self.rest.pop(0)
        if token.lower() in ("node", "edge", "graph", "digraph", "subgraph", "strict"):
            raise SyntaxError(f"{token} is a keyword")
        if token[0] == '"':
            return token[1:-1]
        if not re.fullmatch(r"[A-Za-z_]\w*|-?(\.\d+|\d+(\.\d*)?)", token):
            raise SyntaxError(f"{token} is no name")
        return token

    def attributes(self):
        found = {}
        while self.rest[0] == "[":
            self.take("[")
            while self.rest[0] != "]":
                key = self.name()
                self.take("=")
                found[key] = self.name()
                if self.rest[0] in ",;":
                    self.rest.pop(0)
            self.take("]")
        return found

    def statements(self, box):
        while self.rest[0] != "}":
            if self.rest[0] == "subgraph":
                self.rest.pop(0)
                name = self.name()
                self.take("{")
                self.boxes[name] = ({}, [])
                self.statements(self.boxes[name])
            else:
                first = self.name()
                if self.rest[0] == "=":
                    self.rest.pop(0)
                    (box[0] if box else {})[first] = self.name()
                elif self.rest[0] == "->":
                    self.rest.pop(0)
                    second = self.name()
                    self.edges.append((first, second, self.attributes().get("label")))
                    self.nodes.setdefault(first, {})
                    self.nodes.setdefault(second, {})
                else:
                    self.nodes.setdefault(first, {}).update(self.attributes())
                    if box:
                        box[1].append(first)
            if self.rest[0] == ";":
                self.rest.pop(0)
        self.take("}")


# ---- reports and worlds, by docs/HEAP.md

def number(word, least, most):
    return re.fullmatch("0|[1-9][0-9]*", word) is not None and least <= int(word) <= most


def thread(word):
    return number(word, 1, 64)


def cell(word):
    return number(word, 0, 65535)


def mortal(word):
    return number(word, 266, 65535)


def whole(word):
    return number(word, 0, 2**64 - 1)


def count(word):
    return whole(word) or word[:1] == "-" and number(word[1:], 1, 2**64 - 1)


def local(word):
    return word == "-" or number(word, 0, 2**32 - 1)


def place(word):
    return number(word, 0, 65535)


def index(word):
    return number(word, 0, 1048575)


def among(*words):
    return lambda word: word in words


FORMS = {
    "ledger": [whole, whole, whole],
    "remain": [mortal, among(*KINDS), cell],
    "edition": [among("2")],
    "world": [lambda word: number(word, 512, 65536), lambda word: number(word, 1, 2**32 - 2)],
    "thread": [thread, among(*STATUSES)],
    "hand": [thread, among(*PHASES), cell],
    "locked": [thread, place, cell],
    "frame": [thread, place, cell],
    "queued": [thread, cell],
    "popped": [thread, cell],
    "work": [thread, cell],
    "entry": [cell, index, cell],
    "object": [mortal, among(*KINDS), lambda word: number(word, 0, 64), local, count, among("default", "queued", "merged"), count],
}
IN_WORLD = "thread hand locked frame queued popped work entry object".split()
AFTER = {
    "start": {"edition": "edition", "world": "world", "ledger": "remains"},
    "printed": {"ledger": "remains"},
    "remains": {"remain": "remains", "cycle": "cycles"},
    "cycles": {"cycle": "cycles"},
    "edition": {"world": "world"},
    "world": {"ledger": "ended", **{word: "world" for word in IN_WORLD}},
    "ended": {},
}


def has_form(words):
    if words[0] == "cycle":
        return 1 <= len(words) - 1 <= 65536 and all(map(cell, words[1:]))
    form = FORMS.get(words[0])
    return form is not None and len(form) == len(words) - 1 and all(test(word) for test, word in zip(form, words[1:]))


def cycles_of(objects, entries):
    """The cycles of a world: along the lowest holder of each object, each from its lowest cell on."""
    lowest = {}
    for holder, entry in entries:
        lowest[entry] = min(holder, lowest.get(entry, holder))
    found = {}
    for first in objects:
        path, at = [], first
        while at in objects and at in lowest and at not in path:
            path.append(at)
            at = lowest[at]
        if path and at == first == min(path):
            found[f"cluster_{first}"] = [str(it) for it in path]
    return found


def graph_of(text):
    """Nodes with their labels, edges, boxes; or the number of the first bad line."""
    nodes, edges, boxes = {"265": "265 globals"}, [], {}
    objects, entries = [], []
    part, number_of_line = "start", 1
    while text:
        line, feed, text = text.partition("\n")
        if not feed:
            return number_of_line
        words = line.split(" ")
        if part in ("start", "printed") and re.match("[a-z0-9]{1,32}: ", line):
            part = "printed"
        elif words[0] in AFTER[part] and has_form(words):
            part = AFTER[part][words[0]]
            word, *said = words
            if word in ("remain", "object"):
                nodes[said[0]] = f"{said[0]} {said[1]}"
            if word == "remain":
                edges.append((said[2], said[0], None))
            if word == "cycle":
                boxes[f"cluster_{said[0]}"] = said
            if word == "thread":
                nodes["t" + said[0]] = f"thread {said[0]} {said[1]}"
            if word == "frame":
                edges.append(("t" + said[0], said[2], f"frame {said[1]}"))
            if word in ("queued", "popped"):
                edges.append(("t" + said[0], said[1], word))
            if word == "hand" and said[1] in HOLDING:
                edges.append(("t" + said[0], said[2], said[1]))
            if word == "entry":
                edges.append((said[0], said[2], said[1]))
                entries.append((int(said[0]), int(said[2])))
            if word == "object":
                objects.append(int(said[0]))
        else:
            return number_of_line
        number_of_line += 1
    if part == "ended":
        boxes = cycles_of(objects, entries)
    return (nodes, edges, boxes) if part in ("remains", "cycles", "ended") else number_of_line


# ---- what the program draws

def is_as_said(brc, text):
    """Whether the program answers so; and whether it draws a picture."""
    ran = subprocess.run([brc, "graph"], input=text.encode("latin-1"), capture_output=True)
    wanted = graph_of(text)
    if isinstance(wanted, int):
        said = f"brc: line {wanted}: not a report or world line\n".encode()
        return (ran.returncode, ran.stdout, ran.stderr) == (3, b"", said), False
    try:
        dot = Dot(ran.stdout.decode())
    except SyntaxError as error:
        print("no DOT:", error)
        return False, True
    nodes, edges, boxes = wanted
    labels = {node: said["label"] for node, said in dot.nodes.items() if "label" in said}
    same = labels == nodes and dot.edges == edges
    for name, cells in boxes.items():
        same = same and dot.boxes.get(name, ({}, None))[0].get("label") == "cycle"
    same = same and set(dot.boxes) == set(boxes)
    if len(boxes) == len({cells[0] for cells in boxes.values()}):
        same = same and all(set(cells) <= set(dot.boxes[name][1]) for name, cells in boxes.items())
    return same and (ran.returncode, ran.stderr) == (0, b""), True


def broken(draw, text):
    """The text with a change or two."""
    for _ in range(draw.choice([0, 1, 1, 1, 2])):
        lines = text.split("\n")
        at = draw.randrange(len(lines))
        way = draw.randrange(8)
        if way == 0:
            del lines[at]
        elif way == 1:
            lines.insert(at, draw.choice(lines))
        elif way == 2:
            other = draw.randrange(len(lines))
            lines[at], lines[other] = lines[other], lines[at]
        elif way == 3:
            lines[at] = re.sub(r"\d+", lambda _: draw.choice("0 1 64 65 265 266 65535 65536 00 18446744073709551616".split()), lines[at], count=1)
        elif way == 4:
            words = lines[at].split(" ")
            words[draw.randrange(len(words))] = draw.choice(KINDS + PHASES + STATUSES + ["-", "-1", "", "remain", "cycle", "a:", "2"])
            lines[at] = " ".join(words)
        elif way == 5:
            lines[at] += draw.choice([" ", "\r", " 0", "x"])
        elif way == 6:
            lines[at] = draw.choice(["a: 1", "", "cycle 266 267", "remain 266 list 265", "entry 265 0 266", "ledger 0 0 0", "edition 2"])
        else:
            text = "\n".join(lines)
            lines = text[: draw.randrange(len(text) + 1)].split("\n")
        text = "\n".join(lines)
    return text


def main():
    brc, *words = sys.argv[1:]
    count_of, seed = 0, 0
    if words[:1] == ["-n"]:
        count_of, seed, words = int(words[1]), int(words[2]), words[3:]
    texts = [open(name, encoding="latin-1").read() for name in words]
    if count_of:
        draw = random.Random(seed)
        texts = [broken(draw, draw.choice(texts)) for _ in range(count_of)]
    drawn, refused, wrong = 0, 0, 0
    for text in texts:
        same, is_drawn = is_as_said(brc, text)
        drawn += is_drawn
        refused += not is_drawn
        if not same:
            wrong += 1
            print("not as the rules say:", repr(text[:400]))
    print(f"{drawn} pictures, {refused} refusals, {wrong} not as the rules say")
    return wrong > 0


if __name__ == "__main__":
    sys.exit(main())
