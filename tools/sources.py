"""What the pages that are made from the code read: files, functions with their clauses, and definitions of specs/."""
import functools
import os
import re

ROOT = os.path.dirname(os.path.dirname(os.path.abspath(__file__)))
ITEM = re.compile(r"^pub (?:const fn|fn|struct|enum|trait|type|const) (\w+)")
METHOD = re.compile(r"^    pub (?:const )?fn (\w+)")
OWNER = re.compile(r"^impl(?:<.*?>)? (?:(\w+)(?:<.*)? for )?(\w+)")
DEFINITION = re.compile(r"^(\s*)(?:abbrev pub ([^\s:]+)|unfoldable pub ([^\s:]+)|pub (?:record|data) ([^\s:({]+))")
WORD = re.compile(r"[A-Za-z_≤≡][\w'?-]*")


def text_of(path):
    with open(path, encoding="utf-8") as it:
        return it.read()


def files_of(crate, folder, ending):
    """The paths of a crate's files, from the root, in order; its tests aside."""
    for at, folders, names in os.walk(f"{ROOT}/crates/{crate}/{folder}"):
        folders[:] = sorted(it for it in folders if it not in ("out", "tests"))
        for name in sorted(names):
            if name.endswith(ending) and name != "tests.rt":
                yield os.path.relpath(f"{at}/{name}", ROOT)


@functools.cache
def crates():
    """The crates in the order of crates.txt, each with the libraries that it lists."""
    return [*listed_crates()]


def listed_crates():
    for line in text_of(f"{ROOT}/crates.txt").split("\n"):
        head, _, listed = line.split("#")[0].partition(":")
        if head.strip():
            yield head.split()[0], listed.split()


@functools.cache
def passed_on(crate):
    """What a crate passes on whole: the name under which it does so, and the crate (`pub use CRATE as NAME`, `pub use CRATE::{NAME, ..}`)."""
    path = f"{ROOT}/crates/{crate}/src/lib.rt"
    found, known = {}, {it for it, _ in crates()}
    if os.path.isfile(path):
        text = text_of(path)
        for low, name in re.findall(r"^pub use (\w+)(?: as (\w+))?;", text, re.M):
            if low in known:
                found[name or low] = low
        for low, many in re.findall(r"^pub use (\w+)::\{([^}]*)\};", text, re.M):
            if low in known:
                below = passed_on(low)
                found.update({it: below[it] for it in re.findall(r"\w+", many) if it in below})
    return found


def doc_above(lines, at):
    said = []
    while at > 0 and re.match(r"\s*(///|//|#\[)", lines[at - 1]):
        at -= 1
        if lines[at].strip().startswith("///"):
            said.insert(0, lines[at].strip()[3:].strip())
    return " ".join(said)


def first_sentence(said):
    return re.split(r"(?<=\.)\s", said)[0].replace("|", "&#124;")


def signature(lines, at):
    """A function's signature as one line, and its clauses."""
    indent = re.match(r"\s*", lines[at])[0]
    said, clauses, now = [], [], None
    while at < len(lines) and not re.match(rf"^{indent}\{{", lines[at]):
        line = lines[at]
        if re.match(r"\s*(requires|ensures)\*?\s", line):
            now = [line.strip()]
            clauses.append(now)
        elif line.strip().startswith("//"):
            pass
        elif now is not None:
            now.append(line.strip())
        else:
            said.append(line.strip())
        if now is None and line.rstrip().endswith(("{", ";", "{}")):
            break
        # (a call without a body ends with its last clause; a `;` within a clause ends a part of a record)
        if now is not None and line.rstrip().endswith(";") and sum(it.count("{") - it.count("}") for it in now) == 0:
            break
        at += 1
    text = re.sub(r"\s+", " ", " ".join(said)).rstrip("{; ").strip()
    return text.replace("( ", "(").replace(", )", ")"), [re.sub(r"\s+", " ", " ".join(it)) for it in clauses]


def functions(crate):
    """Each public function, and each of a public trait: (owner or '', name, path, doc, signature, clauses)."""
    for path in files_of(crate, "src", ".rt"):
        lines, owner, in_trait = text_of(f"{ROOT}/{path}").split("\n"), "", False
        for at, line in enumerate(lines):
            if re.match(r"^\S", line) and not line.startswith(("}", "//", "#", "use", "ghost", "where")):
                found, trait = OWNER.match(line), re.match(r"^pub trait (\w+)", line)
                owner, in_trait = (found[2] if found and not found[1] else ""), False
                if trait:
                    owner, in_trait = trait[1], True
            if re.match(r"^pub (?:const )?fn", line):
                yield "", ITEM.match(line)[1], path, doc_above(lines, at), *signature(lines, at)
            name = METHOD.match(line) or (in_trait and re.match(r"^    fn (\w+)", line))
            if name and owner:
                yield owner, name[1], path, doc_above(lines, at), *signature(lines, at)


def types(crate):
    """Each public type: (name, kind, path, doc, cases of an enum, what an alias stands for)."""
    for path in files_of(crate, "src", ".rt"):
        lines = text_of(f"{ROOT}/{path}").split("\n")
        for at, line in enumerate(lines):
            found = re.match(r"^pub (struct|enum|trait|type) (\w+)", line)
            if found:
                cases, below = [], at + 1
                while found[1] == "enum" and not lines[below].startswith("}"):
                    cases += re.findall(r"^    (\w+)", lines[below])
                    below += 1
                alias = re.search(r"= ((?:\w+::)+)(\w+)", " ".join(lines[at : at + 2])) if found[1] == "type" else None
                yield found[2], found[1], path, doc_above(lines, at), cases, alias


FUNCTION = re.compile(r"^( *)(?:pub(?:\([\w ]+\))? )?(?:const |final |unsafe )*(?:extern \"C\" )?fn (\w+)")
BLOCK = re.compile(r"^(?:(?:pub(?:\([\w ]+\))? )?trait (\w+)|impl\b)")
CONSTANT = re.compile(r"^(?:pub(?:\([\w ]+\))? )?(?:const|static) (\w+)")


def header(lines, at):
    """Of an `impl` that begins here: its trait, if it has one, and its type."""
    text, deep = re.sub(r"\s+", " ", " ".join(lines[at : at + 12]).split("{")[0])[len("impl") :].strip(), 0
    for place, sign in enumerate(text if text.startswith("<") else ""):
        deep += (sign == "<") - (sign == ">" and text[place - 1] != "-")
        if not deep:
            text = text[place + 1 :].strip()
            break
    trait, _, of = text.partition(" for ") if " for " in text else ("", "", text)
    return re.split(r"\W", trait)[0], re.search(r"\w+", re.sub(r"'\w+|\bmut\b|\w+::", "", of))[0]


def end_of(lines, at, indent):
    """The last line of the function that begins here: a brace that stands as far in, or the `;` of a call without a body."""
    deep, has_body = 0, False
    while at < len(lines):
        line = lines[at]
        deep += line.count("{") - line.count("}")
        has_body = has_body or re.match(rf"^{indent}\{{", line) or not re.match(r"\s*(requires|ensures)", line) and line.endswith(" {")
        if re.match(rf"^{indent}(\}}|\{{\}})", line) or not has_body and not deep and line.endswith(";"):
            return at
        at += 1
    return at


@functools.cache
def bodies(path):
    """Each function, constant and ghost member of a file: (first line, last line, name, its trait if it is of an impl of one, its clauses)."""
    lines, found, trait, owner = text_of(f"{ROOT}/{path}").split("\n"), [], "", ""
    for at, line in enumerate(lines):
        block, fn = BLOCK.match(line), FUNCTION.match(line)
        if block:
            trait, owner = ("", block[1]) if block[1] else header(lines, at)
        elif re.match(r"^\}", line):
            trait, owner = "", ""
        if fn:
            names = [re.match(r"(requires|ensures)\*? (?:(\w+) )?", it) for it in signature(lines, at)[1]]
            name = f"{owner}::{fn[2]}" if fn[1] and owner else fn[2]
            found.append((at, end_of(lines, at, fn[1]), name, trait if fn[1] else "", {(it[1], it[2]) for it in names if it[2]}))
        elif CONSTANT.match(line):
            found.append((at, at, CONSTANT.match(line)[1], "", set()))
        elif owner and re.match(r"^    ghost \w+ *[:=]", line):
            found.append((at, at, f"{owner}::{re.match(r'^ *ghost (.+?) *[:=]', line)[1]}", trait, set()))
    return found


def definition_at(path, last):
    """The definition of a file of specs/ that has this line."""
    found, inside = None, None
    for line in text_of(f"{ROOT}/{path}").split("\n")[: last + 1]:
        indent = len(line) - len(line.lstrip())
        if not line.strip() or line.lstrip().startswith("--") or inside is not None and indent > inside:
            continue
        inside = None
        named = re.match(r"^\s*(?:abbrev |unfoldable )?(?:pub )?(?:(record|data) ([^\s:({]+)|([^\s:({]+) :)", line)
        if named:
            found, inside = named[2] or named[3], indent if named[1] else None
    return found


@functools.cache
def all_clauses():
    """Of each name of a function in the repository: the (requires or ensures, name) of its clauses, in whichever type or trait it stands."""
    found = {}
    for crate, _ in crates():
        for path in files_of(crate, "src", ".rt"):
            for _first, _last, name, _trait, clauses in bodies(path):
                found.setdefault(name, set()).update(clauses)
                found.setdefault(name.split("::")[-1], set()).update(clauses)
    return found


def read_edit(path):
    """A wrong body: the texts of its `breaks:` lines, and its pairs (file, old text, new text)."""
    file, old, pairs, breaks = None, None, [], []
    for line in text_of(path).split("\n"):
        if line.startswith("breaks:"):
            breaks.append(line[len("breaks:") :].strip())
        elif line.startswith("file: "):
            file = line[len("file: ") :].strip()
        elif line.startswith("old:"):
            old = line[len("old:") :].removeprefix(" ")
        elif line.startswith("new:"):
            pairs.append((file, old, line[len("new:") :].removeprefix(" ")))
    return breaks, pairs


def broken_by(path):
    """What the wrong body's first changed text stands in: a function with its file's row of `bodies`, or a definition; None for neither."""
    folder, texts = os.path.relpath(os.path.dirname(os.path.dirname(path)), ROOT), {}
    for file, old, new in read_edit(path)[1]:
        whole = texts.setdefault(file, text_of(f"{ROOT}/{folder}/{file}"))
        same = len(os.path.commonprefix([old, new]))
        at = whole.count("\n", 0, whole.find(old) + same)
        if file.startswith("src/"):
            inside = [it for it in bodies(f"{folder}/{file}") if it[0] <= at <= it[1]]
            if inside:
                return inside[-1][2], inside[-1]
        elif not re.match(r"\s*use ", whole.split("\n")[at]):
            return definition_at(f"{folder}/{file}", at), None
        texts[file] = whole.replace(old, new)
    return None, None


class Definitions:
    """The definitions of all specs/, and which of them a text leads to."""

    def __init__(self):
        self.of, self.imports = {}, {}
        self.passed = {crate: passed_on(crate) for crate, _ in crates()}
        for crate, _ in crates():
            for path in files_of(crate, "specs", ".antt"):
                text = text_of(f"{ROOT}/{path}")
                module = path[len("crates/") : -len(".antt")].replace("/", ".")
                self.imports[module] = self.imported(text)
                self.of[module] = self.read(text)

    def read(self, text):
        """Each definition of a file, and its lines without comments."""
        found, lines, now = {}, text.split("\n"), None
        for line in lines:
            head = DEFINITION.match(line)
            if head:
                now = head[2] or head[3] or head[4]
                found[now] = []
            if now and line.strip() and not line.strip().startswith("--"):
                found[now].append(line)
        return found

    def home(self, module):
        """The module's own name: `brc_count.specs.law.world.Heap` is `law.specs.world.Heap`."""
        crate, _, rest = module.partition(".")
        kind, _, rest = rest.partition(".")
        name, _, more = rest.partition(".")
        low = self.passed.get(crate, {}).get(name)
        return self.home(f"{low}.{kind}.{more}") if low else module

    def imported(self, text):
        found = {}
        for module, names in re.findall(r"use Rattle\.([\w.]+)\.\{([^}]*)\}", text):
            for name in names.split(","):
                one, _, other = name.strip().partition(" as ")
                found[other or one] = (self.home(module), one)
        for module, name in re.findall(r"use Rattle\.([\w.]+)\.TheVariants as (\w+)", text):
            found[name] = (self.home(module), "TheVariants")
        return {name: it for name, it in found.items() if not it[0].startswith("std")}

    def closure(self, seeds):
        """All definitions that these lead to, down to the types, with the number of their lines."""
        seen, left = {}, list(seeds)
        while left:
            module, name = left.pop()
            lines = self.of.get(module, {}).get(name)
            if (module, name) in seen or lines is None:
                continue
            seen[module, name] = len(lines)
            for word in {*WORD.findall("\n".join(lines))}:
                if word in self.of[module] and word != name:
                    left.append((module, word))
                elif word in self.imports[module]:
                    left.append(self.imports[module][word])
        return seen
