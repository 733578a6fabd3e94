"""What each name in the code leads to: read by tools/rename and tools/refs.

A thing has one identity, wherever it is named: ("spec", module, name) for a definition of specs/ or proofs/, such as
("spec", "law.specs.steps.Owing", "Tells"); ("mod", crate, path) for a file of src/; ("item", crate, path, name) for what such a file declares;
("part", crate, path, item, name) for a case, a method or a constant of an item."""
import os
import re

from sources import ROOT, crates, passed_on, text_of

COMPONENT = r"(?:«[^»\n]*»|[^\s.{}()«»;,:]+)"
GHOST_USE = re.compile(rf"\buse Rattle((?:\.{COMPONENT})+?)(?:\.\{{([^}}]*)\}}| as (\w+))?(?=;|\s|$)")
USE = re.compile(r"(?m)^( *)((?:pub(?:\(\w+\))? )?)use ([^;]*);")
ITEM = re.compile(r"(?m)^(?:pub(?:\([\w ]+\))? )?(const fn|fn|struct|enum|trait|type|const|static|mod) (\w+)")
# a comment, a text, or a character; in what is left each word is code
SKIP = {
    ".rt": re.compile(r"""//[^\n]*|b?"(?:\\.|[^"\\])*"|(?<![\w'])b?'(?:\\[^'\n]+|[^'\\\n])'""", re.S),
    ".antt": re.compile(r"""(?:(?<=\s)|^)--(?=\s|$)[^\n]*|"(?:\\.|[^"\\])*\"""", re.S | re.M),
}
BRACE = re.compile(r"[{}]")
CLAUSE = re.compile(r"\b(?:(?:requires|ensures|invariant|assert)\*?(?:\s+\w+)?|ghost \w+\s*[:=])\s*\{")


def split_names(inside):
    """`A, B as C`: each name with its alias."""
    for piece in inside.split(","):
        words = piece.split()
        if words:
            yield words[0], words[2] if len(words) == 3 and words[1] == "as" else None


def use_tree(text):
    """The paths of a `use` statement of the code, each with its alias: `a::{b, c as d}`."""
    text = text.strip()
    head, brace, rest = text.partition("{")
    if not brace:
        path, _, alias = text.partition(" as ")
        yield path.strip().split("::"), alias.strip()
        return
    head = [it for it in head.strip().split("::") if it]
    level, piece = 0, ""
    for sign in rest.rsplit("}", 1)[0] + ",":
        level += (sign == "{") - (sign == "}")
        if sign == "," and not level:
            if piece.strip():
                for path, alias in use_tree(piece):
                    yield head + path, alias
            piece = ""
        else:
            piece += sign


class Names:
    def __init__(self, root=ROOT):
        self.root, self.listed = root, dict(crates())
        self.passed = {it: passed_on(it) for it in self.listed}
        self.texts, self.modules, self.paths, self.skipped = {}, {}, {}, {}
        for at, folders, names in os.walk(f"{root}/crates"):
            folders[:] = sorted(it for it in folders if it != "out")
            for name in sorted(names):
                if name.endswith((".rt", ".antt", ".edit")):
                    path = os.path.relpath(f"{at}/{name}", root)
                    self.texts[path] = text_of(f"{root}/{path}")
        for path, text in self.texts.items():
            module = self.module_of(path)
            if module:
                self.paths[module], self.modules[module] = path, self.read_module(module, text)
        self.specs = {}
        for path, text in self.texts.items():
            if path.endswith(".antt"):
                self.specs[path[len("crates/") : -len(".antt")].replace("/", ".")] = self.exported(text)

    def module_of(self, path):
        """(crate, path of the module) of a file of src/."""
        found = re.fullmatch(r"crates/(\w+)/src/(.*)\.rt", path)
        if not found:
            return None
        inside = tuple(found[2].split("/"))
        return found[1], () if inside in (("lib",), ("main",)) else inside

    def plain(self, path, text):
        """The text with its comments and texts blanked, so that what is left is code."""
        key = (path, text)
        if key not in self.skipped:
            ending = path[path.rindex(".") :]
            self.skipped[key] = SKIP[ending].sub(lambda it: re.sub(r"[^\n]", " ", it[0]), text)
        return self.skipped[key]

    def read_module(self, module, text):
        crate, path = module
        plain, found = self.plain(self.file_of(module), text), {}
        for kind, name in ITEM.findall(plain):
            found[name] = ("mod", crate, path + (name,)) if kind == "mod" else ("item", crate, path, name)
        for _, _, tree in USE.findall(plain):
            if tree.startswith("Rattle."):
                continue
            for words, alias in use_tree(tree):
                if words[-1] == "self":
                    words = words[:-1]
                if words[-1] != "*":
                    found.setdefault(alias or words[-1], ("use", words))
                else:
                    found.setdefault("*", []).append(words[:-1])
        return found

    def file_of(self, module):
        crate, path = module
        return self.paths.get(module) or f"crates/{crate}/src/{'/'.join(path) or 'lib'}.rt"

    def exported(self, text):
        """What a file of specs/ or proofs/ passes on by `pub use`: name -> (module, name)."""
        found = {}
        for line in re.findall(r"(?m)^\s*pub (use Rattle\..*)$", text):
            for dotted, inside, _ in GHOST_USE.findall(line):
                for name, alias in split_names(inside):
                    found[alias or name] = (dotted[1:], name)
        return found

    # the paths of specifications and proofs

    def home(self, words):
        """A path by the crate that it leads to: brc_count.specs.law.world.Heap is law.specs.world.Heap. Also how many words are its front."""
        if len(words) > 2 and words[1] in ("specs", "proofs"):
            low = self.passed.get(words[0], {}).get(words[2])
            if low:
                path, front = self.home([low, words[1], *words[3:]])
                return path, front + 1
        return words, 2

    def spec(self, dotted, name):
        """The identity of what a path of a specification leads to."""
        words, _ = self.home(dotted.split("."))
        further = self.specs.get(".".join(words), {}).get(name)
        if further and further != (".".join(words), name):
            return self.spec(*further)
        if len(words) > 3 and words[1:3] == ["specs", "declared"]:
            crate, inside = words[0], tuple(words[3:])
            if inside[-1] == "TheVariants":
                return ("part", crate, inside[:-2], inside[-2], name)
            if inside[-1] == "TheConstants":
                return ("item", crate, inside[:-1], name)
            if inside[-1] == name:
                return ("item", crate, inside[:-1], name)
        return ("spec", ".".join(words), name)

    # the paths of code

    def lookup(self, module, name, seen=()):
        """What a name leads to in a file of src/, or None."""
        if (module, name) in seen:
            return None
        seen, inside = (*seen, (module, name)), self.modules.get(module, {})
        found = inside.get(name)
        if found:
            return self.lead(module, found[1], seen)[-1] if found[0] == "use" else found
        for words in inside.get("*", ()):
            target = words[0] != "std" and self.lead(module, words, seen)[-1]
            found = target and target[0] == "mod" and self.lookup(target[1:], name, seen)
            if found:
                return found
        return None

    def lead(self, module, words, seen=()):
        """What each word of a path leads to, or None."""
        crate, path = module
        first, rest, out = words[0], words[1:], []
        if first == "crate":
            now = ("mod", crate, ())
        elif first == "self":
            now = ("mod", crate, path)
        elif first == "super":
            now = ("mod", crate, path[:-1])
        else:
            now = None
            if first not in self.listed or first in self.modules.get(module, {}):
                now = self.lookup(module, first, seen)
            if now is None and first in self.listed:
                now = ("mod", first, ())
        out.append(now)
        for word in rest:
            if now is None:
                pass
            elif now[0] == "mod" and word == "super":
                now = ("mod", now[1], now[2][:-1])
            elif now[0] == "mod":
                now = self.lookup(now[1:], word, seen)
            elif now[0] == "item":
                now = ("part", *now[1:], word)
            else:
                now = None
            out.append(now)
        return out

    def clauses(self, path, text):
        """Where clauses stand in a file of src/: (from, to) of what is between the braces."""
        plain, at = self.plain(path, text), 0
        while found := CLAUSE.search(plain, at):
            level, at = 1, found.end()
            for it in BRACE.finditer(plain, at):
                level += 1 if it[0] == "{" else -1
                if not level:
                    at = it.end()
                    break
            yield found.end(), at - 1
