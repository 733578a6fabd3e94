"""The ledger of wrong bodies, docs/more-edits.tried: of each crate how many edits `.ci/long` tried last, how many were refused, a sum of the
crate's contracts then, the date, the commit and the kit. A sum is of all that `.ci/contracts` compares of one crate."""
import fcntl
import glob
import hashlib
import importlib.machinery
import importlib.util
import os

from sources import ROOT, text_of

LEDGER = f"{ROOT}/docs/more-edits.tried"
PAGE = f"{ROOT}/docs/TESTED.md"
MARKS = ("<!-- made from docs/more-edits.tried -->\n", "<!-- end -->\n")
HEAD = """# The wrong bodies of each crate, as `.ci/long` tried them last: how many there were, how many of them were refused, a sum of the
# crate's public contracts, date, commit and kit. Made by `.ci/long`; `.ci/edits` compares it with the code.
"""


def contracts():
    """The module of `.ci/contracts`."""
    loader = importlib.machinery.SourceFileLoader("contracts", f"{ROOT}/.ci/contracts")
    module = importlib.util.module_from_spec(importlib.util.spec_from_loader("contracts", loader))
    loader.exec_module(module)
    return module


def files(crate, folder, ending):
    found = sorted(glob.glob(f"{ROOT}/crates/{crate}/{folder}/**/*{ending}", recursive=True))
    return [it for it in found if "tests" not in os.path.relpath(it, f"{ROOT}/crates/{crate}/{folder}").replace(".rt", "").split("/")]


def sum_of(crate):
    """A sum of the crate's public signatures and clauses, of the models of its types, and of its definitions; in whichever file each stands."""
    reading = contracts()
    said = [it for file in files(crate, "src", ".rt") for it in reading.contracts_in(text_of(file))]
    said += [it for file in files(crate, "specs", ".antt") for it in reading.definitions_in(text_of(file))]
    return hashlib.sha256("\n".join(sorted(map(repr, said))).encode()).hexdigest()[:12]


def edits_of(crate):
    return sorted(glob.glob(f"{ROOT}/crates/{crate}/must-fail/*.edit") + glob.glob(f"{ROOT}/crates/{crate}/more-edits/*.edit"))


def rows():
    """Of each crate in the ledger: tried, refused, sum, date, commit, kit."""
    lines = text_of(LEDGER).split("\n") if os.path.isfile(LEDGER) else []
    return {it.split()[0]: it.split()[1:] for it in lines if it and not it.startswith("#")}


def told():
    """What TESTED says of the ledger."""
    ledger = rows()
    count, refused = (sum(int(row[at]) for row in ledger.values()) for at in (0, 1))
    dates, commits, kits = (sorted({row[at] for row in ledger.values()}) for at in (3, 4, 5))
    when = " to ".join(dict.fromkeys([dates[0], dates[-1]])) if dates else "never"
    return f"""| crates | wrong bodies | refused | tried | at commit | kit |
|---|---|---|---|---|---|
| {len(ledger)} | {count} | {refused} | {when} | {", ".join(commits)} | {", ".join(kits)} |
"""


def page():
    """TESTED as it is to be."""
    text = text_of(PAGE)
    head, behind = text.split(MARKS[0])
    return head + MARKS[0] + told() + MARKS[1] + behind.split(MARKS[1], 1)[1]


def note(crate, row):
    """Writes the crate's row; of several runs of `.ci/long` at once each waits for the other."""
    with open(f"{ROOT}/tools/tried.py", encoding="utf-8") as it:
        fcntl.flock(it, fcntl.LOCK_EX)
        write({**rows(), crate: row})


def write(found):
    table = [[crate, *map(str, row)] for crate, row in sorted(found.items())]
    wide = [max(map(len, column)) for column in zip(*table)]
    lines = ["  ".join(it.ljust(width) for it, width in zip(row, wide)).rstrip() for row in table]
    with open(LEDGER, "w", encoding="utf-8") as it:
        it.write(HEAD + "".join(f"{line}\n" for line in lines))
