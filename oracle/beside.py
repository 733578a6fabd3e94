"""A section that shares nothing, beside 62 others that do, many times over.

    beside.py COUNT PROGRAM

PROGRAM runs, COUNT times, a script in which one section is its own, while 62 others lock one list, push to it and pop from it a hundred times
each, and so free cells and use them again. Each time the section must print what it prints alone, and the ledger must balance. It is the
script of `test_program`, `a_section_of_its_own_beside_all_others`. The last line says how many runs there were.
"""

import subprocess
import sys

OWN = """section own
list r0
dict r1
mailbox r2
int r3 0
repeat 1000
int r4 1000
add r5 r3 r4
copy r3 r5
push r0 r4
send r2 r5
pop r4 r0
put r1 'k r4
recv r5 r2
end
print r3
find r4 r1 'k
print r4
print r0
print r1
print r2
"""
WANTED = "own: 1000000\nown: 1000\nown: list 0\nown: dict 1\nown: mailbox 0\nledger 8204 8204 0\n"


def script():
    """Returns the script: 62 sections that share a list, and in their midst the one that doesn't."""
    text = ""
    for section in range(62):
        text += OWN if section == 31 else ""
        text += f"section s{section}\n" + ("list r0\nshare box r0\n" if section == 0 else "")
        text += "fetch r0 box\nrepeat 100\nint r1 1000\npush r0 r1\npop r1 r0\ndrop r1\nend\n"
    return text


def main():
    count, program = int(sys.argv[1]), sys.argv[2]
    for run in range(count):
        ended = subprocess.run([program, "run"], input=script(), capture_output=True, text=True, timeout=60)
        if (ended.returncode, ended.stdout, ended.stderr) != (0, WANTED, ""):
            sys.exit(f"run {run}: status {ended.returncode}, {ended.stdout!r}, {ended.stderr!r}")
    print(f"{count} runs, each as alone")


if __name__ == "__main__":
    main()
