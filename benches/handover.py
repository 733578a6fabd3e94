#!/usr/bin/env python3
"""A letter that goes to and fro between two sections: handover.py PEER=COMMAND .. [--turns N] [--rounds N].

Each command gets a script on standard input (`brc run --cells 65536` for brc). Two sections send one integer to each other through two
mailboxes, in one loop of N turns each or in five, one after the other, as the scripts of loops.py have it. A round trip takes (time with
five - time with one) / 4 N of wall time. Told are, in microseconds, that of the least times, and the median of the rounds. The commands
are interleaved, and one that ends with another status than 0 or 1 is told."""
import argparse
import re
import shlex
import statistics
import subprocess
import tempfile
import time

SCRIPT = """section a
mailbox r0
mailbox r1
share there r0
share back r1
fetch r0 there
fetch r1 back
int r2 7
repeat {n}
send r0 r2
recv r2 r1
end
section b
fetch r0 there
fetch r1 back
repeat {n}
recv r2 r0
send r1 r2
end
"""


def seconds(command, path):
    with open(path, "rb") as script, tempfile.TemporaryFile() as out:
        start = time.perf_counter()
        status = subprocess.run(command, stdin=script, stdout=out, stderr=out, check=False).returncode
        took = time.perf_counter() - start
    if status not in (0, 1):
        print(f"{shlex.join(command)}: status {status}")
    return took


def main():
    args = argparse.ArgumentParser(description=__doc__, formatter_class=argparse.RawDescriptionHelpFormatter)
    args.add_argument("peers", nargs="+", metavar="PEER=COMMAND")
    args.add_argument("--turns", type=int, default=20_000)
    args.add_argument("--rounds", type=int, default=9)
    asked = args.parse_args()
    peers = [(it.split("=", 1)[0], shlex.split(it.split("=", 1)[1])) for it in asked.peers]
    took = {name: ([], []) for name, _ in peers}
    with tempfile.TemporaryDirectory() as room:
        for times in (1, 5):
            with open(f"{room}/{times}", "w", encoding="utf-8") as it:
                it.write(re.sub(r"repeat .*?end\n", lambda loop: loop[0] * times, SCRIPT.replace("{n}", str(asked.turns)), flags=re.S))
        for _ in range(asked.rounds):
            for name, command in peers:
                for times, each in zip((1, 5), took[name]):
                    each.append(seconds(command, f"{room}/{times}"))
    for name, (once, five) in took.items():
        least, rounds = min(five) - min(once), [b - a for a, b in zip(once, five)]
        told = [it / (4 * asked.turns) * 1e6 for it in (least, statistics.median(rounds))]
        print(f"{name}: {told[0]:.2f} {told[1]:.2f} µs a round trip")


main()
