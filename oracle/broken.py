"""Traces and scripts that are broken at random, and what the proved program makes of them.

    broken.py trace|script SEED COUNT PROGRAM [SECONDS]

Each of COUNT inputs is an example of examples/, or a few of them one after the other, in which bytes, words, lines or endings were changed at
random; the seed decides which. The program must end by itself, under a limit of memory, with the status, the output and the error line that
`trace_rules.py` and `script_rules.py` say; SECONDS end it before COUNT. The last line says how many there were of each status.
"""

import collections
import glob
import os
import random
import resource
import subprocess
import sys
import time

import script_rules
import trace_rules

MOST_MEMORY = 4 << 30
MOST_SECONDS = 60
HERE = os.path.dirname(os.path.abspath(__file__))

# (words that are at home in a text, and some that are near them)
NUMBERS = [b"0", b"1", b"2", b"8", b"15", b"16", b"31", b"32", b"64", b"65", b"255", b"265", b"266", b"267", b"511", b"512"]
NUMBERS += [b"65535", b"65536", b"1000000", b"4294967294", b"4294967295", b"9223372036854775807", b"-1", b"-0", b"00", b"01", b"+1", b""]
TRACE_WORDS = [b"f0", b"f1", b"e0", b"e1", b"i265", b"i266", b"w266", b"q266", b"h", b"keep", b"put", b"take", b"swap", b"list", b"text"]
TRACE_WORDS += [b"trace", b"heap", b"offer", b"open", b"untie", b"add", b"close"]
SCRIPT_WORDS = [b"r0", b"r1", b"r2", b"r15", b"r16", b"'x", b"'", b"list", b"box", b"end", b"text"]


def changed_byte(rng, text):
    at = rng.randrange(len(text) + 1)
    kind = rng.randrange(3)
    byte = bytes([rng.choice([rng.randrange(256), 10, 32, 13, 45, 48])])
    return text[:at] + (byte if kind < 2 else b"") + text[at + (kind > 0) :]


def changed_word(rng, text, words):
    pieces = text.split(b" ")
    at = rng.randrange(len(pieces))
    pieces[at] = rng.choice(words + NUMBERS)
    return b" ".join(pieces)


def changed_line(rng, text):
    lines = text.split(b"\n")
    at, other = rng.randrange(len(lines)), rng.randrange(len(lines))
    kind = rng.randrange(4)
    if kind == 0:
        del lines[at]
    elif kind == 1:
        lines.insert(at, lines[other])
    elif kind == 2:
        lines[at], lines[other] = lines[other], lines[at]
    else:
        lines[at] += b" " + rng.choice(NUMBERS)
    return b"\n".join(lines)


def changed_ending(rng, text):
    return rng.choice([text[:-1], text + b"\n", text.replace(b"\n", b"\r\n", 1), text + b"\0", text[: rng.randrange(len(text) + 1)]])


def broken(rng, text, words):
    for _change in range(rng.choice([0, 1, 1, 1, 2, 4])):
        kind = rng.randrange(8)
        if kind < 2:
            text = changed_byte(rng, text)
        elif kind < 5:
            text = changed_word(rng, text, words)
        elif kind < 7:
            text = changed_line(rng, text)
        else:
            text = changed_ending(rng, text)
    return text


def joined(rng, texts, is_trace):
    """One example, or the lines of another behind it."""
    text = rng.choice(texts)
    if rng.randrange(4) == 0:
        other = rng.choice(texts)
        lines_above = 2 if other.startswith(b"trace") else 1
        text += b"\n".join(other.split(b"\n")[lines_above:]) if is_trace else other
    return text


def limited():
    resource.setrlimit(resource.RLIMIT_AS, (MOST_MEMORY, MOST_MEMORY))


def answer_of(program, command, text):
    ended = subprocess.run([program, command], input=text, capture_output=True, timeout=MOST_SECONDS, preexec_fn=limited)
    return ended.returncode, ended.stdout.decode("latin-1"), ended.stderr.decode("latin-1")


def is_right_trace(text, answer):
    return answer == trace_rules.replay(text)


def is_right_script(text, answer):
    status, output, error = answer
    bad = script_rules.bad_line(text)
    if bad is not None:
        return answer == (3, "", f"brc: line {bad}: not a script line\n")
    if answer == (4, "", "brc: fault 1 OutOfMemory\n"):
        return True
    return error == "" and script_rules.fits(text, status, output)


def main():
    what, seed, count, program = sys.argv[1], int(sys.argv[2]), int(sys.argv[3]), sys.argv[4]
    ends = time.monotonic() + float(sys.argv[5]) if len(sys.argv) > 5 else None
    is_trace = what == "trace"
    paths = sorted(glob.glob(os.path.join(HERE, "..", "examples", "*." + what)))
    texts = [open(path, "rb").read() for path in paths]
    rng = random.Random(seed)
    statuses, long, done = collections.Counter(), 0, 0
    while done < count and (ends is None or time.monotonic() < ends):
        text = broken(rng, joined(rng, texts, is_trace), TRACE_WORDS if is_trace else SCRIPT_WORDS)
        done += 1
        try:
            answer = answer_of(program, "replay" if is_trace else "run", text)
        except subprocess.TimeoutExpired:
            # (a million turns of a loop, say; a trace has none)
            if is_trace:
                raise
            long += 1
            continue
        if not (is_right_trace if is_trace else is_right_script)(text, answer):
            kept = f"/tmp/broken_{what}_{seed}_{done}"
            with open(kept, "wb") as file:
                file.write(text)
            print(f"{what} {seed}: input {done} isn't answered by the rules, kept as {kept}: {answer[0]} {answer[2]!r}")
            sys.exit(1)
        statuses[answer[0]] += 1
    told = ", ".join(f"{number} of status {status}" for status, number in sorted(statuses.items()))
    print(f"{what} {seed}: {done} inputs, all answered by the rules: {told}" + (f", {long} too long to wait for" if long else ""))


if __name__ == "__main__":
    main()
