#!/usr/bin/env python3
"""Writes the input and output that a program over lines is held against: python3 tools/line_cases.py FOLDER MODE <FRAMES

FOLDER/stdin gets the frames of standard input, one to a line, and behind them each kind of line that holds no frame, lines that lie across the
places where a chunk of 65,536 bytes ends, and a last line without its line feed. FOLDER/stdout gets what the judge says of them in its mode
(`run`, `look` or `sender`, compare/README.md). crates/bay, crates/look and crates/sender have what these write:

    head -n 5 crates/bay/stdin | python3 tools/line_cases.py crates/bay run
    head -n 20 crates/look/stdin | python3 tools/line_cases.py crates/look look
    head -n 667 crates/sender/stdin | python3 tools/line_cases.py crates/sender sender

The last one's frames are 67 chosen by hand, which README.md has the first of, and then those of `judge sender-gen --seed 11 --steps 600`.
"""
import subprocess, sys
import usage
from frames import number, tick
from judge import JUDGE

CHUNK = 65536
MOST = 16384  # digits of a line that holds a frame

def reply(n):
    """A reply of mill 0 to the sender."""
    return bytes([1, 0]) + number(n)

def later(frame):
    """Lines that hold a frame: ticks, each a millisecond after the last, or replies in the order of their numbers."""
    n = 1000
    while True:
        n += 1
        yield frame(n).hex().encode()

def spoiled():
    """A line for each way to hold no frame."""
    line = next(GOOD)
    yield line[:-1]                          # an odd digit
    yield b""
    yield line[:-1] + b"A"                   # a capital digit
    yield line[:-1] + b"g"                   # another letter
    yield b" " + line
    yield line[:4] + b"\0" + line[5:]
    yield line[:4] + b"\xff" + line[5:]
    yield line + b"\r"
    yield line + b"00"                       # a byte left over
    yield b"0" * MOST
    yield b"0" * (MOST + 1)                  # too long, and odd
    yield b"0" * (MOST + 2)

def lines(have):
    """The lines behind those that are there already, `have` bytes."""
    for line in spoiled():
        yield line
        have += len(line) + 1
    for kind in range(3):
        good = next(GOOD)
        behind = (len(good) // 2, len(good) + 1, len(good))[kind]  # how much of it and its line feed a chunk still holds
        pad = b"0" * ((-have - 1 - behind) % CHUNK)
        yield pad
        yield good
        have += len(pad) + 1 + len(good) + 1

def mode_of(word):
    if word not in ("run", "look", "sender"): raise ValueError
    return word

folder, mode = usage.words(__doc__, usage.folder, mode_of)
GOOD = later(reply if mode == "sender" else tick)
head = sys.stdin.buffer.read()
text = head + b"".join(line + b"\n" for line in lines(len(head))) + next(GOOD)
with open(folder + "/stdin", "wb") as file:
    file.write(text)
with open(folder + "/stdout", "wb") as file:
    file.write(subprocess.run([JUDGE, mode], input=text, stdout=subprocess.PIPE, check=True).stdout)
