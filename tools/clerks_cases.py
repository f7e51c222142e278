#!/usr/bin/env python3
"""Writes frames of two clerks and the published Rust's answers to them: clerks_cases.py SEEDS FOLDER

FOLDER/stdin gets the lines, FOLDER/stdout for each what the judge (compare/README.md, mode `clerks`) says of an input that is that line alone. The
first lines are chosen by hand: the request's corners, and lines that hold no frame. Behind them stand those of the seeds 1 to SEEDS that are one
line. crates/clerks_replay has these and the lines of 300 seeds, crates/clerks and crates/clerks_explain the first line.
"""
import usage
from frames import attendee, event, fields, several, some, text
from judge import judge

OWNER = b"\0"
def by(address): return b"\1" + text(address)
def entry(address, reply=0): return attendee(address=text(address), participation=bytes([reply]))
def booking(*entries): return event(id=text(b"i"), attendees=several(entries))
def wanted(*entries, **given): return fields(attendees=several(entries), **given)
def eight(letter): return [entry(letter + b"%d" % n) for n in range(8)]

def by_hand():
    a, b = entry(b"a"), entry(b"b")
    # The first's reply keeps the entry that the second takes out.
    yield booking(a) + by(b"A") + wanted(entry(b"a", 1)) + OWNER + wanted(b, title=some(text(b"t")))
    # Two owners; two attendees, one of them with no entry; the owner first.
    yield booking(a) + OWNER + wanted(a, title=some(text(b"t"))) + OWNER + wanted(b)
    yield booking(a, b) + by(b"a") + wanted(a) + by(b"c") + wanted(b)
    yield booking(a) + OWNER + wanted() + by(b"a") + wanted(entry(b"a", 2))
    # A new entry of both, told once; an attendee's own new entry, refused.
    yield booking() + OWNER + wanted(b) + OWNER + wanted(entry(b"B", 1))
    yield booking() + by(b"b") + wanted(b) + by(b"B") + wanted(b)
    # An address twice: in the event, in the first's list, in the second's; and then also too many.
    yield booking(a, entry(b"A")) + OWNER + wanted() + OWNER + wanted()
    yield booking() + OWNER + wanted(a, entry(b"A")) + OWNER + wanted()
    yield booking() + OWNER + wanted() + OWNER + wanted(b, a, entry(b"B"))
    yield booking() + OWNER + wanted(*eight(b"x")) + OWNER + wanted(*eight(b"y")[:6], a, entry(b"A"))
    # Too many: in both orders; in the first order only, and in the second only, where the attendee's own reply keeps an entry.
    yield booking() + OWNER + wanted(*eight(b"x")) + OWNER + wanted(a)
    yield booking(a) + by(b"a") + wanted(entry(b"a", 1)) + OWNER + wanted(*eight(b"x"))
    yield booking(a) + OWNER + wanted(*eight(b"x")) + by(b"a") + wanted(entry(b"a", 1))
    # Eight are not too many. The longest line: 24 entries.
    yield booking(*eight(b"x")) + OWNER + wanted(*eight(b"x")) + by(b"x0") + wanted(*eight(b"z"))
    yield booking(*eight(b"x")) + by(b"y0") + wanted(*eight(b"y")) + by(b"z0") + wanted(*eight(b"z"))

def no_frames(frame):
    line = frame.hex().encode()
    yield from (b"", b"00", line[:-2], line + b"00", line + b"0", line[:-1], line[:-1] + b"A", b"g" + line[1:], line + b"\r", b" " + line)
    yield from (b"0" * 16384, b"0" * 16386)

def random_lines(seeds):
    for seed in range(1, seeds + 1):
        lines = judge(["clerks-gen", "--seed", str(seed)]).split(b"\n")
        if lines[1:] == [b""]:
            yield lines[0]

seeds, folder = usage.words(__doc__, int, usage.folder)
hand = list(by_hand())
lines = [f.hex().encode() for f in hand] + list(no_frames(hand[0])) + list(random_lines(seeds))
with open(folder + "/stdin", "wb") as file:
    file.write(b"".join(line + b"\n" for line in lines))
with open(folder + "/stdout", "wb") as file:
    file.write(b"".join(judge(["clerks"], [line]) for line in lines))
