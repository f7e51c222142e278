#!/usr/bin/env python3
"""Writes merge cases and the published Rust's answers to them: merge_cases.py SEED CASES FOLDER

FOLDER/stdin gets the cases back to back (base, ours, theirs, role, as they stand in a frame), FOLDER/stdout a line for each: 06 where the
merged event has over 8 attendees, else 01 or 00 (changed or not), the merged event where it changed, the conflicts and the refused
list, in hexadecimal. The judge answers them (judge.py): each case runs from a fresh state, an update of base and ours, the read of theirs,
and the write's reply. The first cases are document 01's merge lines, by hand; after the random ones come 45 more, under the attendee role, that all change something.
crates/merge_replay has these and the 230 cases of seed 7.
"""
import random
import judge, usage

def text(t): b = t.encode(); return bytes([len(b)]) + b
def opt(x, f): return b"\0" if x is None else b"\1" + f(x)
def num(n, w=8): return n.to_bytes(w, "big")

NAMES = [None, "Ann", "Bo"]
ADDRESSES = ["A@m", "a@m", "b@m", "Z[@`{", "z[@`{", "z{@`{", "c@m"]

def attendee(r, few):
    return text(r.choice(ADDRESSES[:3] if few else ADDRESSES)) + opt(r.choice(NAMES), text) + bytes([r.randrange(2), r.randrange(3), r.randrange(2)])

def unit(r, i):
    """The i-th part of an event's fields, from a few values."""
    if i in (0, 5): return opt(r.choice([None, "x", "y"]), text)
    if i in (1, 10): return num(r.choice([1, 2, 3]))
    if i in (2, 6): return opt(r.choice([None, 7, 8]), num)
    if i == 3: return opt(r.choice([None, "o@m", "O@m"]), lambda a: text(a) + opt(r.choice(NAMES), text))
    return bytes([r.randrange({7: 3, 8: 2, 9: 4}[i])])

def fields(r, base=None, base_att=None, crowd=False):
    units = [unit(r, i) if base is None or r.random() < 0.4 else base[i] for i in range(11) if i != 4]
    if base is not None: units = [u if r.random() < 0.5 else b for u, b in zip(units, [base[i] for i in range(11) if i != 4])]
    att = [attendee(r, not crowd) for _ in range(r.choice([5, 6, 8] if crowd else [0, 1, 2, 3]))]
    if base_att is not None and not crowd:
        att = [a if r.random() < 0.6 else a[:-2] + bytes([r.randrange(3), a[-1]]) for a in base_att]
        if att and r.random() < 0.3: att.pop(r.randrange(len(att)))
        if r.random() < 0.4 and len(att) < 8: att.insert(r.randrange(len(att) + 1), attendee(r, True))
    u = units[:4] + [None] + units[4:]
    return u, att, b"".join(u[:4]) + bytes([len(att)]) + b"".join(att) + b"".join(u[5:])

def case(r):
    crowd = r.random() < 0.12
    bu, ba, base = fields(r, crowd=crowd)
    _, _, ours = fields(r, bu, ba, crowd)
    _, _, theirs = fields(r, bu, ba, crowd)
    event = bytes([r.randrange(4)]) + text("r") + opt(None, text) + opt(None, text) + opt(r.choice([None, "v1"]), text) + num(3, 4) + theirs + num(9)
    role = b"\0" if r.random() < 0.6 else b"\1" + text(r.choice(ADDRESSES))
    return base, ours, event, role

OWNER, ATTENDEE = b"\0", b"\1" + text("A@m")

def entry(address, reply=0, name=None): return text(address) + opt(name, text) + bytes([0, reply, 0])

def plain(times, *entries):
    """Fields with these times and entries, and nothing else."""
    return b"\0" + num(times) + b"\0\0" + bytes([len(entries)]) + b"".join(entries) + bytes(5) + num(0)

def merge(role, base, ours, theirs): return base, ours, b"\0" + text("r") + bytes(7) + theirs + num(0), role

def document01():
    """Document 01's merge lines: the verdicts, occurrences of one address, the writer's own entry, folding, the address shown, over 8 attendees."""
    eight = [entry("%d@m" % i) for i in range(8)]
    def both(first, second): return plain(0, entry("A@m", first), entry("a@m", second))
    yield from (merge(OWNER, plain(1), plain(ours), plain(theirs)) for ours, theirs in ((1, 2), (2, 1), (2, 3), (2, 2)))
    yield from (merge(ATTENDEE, plain(1), plain(2), plain(theirs)) for theirs in (3, 2))
    yield merge(OWNER, both(0, 0), both(0, 1), both(0, 0))
    yield merge(ATTENDEE, both(0, 0), both(2, 1), both(0, 0))
    yield merge(ATTENDEE, plain(0, entry("a@m")), plain(0, entry("a@m", 2, "Ann")), plain(0))
    for address in ("Z@m", "[", "@", "a@mm"):
        yield merge(b"\1" + text(address), plain(0, entry("z@m"), entry("{"), entry("`"), entry("a@m")),
                    plain(0, entry("z@m", 1), entry("{", 1), entry("`", 1), entry("a@m", 1)), plain(0, entry("z@m"), entry("{"), entry("`"), entry("a@m")))
    yield merge(OWNER, plain(0, entry("a@m")), plain(0, entry("A@m", 1)), plain(0, entry("a@M", 2)))
    yield merge(OWNER, plain(0, entry("a@m")), plain(0, entry("A@m", 1)), plain(0))
    yield merge(OWNER, plain(0, entry("a@m")), plain(0), plain(0, entry("a@M", 2)))
    yield from (merge(role, plain(0), plain(0, entry("9@m")), plain(0, *eight)) for role in (OWNER, ATTENDEE))

def steps(frames):
    """Of each frame the answer's number, and the effects."""
    return [(int(lines[0][:2], 16), [bytes.fromhex(l.decode()) for l in lines[1:]]) for lines in judge.answers([f.hex().encode() for f in frames])]

def judged(base, ours, event, role):
    """The merged event, or None where it has over 8 attendees; then the conflicts and the refused list."""
    edit = b"\1" + text("e") + text("r") + b"\1" + base + ours + role + b"\0"
    read = b"\2" + num(0) + b"\1\1" + event
    written = b"\2" + num(1) + b"\2" + event
    _, (code, effects), (_, after) = steps([edit, read, written])
    if code == 6: return None, b""
    assert code == 0, code
    if effects[0][0] == 1:
        applied, merged = effects[0], event
    else:
        body = effects[0][10:]                       # case, number, case
        assert effects[0][9] == 4
        body = body[1 + body[0]:]                    # resource
        merged = body[2 + body[1]:] if body[0] else body[1:]
        applied = after[0]
        assert merged != event
    assert applied[:4] == b"\1\2\1e", applied
    return merged, applied[4:]

def answer(base, ours, event, role):
    merged, reports = judged(base, ours, event, role)
    if merged is None: return "06"
    return ("00 - " if merged == event else "01 %s " % merged.hex()) + reports.hex()

def changing(r, count):
    """Random cases under the attendee role of which the merge changes something."""
    found = []
    while len(found) < count:
        drawn = case(r)[:3] + (b"\1" + text(r.choice(ADDRESSES[:3])),)
        if judged(*drawn)[0] != drawn[2]: found.append(drawn)
    return found

def main():
    seed, count, folder = usage.words(__doc__, int, int, usage.folder)
    r = random.Random(seed)
    cases = list(document01()) + [case(r) for _ in range(count)] + changing(r, 45)
    lines = [answer(*c) for c in cases]
    data = b"".join(b"".join(c) for c in cases)
    assert len(data) <= 65536, len(data)
    open(folder + "/stdin", "wb").write(data)
    open(folder + "/stdout", "w").write("".join(l + "\n" for l in lines))
    print(len(data), "bytes;", sum(l == "06" for l in lines), "of refusal 6,", sum(l.startswith("01") for l in lines), "changed")

if __name__ == "__main__":
    main()
