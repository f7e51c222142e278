#!/usr/bin/env python3
"""Writes merges under the attendee role, and what is to be told of each: attendee_cases.py SEED CASES FOLDER

FOLDER/stdin gets the cases back to back: base, ours, theirs, role, and an event behind its length in two bytes. FOLDER/stdout gets a line for each
and the totals (crates/attendee_test/src/main.rt says in what words). The judge (judge.py) merges; what differs is worked out here, from the bytes alone.
First come document 01's merge lines under this role, then so many random cases: each must be told `own`, else the claim is wrong and nothing is written.
Then the cases that must be told otherwise: an event for every kind of change that is not the writer's, or not what the merge gives (TAMPERED),
and merges by the owner. crates/attendee_test has the 140 random cases of seed 9.
"""
import random, sys
import merge_cases, usage
from merge_cases import num, opt, text

# ---- the parts of an event, by their bytes

def fixed(n): return lambda data, at: n
def short_text(data, at): return 1 + data[at]
def option(width): return lambda data, at: 1 + width(data, at + 1) if data[at] else 1
def organizer(data, at): return short_text(data, at) + option(short_text)(data, at + short_text(data, at))

BEFORE = dict(provider=fixed(1), id=short_text, ical_uid=option(short_text), series_id=option(short_text), revision=option(short_text), mapper_version=fixed(4),
              title=option(short_text), times=fixed(8), recurrence=option(fixed(8)), organizer=option(organizer), count=fixed(1))
ENTRY = dict(address=short_text, name=option(short_text), role=fixed(1), participation=fixed(1), kind=fixed(1))
AFTER = dict(location=option(short_text), description=option(fixed(8)), status=fixed(1), transparency=fixed(1), visibility=fixed(1), reminders=fixed(8),
             passthrough=fixed(8))
ENUMS = dict(provider=4, role=4, participation=5, kind=5, status=3, transparency=2, visibility=4)

def read(shape, data, at):
    parts = {}
    for name, width in shape.items():
        parts[name] = data[at:at + width(data, at)]
        at += len(parts[name])
    return parts, at

class Event:
    def __init__(self, data):
        self.before, at = read(BEFORE, data, 0)
        self.entries = []
        for _ in range(self.before["count"][0]):
            entry, at = read(ENTRY, data, at)
            self.entries.append(entry)
        self.after, at = read(AFTER, data, at)
        assert at == len(data), data

    def parts(self):
        """Name, bytes, and for a part of an entry the entry."""
        yield from ((name, part, None) for name, part in self.before.items())
        yield from ((name, part, entry) for entry in self.entries for name, part in entry.items())
        yield from ((name, part, None) for name, part in self.after.items())

    def bytes(self): return b"".join(part for _, part, _ in self.parts())

    def recount(self): self.before["count"] = bytes([len(self.entries)])

# ---- what is told

def address(role):
    """The writer's, folded. An owner has none."""
    return role[2:].lower()
def own(entry, me): return entry["address"][1:].lower() == me

def marks(theirs, me):
    """For each byte of theirs, whether the writer may change it."""
    return [name == "reminders" or (name == "participation" and own(entry, me)) for name, part, entry in Event(theirs).parts() for _ in part]

def told(theirs, role, event):
    free = marks(theirs, address(role))
    for at in range(max(len(theirs), len(event))):
        if at >= min(len(theirs), len(event)) or (theirs[at] != event[at] and not free[at]): return "other %d" % at
    if any(entry["participation"][0] >= ENUMS["participation"] for entry in Event(event).entries): return "no event"
    return "own %d" % sum(a != b for a, b in zip(theirs, event))

def line(case, merged, event):
    beside = " port refused" if merged is None else "" if event == merged else " port differs"
    return told(case[2], case[3], event) + beside

def totals(lines):
    own = [l for l in lines if l.startswith("own")]
    def having(words): return sum(words in l for l in lines)
    return "cases %d: own %d, with a change %d; other %d; no event %d; port differs %d, refused %d" % (
        len(lines), len(own), sum(not l.startswith("own 0") for l in own), having("other"), having("no event"), having("differs"), having("refused"))

# ---- random cases

MOST = 8                                             # attendees of an event

# Each person in spellings that fold alike. Some have nearly another's address: by a byte that is no letter, a letter beyond ASCII, or the length.
PEOPLE = [["a@m", "A@m", "A@M"], ["z[@", "Z[@"], ["b@m", "B@m"], ["z{@", "Z{@"], ["z[`", "Z[`"], ["a@mm", "A@mM"], ["a@"], ["\u00e9"], ["\u00c9"], [""], ["c"], ["d"]]
TAGS = [0, 1, 0x100, 0x0102030405060708, 2 ** 64 - 1]

def spelled(r, person): return text(r.choice(person))

def entry(r, people):
    return dict(address=spelled(r, r.choice(people)), name=opt(r.choice([None, None, "n", "N"]), text), role=bytes([r.randrange(2)]),
                participation=bytes([r.randrange(5)]), kind=bytes([r.randrange(2)]))

def edited(r, entries, people, replies):
    """The list as somebody left it: some replies, spellings, names and kinds changed, an entry gone, a new one, all moved."""
    entries = [dict(e) for e in entries]
    for e in entries:
        other = entry(r, [next(p for p in PEOPLE if e["address"][1:].decode() in p)])
        for name, chance in dict(address=0.2, name=0.1, role=0.05, participation=replies, kind=0.1).items():
            if r.random() < chance: e[name] = other[name]
    if entries and r.random() < 0.2: entries.pop(r.randrange(len(entries)))
    if len(entries) < MOST and r.random() < 0.4: entries.insert(r.randrange(len(entries) + 1), entry(r, people))
    if r.random() < 0.15: r.shuffle(entries)
    return entries

def laid(units, entries, reminders):
    return b"".join(units[:4]) + bytes([len(entries)]) + b"".join(b"".join(e.values()) for e in entries) + b"".join(units[5:10]) + num(reminders)

def sides(r, people):
    """The attendees of base, ours and theirs. Most other replies are in ours. Where theirs is full, ours mostly has one that would be one too many."""
    crowd = r.random() < 0.12
    start = [entry(r, people) for _ in range(MOST - 1 if crowd else r.choice([0, 1, 2, 2, 3, 3, 4]))]
    ours, theirs = edited(r, start, people, 0.6), edited(r, start, people, 0.2)
    if crowd: ours, theirs = (side[:MOST - 1] + [entry(r, PEOPLE)] for side in (ours, start))
    return start, ours, theirs

def case(r):
    """The writer stands in most lists, often twice."""
    me = r.choice(PEOPLE[:2] if r.random() < 0.7 else PEOPLE)
    lists = sides(r, [me, me] + r.sample(PEOPLE, 3))
    seen = r.choice(TAGS)
    tags = [seen, r.choice(TAGS), seen if r.random() < 0.6 else r.choice(TAGS)]
    units = merge_cases.fields(r)[0]
    base, ours, theirs = (laid(merge_cases.fields(r, units)[0], *side) for side in zip(lists, tags))
    ids = bytes([r.randrange(4)]) + text("r") + opt(r.choice([None, "u"]), text) + opt(None, text) + opt(r.choice([None, "v"]), text) + num(3, 4)
    return base, ours, ids + theirs + num(r.choice(TAGS)), b"\1" + spelled(r, me)

# ---- events that the merge does not give

def another(name, part):
    """Another value of a part; of an option that has none, one."""
    if part == b"\0" and name in ("ical_uid", "series_id", "revision", "title", "location", "name"): return b"\1" + text("t")
    if part == b"\0" and name in ("recurrence", "description"): return b"\1" + num(1)
    if part == b"\0" and name == "organizer": return b"\1" + text("o") + b"\0"
    return part[:-1] + bytes([(part[-1] + 1) % ENUMS.get(name, 256)])

def plain(name):
    def change(r, event, me):
        parts = event.before if name in BEFORE else event.after
        parts[name] = another(name, parts[name])
    return change

def others(entry, me): return not own(entry, me)
def nearly(entry, me): return others(entry, me) and bytes(b | 32 for b in entry["address"][1:]) == bytes(b | 32 for b in me)
def longer(entry, me): return others(entry, me) and entry["address"][1:].lower().startswith(me)
def in_letters(entry, me): return own(entry, me) and me != me.upper()

def of_entry(name, which, value=another):
    """Changes a part of one of the entries that `which` is true of."""
    def change(r, event, me):
        e = r.choice([e for e in event.entries if which(e, me)])
        e[name] = value(name, e[name])
    return change

def respelled(name, part): return part.swapcase()
def no_case(name, part): return bytes([ENUMS[name]])

def added(r, event, me):
    event.entries.append(r.choice(event.entries))
    event.recount()

def removed(r, event, me):
    event.entries.remove(r.choice(event.entries))
    event.recount()

def swapped(r, event, me):
    i = r.choice([i for i in range(1, len(event.entries)) if event.entries[i]["address"] != event.entries[0]["address"]])
    event.entries[0], event.entries[i] = event.entries[i], event.entries[0]

def cut(n): return lambda r, event, me: event.bytes()[:-n]
def lengthened(r, event, me): return event.bytes() + b"\0"
def nothing(r, event, me): return b""

# What must be told, and the change of the merged event.
TAMPERED = [("other", plain(name)) for name in [*BEFORE, *AFTER] if name != "reminders"]
TAMPERED += [("other", of_entry(name, others)) for name in ENTRY]
TAMPERED += [("other", of_entry("participation", which)) for which in (nearly, longer)]
TAMPERED += [("other", of_entry(name, own)) for name in ENTRY if name != "participation"]
TAMPERED += [("other", of_entry("address", in_letters, respelled)), ("no event", of_entry("participation", own, no_case))]
TAMPERED += [("other", change) for change in (added, removed, swapped, cut(1), cut(9), lengthened, nothing)]
TAMPERED += [("own", of_entry("participation", own)), ("own", plain("reminders"))]

def drawn(r, wanted):
    """What `wanted` makes of a random case, once that is not None."""
    for _ in range(1000):
        row = wanted(case(r))
        if row: return row
    sys.exit("no random case fits")

def tampered(r, word, change):
    """A merge by the attendee, its event changed."""
    def wanted(given):
        merged, _ = merge_cases.judged(*given)
        event = Event(merged)
        try: made = change(r, event, address(given[3]))
        except IndexError: return None               # it has no such entry
        made = event.bytes() if made is None else made
        assert made != merged and told(given[2], given[3], made).startswith(word), (change, made)
        return given, merged, made
    return drawn(r, wanted)

def addresses(event): return event and [e["address"] for e in Event(event).entries]

def by_owner(r, refused=False, hidden=False):
    """A merge by the owner that has other attendees, or is refused. Hidden, it stands as what the attendee's merge gives."""
    def wanted(given):
        owners = given[:3] + (merge_cases.OWNER,)
        event, _ = merge_cases.judged(*owners)
        if (event is None) != refused or addresses(event) == addresses(given[2]): return None
        if hidden: return given, merge_cases.judged(*given)[0], event
        return owners, event, event or b""
    return drawn(r, wanted)

# ---- the list

def checked(given):
    """The attendees' merges as they are. Stops where one changes what is not the writer's."""
    for case in given:
        merged, _ = merge_cases.judged(*case)
        if merged is None or not told(case[2], case[3], merged).startswith("own"):
            sys.exit("not only the writer's own: " + b"".join(case).hex())
        yield case, merged, merged

def main():
    seed, count, folder = usage.words(__doc__, int, int, usage.folder)
    r = random.Random(seed)
    rows = list(checked([c for c in merge_cases.document01() if c[3] != merge_cases.OWNER] + [case(r) for _ in range(count)]))
    rows += [tampered(r, *kind) for kind in TAMPERED] + [by_owner(r, hidden=True) for _ in range(2)]
    rows += [by_owner(r) for _ in range(3)] + [by_owner(r, refused=True)]
    lines = [line(*row) for row in rows]
    data = b"".join(b"".join(case) + num(len(event), 2) + event for case, _, event in rows)
    assert len(data) <= 65536, len(data)
    open(folder + "/stdin", "wb").write(data)
    open(folder + "/stdout", "w").write("".join(l + "\n" for l in lines + [totals(lines)]))
    print(len(data), "bytes;", totals(lines))

if __name__ == "__main__":
    main()
