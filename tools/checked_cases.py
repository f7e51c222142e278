#!/usr/bin/env python3
"""Writes the list that the program `checked` runs: checked_cases.py FOLDER

FOLDER/stdin gets document 01's "Checked by hand", the lines that are not marked, RFC 3629's examples, and frames that are just no frames, in the
form that crates/checked/src/main.rt says: rows of words, each with the frame whose answer is printed behind it. crates/checked has what this writes.
The answers, FOLDER/stdout, it does not write: a new row's are to be found in document 01, and not by running the program.
"""
import usage
from frames import *

LIST = []

def row(*asked):
    """A printed line: words and the answer to a frame, each from a fresh state."""
    for place, (words, frame) in enumerate(asked):
        LIST.append("#" + ("; " if place else "") + words + ":")
        LIST.append(">" + frame.hex())
    LIST.append("")

# ---- document 01's sample, and bytes left over

LIST.append("#document 01's sample:")
LIST += [">00", ">0200000000000000000000010141", ">030000000000000005", ">01016101720200010000000000000005", ">05", ""]
row(("no bytes", b""))
row(("sync", SYNC), ("two syncs", SYNC + SYNC))
row(("resume", RESUME), ("resume and a zero", RESUME + b"\0"))

# ---- texts at their limit and one byte longer, at each place that a text has in a frame

def long(n): return text(b"x" * n)

def around(label, frame, limit=32):
    row((f"{label}: {limit} bytes", frame(long(limit))), (f"{limit + 1} bytes", frame(long(limit + 1))))

def in_event(label, given):
    around(label, lambda t: edit(create(**given(t))))

def in_reply(label, outcome, limit=32):
    around(label, lambda t: reply(0, outcome(t)), limit)

around("edit id", lambda t: edit(DELETE, id=t))
around("resource", lambda t: edit(DELETE, resource=t))
around("writer's address", lambda t: edit(DELETE, role=some(t)))
in_event("event id", lambda t: dict(id=t))
in_event("ical uid", lambda t: dict(ical_uid=some(t)))
in_event("series id", lambda t: dict(series_id=some(t)))
in_event("revision", lambda t: dict(revision=some(t)))
in_event("title", lambda t: dict(title=some(t)))
in_event("organizer's address", lambda t: dict(organizer=some(organizer(address=t))))
in_event("organizer's name", lambda t: dict(organizer=some(organizer(name=some(t)))))
in_event("attendee's address", lambda t: dict(attendees=several([attendee(address=t)])))
in_event("attendee's name", lambda t: dict(attendees=several([attendee(name=some(t))])))
in_event("location", lambda t: dict(location=some(t)))
in_reply("listed resource", lambda t: listed([upsert(resource=t)], more()))
in_reply("listed revision", lambda t: listed([upsert(revision=t)], more()))
in_reply("removed resource", lambda t: listed([removal(t)], more()))
in_reply("cursor to go on with", lambda t: listed([], more(t)))
in_reply("cursor at the end", lambda t: listed([], done(t)))
in_reply("reason", rejected, 64)

# ---- the nine tables: so many rounds fill one, and one more is refused; printed are the answers to each round's last step

def table(label, limit, steps_of, before=(), last=None):
    """Of the round that is refused only the first `last` steps are taken, or all."""
    rounds = [steps_of(i) for i in range(limit)] + [steps_of(limit)[:last]]
    LIST.append("#" + label + ":")
    LIST.extend("-" + frame.hex() for frame in before)
    for steps in rounds:
        LIST.extend("-" + frame.hex() for frame in steps[:-1])
        LIST.append(">" + steps[-1].hex())

GOOGLE, GRAPH = b"\0", b"\1"

# Resources have names of one letter, from "A" on by rounds. Request numbers are those that the rounds before lead to.
def name(i): return text(bytes([65 + i]))
Z = text(b"z")

def creating(i, provider): return edit(create(provider=provider, id=name(i)), resource=name(i))
def deleting(resource): return edit(DELETE, resource=resource)
def updating(base, ours): return edit(update(fields(times=number(base)), fields(times=number(ours))), resource=text(b"r"))

def record(i):
    """A created event is written."""
    return [creating(i, GOOGLE), reply(i, written(event(id=name(i))))]

def staged(i):
    """A page lists a removal."""
    return [reply(i, listed([removal(name(i))], more()))]

def seen(i):
    """A page lists a change without its event; the read finds one and the same event each time, so that nothing stays staged."""
    return [reply(max(0, 2 * i - 1), listed([upsert(resource=name(i))], more())), reply(2 * i + 2, read(event(id=Z)))]

def observed(i):
    """A delete finds nothing."""
    return [deleting(name(i)), reply(i + 1, NOTHING)]

def waiting(i):
    return [deleting(name(i))]

def absorbed(i):
    """An update goes on from where the last one ended."""
    return [updating(i + 1, i + 2)]

def in_flight(i):
    """A full pass overtakes the write of the round before, which is then read again; and a created event is being written beside it."""
    again = [SYNC, reply(4 * i - 2, CURSOR_EXPIRED), reply(4 * i - 1, listed([], done())), reply(4 * i - 3, written(event(id=name(i - 1))))]
    return (again if i else []) + [creating(i, GOOGLE)]

def alias(i):
    """A created event is found under a name of the provider's."""
    return [creating(i, GRAPH), reply(i, read(event(provider=GRAPH, id=Z)))]

def full(*args, **given):
    table(*args, **given)
    LIST.append("")

def stored(place):
    """The record at a place, counted from 1."""
    LIST.extend([f"'; record {place}:", f"@{place - 1:02x}"])

table("records", 10, record)
for place in 1, 9, 10, 11:
    stored(place)
LIST.append("")
full("staged", 10, staged, [SYNC])
full("seen", 32, seen, [SYNC], last=1)
full("observed", 16, observed, [SYNC])
full("waiting", 6, waiting)
# behind a head, an update that the others fold into
full("absorbed", 8, absorbed, [updating(100, 101), updating(0, 1)])
# with a cursor, so that a later pass can expire; a sync needs a place too
full("in flight", 24, in_flight, [SYNC, reply(0, listed([], done()))], last=1)
# beside a read that is never answered, so that nothing learned is forgotten
full("learned", 32, observed, [deleting(Z)])
full("aliases", 8, alias)

# ---- attendees, changes and timestamps at the ends of what a frame may hold, and one past them

def count(label, frame):
    row((label + " 0", frame(0)), ("8", frame(8)), ("9", frame(9)))

count("attendees", lambda n: edit(create(attendees=several([attendee()] * n))))
count("attendees in a reply", lambda n: reply(0, written(event(attendees=several([attendee()] * n)))))
count("changes", lambda n: reply(0, listed([removal(text(b""))] * n, more())))
count("listed events", lambda n: reply(0, listed([upsert(event=some(event()))] * n, more())))

def time(label, t):
    row((f"time {label}: tick", tick(t)), ("expiry", edit(DELETE, expiry=some(number(t)))))

# An edit's expiry around now at and around zero: the effects of the edit, and of a tick that finds it waiting, each from a fresh state. 01040161 is
# document 01's own: Expired "a". An edit that waits has "r" read, by request 0.
def expiring(t): return edit(DELETE, id=text(b"a"), resource=text(b"r"), expiry=some(number(t)))

def told(label, steps_of):
    for place, t in enumerate((-1, 0, 1)):
        *before, last = steps_of(t)
        LIST.append("#" + (f"; {t}:" if place else f"{label}: expiry {t}:"))
        LIST.extend("-" + frame.hex() for frame in before)
        LIST.append("!" + last.hex())
    LIST.append("")

told("before any tick", lambda t: [expiring(t)])
for now in -1, 0, 1:
    told(f"now {now}", lambda t: [tick(now), expiring(t)])
for now in -1, 0, 1:
    told(f"waiting, then a tick {now}", lambda t: [expiring(t), tick(now)])

for t in -200000000000001, -200000000000000, -1, 0, 200000000000000, 200000000000001:
    time(t, t)
time("-2^63", -2 ** 63)
time("2^63 - 1", 2 ** 63 - 1)

# ---- the last case of each enum, and one past it

# An event with nothing left out.
FULL = dict(provider=b"\3", id=long(1), ical_uid=some(long(1)), series_id=some(long(1)), revision=some(long(1)), mapper=number(3, 4),
            title=some(long(1)), times=number(1), recurrence=some(number(2)), organizer=some(organizer(address=long(1), name=some(long(1)))),
            attendees=several([attendee(address=long(1), name=some(long(1)), role=b"\3", participation=b"\4", kind=b"\4")]),
            location=some(long(1)), description=some(number(3)), status=b"\2", transparency=b"\1", visibility=b"\3", reminders=number(4),
            passthrough=number(5))

def cases(label, last, frame):
    row((f"{label}: case {last}", frame(bytes([last]))), (f"case {last + 1}", frame(bytes([last + 1]))))

def in_full_event(label, part, last):
    cases(label, last, lambda case: edit(create(**dict(FULL, **{part: case}))))

def in_attendee(label, part, last):
    cases(label, last, lambda case: edit(create(attendees=several([attendee(**{part: case})]))))

cases("input", 4, lambda case: case)
cases("operation", 2, lambda case: edit(case))
row(("operation with an event: case 0", edit(create(**FULL))), ("case 3", edit(b"\3" + event(**FULL))))
cases("role", 1, lambda case: edit(DELETE, role=case + long(1)))
in_full_event("provider", "provider", 3)
in_full_event("status", "status", 2)
in_full_event("transparency", "transparency", 1)
in_full_event("visibility", "visibility", 3)
in_attendee("attendee's role", "role", 3)
in_attendee("participation", "participation", 4)
in_attendee("kind", "kind", 4)
cases("outcome", 4, lambda case: reply(0, case + b"\0"))
row(("outcome with no more: case 3", reply(0, DELETED)), ("case 4", reply(0, b"\4")), ("case 5", reply(0, b"\5")))
cases("failure", 5, lambda case: reply(0, b"\4" + case + long(0)))
row(("failure with no more: case 4", reply(0, b"\4\4")), ("case 5", reply(0, b"\4\5")), ("case 6", reply(0, b"\4\6")))
cases("change", 1, lambda case: reply(0, listed([case + long(1)], more())))
cases("next", 1, lambda case: reply(0, listed([], case + long(1))))

# ---- an option's byte

def option(label, value, frame):
    row((f"{label}: none", frame(b"\0")), ("option byte 1", frame(b"\1" + value)), ("option byte 2", frame(b"\2" + value)))

def option_in_event(label, part, value):
    option(label, value, lambda given: edit(create(**dict(FULL, **{part: given}))))

option("expiry", number(5), lambda given: edit(DELETE, expiry=given))
option_in_event("ical uid", "ical_uid", long(1))
option_in_event("series id", "series_id", long(1))
option_in_event("revision", "revision", long(1))
option_in_event("title", "title", long(1))
option_in_event("recurrence", "recurrence", number(2))
option_in_event("organizer", "organizer", organizer())
option("organizer's name", long(1), lambda given: edit(create(organizer=some(organizer(name=given)))))
option("attendee's name", long(1), lambda given: edit(create(attendees=several([attendee(name=given)]))))
option_in_event("location", "location", long(1))
option_in_event("description", "description", number(3))
option("listed event", event(), lambda given: reply(0, listed([upsert(event=given)], more())))
option("read event", event(), lambda given: reply(0, b"\1" + given))

# ---- RFC 3629, as an edit's id: its examples (section 7), and bytes that it excludes (sections 3, 4 and 10)

def edit_id(label, digits):
    row((label, edit(DELETE, id=text(bytes.fromhex(digits)))))

edit_id("text U+0041 U+2262 U+0391 U+002E", "41 e289a2 ce91 2e")
edit_id("text U+D55C U+AD6D U+C5B4", "ed959c eab5ad ec96b4")
edit_id("text U+65E5 U+672C U+8A9E", "e697a5 e69cac e8aa9e")
edit_id("text U+FEFF U+233B4", "efbbbf f0a38eb4")

edit_id("overlong zero", "c080")
edit_id("overlong full stop in /../", "2f c0ae 2e 2f")
edit_id("overlong U+007F", "c1bf")
edit_id("overlong U+07FF", "e09fbf")
edit_id("overlong U+FFFF", "f08fbfbf")
edit_id("surrogates for U+233B4", "eda18c edbeb4")
edit_id("past U+10FFFF", "f4908080")
edit_id("octet F5", "f5808080")
edit_id("octet FF", "ff")
edit_id("a tail alone", "80")
edit_id("cut short, of two", "ce")
edit_id("cut short, of three", "e289")
edit_id("cut short, of four", "f0a38e")
edit_id("no tail", "ce41")

# The first and the last character of each length, and around the surrogates.
edit_id("text U+0000", "00")
edit_id("text U+007F", "7f")
edit_id("text U+0080", "c280")
edit_id("text U+07FF", "dfbf")
edit_id("text U+0800", "e0a080")
edit_id("text U+D7FF", "ed9fbf")
edit_id("surrogate U+D800", "eda080")
edit_id("surrogate U+DFFF", "edbfbf")
edit_id("text U+E000", "ee8080")
edit_id("text U+FFFF", "efbfbf")
edit_id("text U+10000", "f0908080")
edit_id("text U+10FFFF", "f48fbfbf")

[place] = usage.words(__doc__, usage.folder)
open(place + "/stdin", "w").write("".join(line + "\n" for line in LIST))
