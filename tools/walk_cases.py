#!/usr/bin/env python3
"""Writes the field engineers' four walks, one with a mistyped frame and two over a full booking, the list that the program `checklist` runs: walk_cases.py FOLDER

FOLDER/stdin gets the walks in the form that README.md says under "A walk of your own". crates/checklist has what this writes. What the program prints of
them, FOLDER/stdout, this does not write: whether a new walk's conditions are the right ones is to be found in documents 01 and 02, and not by running it.
"""
import usage
from frames import *

LIST = ["# The field engineers' four walks, one with a mistyped frame, and two over a full booking. README.md, \"A walk of your own\", says what the lines are. Above each frame stands what happens."]

# ---- the one booking of the walks, "bay 1"

NEEDS_ACTION, ACCEPTED, DECLINED = b"\0", b"\1", b"\2"
RESOURCE = text(b"bay 1")
HAULIER = text(b"haulier@road")

class Booking:
    """At a revision: the tag of its times (800 for the slot at eight), its load in tonnes, the haulier's answer, and other parts that are given."""
    def __init__(self, revision, times, load=36, answer=NEEDS_ACTION, **given):
        self.revision = text(b"r%d" % revision)
        self.given = dict(title=some(text(b"pellets")), times=number(times), attendees=several([attendee(address=HAULIER, participation=answer)]),
                          location=some(RESOURCE), description=some(number(load)))
        self.given.update(given)

    def fields(self): return fields(**self.given)
    def event(self): return event(id=RESOURCE, revision=some(self.revision), mapper=number(1, 4), **self.given)

# ---- the lines

def walk(title, expected):
    LIST.extend(["", "walk " + title, "expected " + expected])

def step(words, frame):
    LIST.extend(["# " + words, "frame " + frame.hex()])

def refused(number):
    """The frame before it is refused with this number."""
    LIST.append(f"refused {number}")

def mark():
    LIST.append("mark")

def check(words, *conditions):
    LIST.extend([*conditions, "check " + words])

# ---- steps

def sync(words="a listing is asked for"):
    step(words, SYNC)

def page(words, request, booking, cursor):
    """A page that lists the booking and ends the pass."""
    change = upsert(resource=RESOURCE, revision=booking.revision, event=some(booking.event()))
    step(words, reply(request, listed([change], done(text(cursor)))))

def opening():
    """One pass that lists the slot at eight."""
    sync()
    page("the page: the slot at eight", 0, Booking(1, 800), b"monday")

def edited(words, id, base, ours, **terms):
    step(words, edit(update(base.fields(), ours.fields()), id=text(id), resource=RESOURCE, **terms))

def found(words, request, booking):
    step(words, reply(request, read(booking.event())))

def answered(words, request, booking):
    step(words, reply(request, written(booking.event())))

def clock(now):
    step(f"the clock: {now}", tick(now))

# ---- conditions

def told(id, times=1): return f"told {times} {id}"
def sent(effect, times=1): return f"sent {times} {effect.hex()}"
def writes(times): return f"written {times}"
def waits(times): return f"waits {times} bay 1"
def in_flight(times): return f"in_flight {times}"
def record(booking): return "record " + booking.event().hex()
def cursor(name): return "cursor " + name
NO_CURSOR = "no_cursor"

# The effects that are looked for.
SYNCED = b"\1\0"
def listing_asked(request): return b"\0" + number(request) + b"\0\0"
def read_asked(request): return b"\0" + number(request) + b"\1" + RESOURCE
def update_asked(request, booking): return b"\0" + number(request) + b"\4" + RESOURCE + some(booking.revision) + booking.event()
def applied(id, conflicts=(), refused=()): return b"\1\2" + text(id) + several(conflicts) + several(refused)
def expired(id): return b"\1\4" + text(id)

# What was in conflict or refused.
TITLE, TIMES, ATTENDEES = b"\0", b"\1", b"\4"
def times_conflict(base, ours, theirs): return TIMES + b"\0" + b"".join(TIMES + number(n) for n in (base, ours, theirs))
TITLE_REFUSED, TIMES_REFUSED = TITLE + b"\0", TIMES + b"\0"
def attendee_refused(address): return ATTENDEES + some(address)

# ---- (a)

walk("(a) Move one slot three times running",
     "the third move is folded into the second, so two updates are sent; each of the three moves is told exactly once.")
opening()
edited("the clerk moves the slot from eight to nine", b"move 1", Booking(1, 800), Booking(1, 900))
edited("on to ten", b"move 2", Booking(1, 900), Booking(1, 1000))
edited("and on to eleven", b"move 3", Booking(1, 1000), Booking(1, 1100))
check("two edits wait for the booking, the third is in the second", waits(2))
found("it is read for the first move", 1, Booking(1, 800))
answered("and written", 2, Booking(2, 900))
found("it is read for the other two", 3, Booking(2, 900))
answered("and written", 4, Booking(3, 1100))
check('"move 1" is told once', told("move 1"))
check('"move 2" is told once', told("move 2"))
check('"move 3", which was folded into "move 2", is told once', told("move 3"))
check("two updates are sent", writes(2))
check("the booking stands at eleven", record(Booking(3, 1100)))
check("no edit waits and nothing is in flight", waits(0), in_flight(0))

# ---- (b)

walk("(b) Hold back a listing page while a move is written",
     "the old page is not laid over the written move, nor a held answer to a write over a newer page; the booking is read again.")
sync("a listing is asked for, and its page is held back")
edited("the clerk moves the slot from eight to nine", b"move", Booking(1, 800), Booking(1, 900))
found("it is read", 1, Booking(1, 800))
answered("and written", 2, Booking(2, 900))
check('"move" is told once', told("move"))
mark()
page("the held page, with the slot still at eight", 0, Booking(1, 800), b"monday")
check("the booking still stands at nine", record(Booking(2, 900)))
check("the booking is read again", sent(read_asked(3)))
check("Synced is not told yet, and there is no cursor yet", sent(SYNCED, 0), NO_CURSOR)
mark()
found("the answer: nine", 3, Booking(2, 900))
check("the booking stands at nine", record(Booking(2, 900)))
check("Synced is told, and the cursor is the page's", sent(SYNCED), cursor("monday"))
check("nothing is in flight", in_flight(0))
edited("the clerk moves the slot on to ten", b"move two", Booking(2, 900), Booking(2, 1000))
found("it is read, and the answer to the write is held back", 4, Booking(2, 900))
sync()
page("the page: the haulier has moved the slot to twelve", 6, Booking(4, 1200), b"tuesday")
mark()
answered("the held answer, with the slot at ten", 5, Booking(3, 1000))
check("the booking still stands at twelve", record(Booking(4, 1200)))
check("the booking is read again", sent(read_asked(7)))
check('"move two" is told once', told("move two"))
found("the answer: twelve", 7, Booking(4, 1200))
check("the booking stands at twelve", record(Booking(4, 1200)))

# ---- (c)

walk("(c) Let the haulier change what the clerk changed",
     "neither side is dropped silently. What both changed stays the haulier's and is reported as a conflict, the clerk's other change is written; "
     "what the haulier does not own is reported as refused.")
opening()
mark()
edited("the clerk moves the slot from eight to nine and the load from 36 to 40 tonnes", b"clerk", Booking(1, 800), Booking(1, 900, 40))
found("it is read: the haulier has moved it to ten", 1, Booking(2, 1000))
answered("and written", 2, Booking(3, 1000, 40))
check("the update asked for has the haulier's times and the clerk's load", sent(update_asked(2, Booking(2, 1000, 40))))
check('"clerk" is told Applied with a conflict over the times: base 800, ours 900, theirs 1000', sent(applied(b"clerk", [times_conflict(800, 900, 1000)])))
mark()
edited("the haulier accepts, and moves the slot to eleven, which is the owner's to do", b"haulier",
       Booking(3, 1000, 40), Booking(3, 1100, 40, ACCEPTED), role=some(HAULIER))
found("it is read", 3, Booking(3, 1000, 40))
answered("and written", 4, Booking(4, 1000, 40, ACCEPTED))
check("the update asked for has the haulier's answer and the old times", sent(update_asked(4, Booking(3, 1000, 40, ACCEPTED))))
check('"haulier" is told Applied with the times refused', sent(applied(b"haulier", refused=[TIMES_REFUSED])))
check("the booking stands at ten with 40 tonnes, accepted", record(Booking(4, 1000, 40, ACCEPTED)))

# ---- (d)

def until(words, id, deadline):
    edited(words, id, Booking(1, 800), Booking(1, 900), expiry=some(number(deadline)))

walk("(d) Pass a move's deadline",
     "a move that is not being written when its deadline comes is told Expired once and never sent; one whose write is under way is spared.")
opening()
mark()
clock(4999)
until("the clerk moves the slot from eight to nine, until 5000", b"late", 5000)
clock(5000)
found("it is read", 1, Booking(1, 800))
check('"late" is told once, Expired', told("late"), sent(expired(b"late")))
check("it is not sent", writes(0))
check("no edit waits", waits(0))
mark()
until("the same move, until 6000", b"on time", 6000)
found("it is read", 2, Booking(1, 800))
clock(6000)
answered("and written", 3, Booking(2, 900))
check('"on time", whose write was under way, is told once, Applied', told("on time"), sent(applied(b"on time")))
check("the booking stands at nine", record(Booking(2, 900)))
mark()
until("the same move again, until 6000, which is now", b"too late", 6000)
check('"too late" is told Expired at once, and nothing else happens', told("too late"), sent(expired(b"too late")), writes(0))

# ---- (e)

walk("(e) Mistype a digit of a frame",
     "the frame is refused with 3, and nothing comes of it: the right one is taken as if it had not been there.")
step("a sync, but its digits are 05 in place of 00", b"\5")
refused(3)
check("nothing is in flight, and there is no cursor", in_flight(0), NO_CURSOR)
sync("the right digits")
check("one listing is asked for", sent(listing_asked(0)), in_flight(1))

# ---- (f) and (g), where the booking is full: it has eight attendees, the most that there may be

# The haulier's address as the booking has it. The haulier's edit spells it in small letters.
SPELLED = text(b"Haulier@Road")
LOADER, GUARD, DRIVER = text(b"loader@mill"), text(b"guard@mill"), text(b"driver@road")

def attended(revision, *last, own={}, loader={}, **given):
    """The slot at eight with seven attendees, the haulier the second, and the last behind them."""
    others = [attendee(address=text(name + b"@mill")) for name in (b"gate", b"scale", b"silo", b"lab")]
    seven = [attendee(address=text(b"clerk@mill")), attendee(address=SPELLED, **own), attendee(address=LOADER, **loader), *others]
    return Booking(revision, 800, attendees=several(seven + [attendee(address=address) for address in last]), **given)

def all_changed(revision):
    """What the update makes of the seven: another title, the haulier's name and answer, the loader's answer, the driver as the eighth, other reminders."""
    return attended(revision, DRIVER, own=dict(name=some(text(b"Road Ltd")), participation=ACCEPTED), loader=dict(participation=DECLINED),
                    title=some(text(b"meal")), reminders=number(30))

def answer_changed(revision):
    """The full booking with the haulier's own answer and reminders."""
    return attended(revision, GUARD, own=dict(participation=ACCEPTED), reminders=number(30))

def opening_with_seven():
    sync()
    page("the page: the slot at eight, with seven attendees", 0, attended(1), b"monday")

walk("(f) Let a haulier change more than their own answer",
     "only the haulier's own answer and reminders are written. All else stays as it was read, no attendee is added or removed, and what was refused is told.")
opening_with_seven()
mark()
edited("the haulier accepts and sets reminders, but also changes the title, their own name and the loader's answer, and adds the driver", b"haulier",
       attended(1), all_changed(1), role=some(HAULIER))
found("it is read: the mill has added the guard, so there are eight attendees", 1, attended(2, GUARD))
check("one update is asked for: what was read, but for the haulier's own answer and the reminders", sent(update_asked(2, answer_changed(2))), writes(1))
answered("and written", 2, answer_changed(3))
check('"haulier" is told once, Applied, with the title, their own name, the loader\'s answer and the driver refused', told("haulier"),
      sent(applied(b"haulier", refused=[TITLE_REFUSED, attendee_refused(SPELLED), attendee_refused(LOADER), attendee_refused(DRIVER)])))
check("the booking stands with the same eight attendees in the same order, and the haulier has accepted", record(answer_changed(3)))
check("no edit waits and nothing is in flight", waits(0), in_flight(0))

walk("(g) Let the owner make the same changes",
     "the owner may make them all, but nine attendees are one too many: the answer to the read is refused with 6, and nothing comes of it until there is room.")
opening_with_seven()
mark()
edited("the owner makes the changes of (f)", b"owner", attended(1), all_changed(1))
found("it is read: the guard is the eighth attendee, so the driver would be the ninth", 1, attended(2, GUARD))
refused(6)
check("refused with 6: nothing is told or written, the edit waits and its read is in flight", told("owner", 0), writes(0), waits(1), in_flight(1))
found("it is read again: the mill has taken the guard off", 1, attended(3))
check("one update is asked for, with all the changes", sent(update_asked(2, all_changed(3))), writes(1))
answered("and written", 2, all_changed(4))
check('"owner" is told once, Applied, with nothing refused', told("owner"), sent(applied(b"owner")))
check("the booking stands with all the changes", record(all_changed(4)))

LIST.extend(["", "all seven walks hold."])

[place] = usage.words(__doc__, usage.folder)
open(place + "/stdin", "w").write("".join(line + "\n" for line in LIST))
