#!/usr/bin/env python3
"""Writes the list that the program `state_test` runs: state_cases.py FOLDER

FOLDER/stdin gets the list (crates/state_test/src/main.rt says in what form): bytes that meet or break the conditions of document 01 on a state,
one after the other, and what is asked of them. FOLDER/stdout, what the program must print, is no output of this script: it is read against
document 01 by eye, each answer behind the words that say what was changed. crates/state_test has what this gives.
"""
import usage

STATE = 58543

# The parts of a state, by their offsets. docs/ARCHITECTURE.md has the same table.
CURSOR = 9151
PASS, FULL, FROM, DONE = 9185, 9186, 9187, 19968
NEXT_REQUEST, LEARNED_ALL, NOW = 56676, 57997, 58005

class Table:
    """A count byte, and entries of `width` bytes."""
    def __init__(self, offset, width, most):
        self.offset, self.width, self.most = offset, width, most

    def entry(self, i):
        return self.offset + 1 + i * self.width

    def end(self):
        return self.entry(self.most)

RECORDS = Table(0, 915, 10)
STAGED = Table(9221, 916, 10)
SEEN = Table(18382, 33, 32)
OBSERVED = Table(19439, 33, 16)
WAITING = Table(20002, 5940, 6)
FLIGHTS = Table(55643, 43, 24)
LEARNED = Table(56684, 41, 32)
ALIASES = Table(58014, 66, 8)

# Within an entry: a record's event is behind its name, a staged one behind its name and its case.
NAME = 33
EVENT = RECORDS.entry(0) + NAME
CASE = STAGED.entry(0) + NAME
PURPOSE = 9

# Within a waiting entry, from its start; its resource comes first.
ID, OPERATION, ROLE, EXPIRY, CONFLICTS, REFUSED, COLLIDED, ABSORBED = 33, 66, 1535, 1569, 1578, 4650, 5674, 5675

# What a request in flight is for.
LISTING, PASS_READ, EDIT_READ, EDIT_WRITE, REFRESH = range(5)

LATEST = 200_000_000_000_000

def number(n): return n.to_bytes(8, "big", signed=n < 0)
def text(t): return bytes([len(t)]) + t.encode()

class Bytes:
    """The list so far, and the bytes as the program has them there."""
    def __init__(self):
        self.bytes = bytearray(STATE + 1)
        self.list = []

    def say(self, words, *asked):
        """Prints words, and the answers to what is asked."""
        self.list += [">" + words, *asked]

    def end(self):
        self.list.append("")

    def count(self, n):
        self.list.append("=%d" % n)

    def fill(self, byte):
        self.bytes = bytearray([byte] * len(self.bytes))
        self.list.append("*%d" % byte)

    def put(self, at, new):
        self.bytes[at:at + len(new)] = new
        self.list.append("@%05d %s" % (at, new.hex()))

    def ask(self, words):
        self.say(words, "?")

    def ask_with(self, words, *changes):
        """Asks with some bytes changed (place, bytes), where the old ones then stand again."""
        old = [(at, bytes(self.bytes[at:at + len(new)])) for at, new in changes]
        for at, new in changes:
            self.put(at, new)
        self.ask(words)
        for at, new in reversed(old):
            self.put(at, new)

    def row(self, *cases):
        """A line of answers: each with its words, a place, and the byte or the bytes there."""
        for words, at, new in cases:
            self.ask_with(words, (at, bytes([new]) if isinstance(new, int) else new))
        self.end()

    def fill_table(self, offset, width, n):
        """The count n, and n entries that start with the texts "A", "B" and so on."""
        self.put(offset, bytes([n]))
        for i in range(n):
            self.put(offset + 1 + i * width, text(chr(ord("A") + i)))

    def fill_flights(self, n, purpose):
        """The requests 0 to n - 1 for the resources "A", "B" and so on; the next one is n."""
        self.put(FLIGHTS.offset, bytes([n]))
        self.put(NEXT_REQUEST, number(n))
        for i in range(n):
            self.put(FLIGHTS.entry(i), flight(i, purpose, chr(ord("A") + i)))

    def two_queues(self):
        """Two records, "a" and "bb"; the cursor "cur"; two edits of "q1", which is read for them, and one of "q2", which is written; a
        listing and a refresh of "q3" in flight."""
        self.fill(0)
        self.put(RECORDS.offset, b"\2" + text("a"))
        self.put(EVENT, b"\0" + text("a"))
        self.put(RECORDS.entry(1), text("bb"))
        self.put(CURSOR, b"\1" + text("cur"))
        self.put(WAITING.offset, b"\3")
        for i, (resource, id) in enumerate([("q1", "e1"), ("q1", "e2"), ("q2", "e3")]):
            self.put(WAITING.entry(i), text(resource))
            self.put(WAITING.entry(i) + ID, text(id))
            self.put(WAITING.entry(i) + OPERATION, b"\2")
        self.put(FLIGHTS.offset, b"\4")
        for i, (n, purpose, resource) in enumerate([(3, LISTING, None), (5, EDIT_READ, "q1"), (7, EDIT_WRITE, "q2"), (8, REFRESH, "q3")]):
            self.put(FLIGHTS.entry(i), flight(n, purpose, resource))
        self.put(NEXT_REQUEST, number(9))

def flight(n, purpose, resource):
    return b"\x08" + number(n) + bytes([purpose]) + (text(resource) if resource else b"")

# ---- the length, and a fresh state

def lengths(b):
    b.fill(7)
    for words, n in [("fresh: 58542 bytes", 58542), (", 58543", 58543), (", 58544", 58544)]:
        b.count(n)
        b.say(words, "f")
    b.end()
    b.count(STATE)
    b.ask("fresh is a state")
    b.end()
    for words, n, byte in [("refusal: no bytes", 0, 0), (", 58542 zeros", 58542, 0), (", 58543 zeros", 58543, 0), (", 58544 zeros", 58544, 0), (", 58543 sevens", 58543, 7)]:
        b.fill(byte)
        b.count(n)
        b.say(words, "!")
    b.end()

# ---- a byte that is not zero where nothing stands

def padding(b):
    b.fill(0)
    b.row(("a byte in a fresh state: records", RECORDS.entry(0), 1), (", their end", RECORDS.end() - 1, 1), (", cursor", CURSOR + 1, 1),
          (", waiting", WAITING.entry(0), 1), (", their end", WAITING.end() - 1, 1), (", in flight", FLIGHTS.entry(0), 1),
          (", learned", LEARNED.entry(0), 1), (", now", NOW + 1, 1), (", aliases", ALIASES.entry(0), 1), (", their end", ALIASES.end() - 1, 1))
    b.row(("a byte in a fresh state: next request", NEXT_REQUEST + 7, 1), (", learned all", LEARNED_ALL + 7, 1))
    b.row(("a byte where no pass is open: full", FULL, 1), (", from", FROM, 1), (", staged", STAGED.offset, 1), (", seen", SEEN.offset, 1),
          (", observed", OBSERVED.offset, 1), (", done", DONE, 1), (", its end", WAITING.offset - 1, 1))
    b.put(PASS, b"\1")
    b.row(("a byte in an open pass: full", FULL, 1), (", from", FROM + 1, 1), (", staged", STAGED.entry(0), 1), (", seen", SEEN.entry(0), 1),
          (", observed", OBSERVED.entry(0), 1), (", done", DONE + 1, 1), (", its end", WAITING.offset - 1, 1))

# ---- values: options, texts, times, truth values and events

def values(b):
    b.fill(0)
    b.put(CURSOR, b"\1" + text("aaaaaaaabbbbbbbbccccccccdddddddd"))
    b.row(("cursor: 32", CURSOR + 1, 32), (", 33", CURSOR + 1, 33), (", a byte behind", CURSOR + 1, 31), (", no text", CURSOR + 2, 0xff),
          (", option byte 2", CURSOR, 2))
    b.fill(0)
    b.row(("now: -200000000000001", NOW, b"\1" + number(-LATEST - 1)), (", -200000000000000", NOW, b"\1" + number(-LATEST)),
          (", 0", NOW, b"\1" + number(0)), (", 200000000000000", NOW, b"\1" + number(LATEST)),
          (", 200000000000001", NOW, b"\1" + number(LATEST + 1)))
    b.row(("now: option byte 2", NOW, 2))
    b.put(PASS, b"\1")
    b.row(("pass: open", PASS, 1), (", option byte 2", PASS, 2), ("; full 2", FULL, 2), ("; from 2", FROM, 2), (", 3", FROM, 3),
          ("; done 1", DONE, 1), (", 2", DONE, 2))
    # an event, unread, removed, no such case
    b.fill_table(STAGED.offset, STAGED.width, 1)
    b.row(("staged: case 0", CASE, 0), (", 1", CASE, 1), (", 2", CASE, 2), (", 3", CASE, 3), ("; provider 4", CASE + 1, 4))

# Within a record's event of zeros, of which 42 bytes are the event's and the others behind it.
EVENT_ID, EVENT_TITLE, EVENT_ATTENDEES, EVENT_LEFT = EVENT + 1, EVENT + 9, EVENT + 20, EVENT + 42
ATTENDEE = 6

def events(b):
    for words, n in [("event: attendees 8", 8), (", 9", 9)]:
        b.fill(0)
        b.fill_table(RECORDS.offset, RECORDS.width, 1)
        b.fill_table(EVENT_ATTENDEES, ATTENDEE, n)
        b.ask(words)
    b.fill(0)
    b.fill_table(RECORDS.offset, RECORDS.width, 1)
    b.row(("; id of 32", EVENT_ID, 32), (", 33", EVENT_ID, 33), ("; title option 2", EVENT_TITLE, 2),
          ("; a byte left over", EVENT_LEFT, 1), (", at the end", RECORDS.entry(1) - 1, 1))

# ---- each table full, and then its count and its keys spoilt

def table(b, name, t, open):
    b.fill(0)
    b.put(PASS, bytes([open]))
    b.fill_table(t.offset, t.width, t.most)
    b.ask("%s %d" % (name, t.most))
    b.ask_with(", one more", (t.offset, bytes([t.most + 1])))
    # a count of one less leaves the last entry behind the table
    b.ask_with(", one less", (t.offset, bytes([t.most - 1])))
    b.fill(0)
    b.put(PASS, bytes([open]))
    b.fill_table(t.offset, t.width, 2)
    # the second key: the first is "A"
    key = t.entry(1)
    b.row(("; keys equal", key + 1, b"A"), (", falling", key + 1, b"@"), (", no text", key + 1, 0xff), (", 33", key, 33),
          (", a byte behind", key + NAME - 1, 1))

def full(b):
    table(b, "records", RECORDS, 0)
    table(b, "staged", STAGED, 1)
    table(b, "seen", SEEN, 1)
    table(b, "observed", OBSERVED, 1)
    table(b, "learned", LEARNED, 0)
    table(b, "aliases", ALIASES, 0)
    b.fill(0)
    b.fill_flights(24, PASS_READ)
    b.row(("in flight 24", FLIGHTS.offset, 24), (", one more", FLIGHTS.offset, 25), (", one less", FLIGHTS.offset, 23),
          ("; next request 23", NEXT_REQUEST, number(23)), (", 25", NEXT_REQUEST, number(25)))
    b.fill(0)
    b.fill_flights(2, PASS_READ)
    b.put(NEXT_REQUEST, number(9))
    first = FLIGHTS.entry(0)
    b.row(("in flight: keys equal", first + 1, number(1)), (", falling", first + 1, number(2)), (", of 7 bytes", first, 7), (", of 9", first, 9),
          ("; purpose 4", first + PURPOSE, 4), (", 5", first + PURPOSE, 5), ("; a byte behind a listing", first + PURPOSE, LISTING))
    # six queues of one entry each, all being read
    b.fill(0)
    b.fill_table(WAITING.offset, WAITING.width, 6)
    b.fill_flights(6, EDIT_READ)
    b.row(("waiting 6", WAITING.offset, 6), (", one more", WAITING.offset, 7), (", one less", WAITING.offset, 5))

# ---- the parts of a queued entry: the first one, an edit of "q1"

# A conflict over the times, and a refused attendee with a name of two letters.
TIMES = b"\1\0" + 3 * (b"\1" + number(0))
ATTENDED = b"\4\1" + text("ab")

def entries(b):
    b.two_queues()
    e = WAITING.entry(0)
    b.row(("entry: as it is", e, 2), (", resource 33", e, 33), (", a byte behind", e + NAME - 1, 1), ("; id 33", e + ID, 33),
          (", no text", e + ID + 1, 0x80), (", a byte behind", e + ID + NAME - 1, 1))
    b.row(("entry: create", e + OPERATION, 0), (", update", e + OPERATION, 1), (", no such operation", e + OPERATION, 3),
          (", a byte behind", e + ROLE - 1, 1), ("; attendee", e + ROLE, 1), (", no such role", e + ROLE, 2), (", a byte behind", e + EXPIRY - 1, 1),
          ("; expiry", e + EXPIRY, 1), (", option byte 2", e + EXPIRY, 2), (", a byte behind", e + EXPIRY + 1, 1))
    b.row(("expiry: -200000000000001", e + EXPIRY, b"\1" + number(-LATEST - 1)), (", -200000000000000", e + EXPIRY, b"\1" + number(-LATEST)),
          (", 200000000000000", e + EXPIRY, b"\1" + number(LATEST)), (", 200000000000001", e + EXPIRY, b"\1" + number(LATEST + 1)))
    # a conflict over the status: a count, the field, and the values of base, ours and theirs
    c = e + CONFLICTS
    b.row(("conflicts: one", c, bytes([1, 7, 0, 7, 0, 7, 1, 7, 2])), (", no such field", c, bytes([1, 11, 0, 7, 0, 7, 1, 7, 2])),
          (", no such value", c, bytes([1, 7, 0, 7, 0, 7, 1, 11, 2])), (", no such status", c, bytes([1, 7, 0, 7, 0, 7, 1, 7, 3])),
          (", a byte behind", c, bytes([1, 7, 0, 7, 0, 7, 1, 7, 2, 1])), (", 255 of them", c, 255), (", a byte at the end", e + REFUSED - 1, 1))
    r = e + REFUSED
    b.row(("refused: one", r, bytes([1, 5, 0])), (", no such field", r, bytes([1, 11, 0])), (", option byte 2", r, bytes([1, 5, 2])),
          (", a byte behind", r, bytes([1, 5, 0, 1])), (", 255 of them", r, 255), (", a byte at the end", e + COLLIDED - 1, 1))
    sizes(b, c, r)
    b.row(("collided: 1", e + COLLIDED, 1), (", 2", e + COLLIDED, 2))
    for words, n in [("absorbed: 8", 8), (", 9", 9)]:
        b.two_queues()
        b.fill_table(e + ABSORBED, 2, n)
        b.ask(words)
    b.two_queues()
    b.row(("; a byte at the end", e + WAITING.width - 1, 1))

def sizes(b, conflicts, refused):
    """As many conflicts, and refused fields, as their parts of 3,072 and of 1,024 bytes hold, and one more."""
    b.row(("conflicts: 3046 bytes", conflicts, bytes([105]) + 105 * TIMES), (", 3075", conflicts, bytes([106]) + 106 * TIMES),
          ("; refused: 1021", refused, bytes([204]) + 204 * ATTENDED), (", 1026", refused, bytes([205]) + 205 * ATTENDED))

# ---- the rules across tables: numbers in flight, queues and the requests for them

def purposes(b, words, at, resource):
    """Asks with each purpose that has a resource."""
    for name, purpose in [("pass read", PASS_READ), ("edit read", EDIT_READ), ("edit write", EDIT_WRITE), ("refresh", REFRESH)]:
        b.ask_with(words + name, (at, bytes([purpose]) + resource))
        words = ", "

def across(b):
    b.two_queues()
    # the highest number in flight is 8
    b.row(("8 in flight, next request 8", NEXT_REQUEST, number(8)), (", 9", NEXT_REQUEST, number(9)), (", 10", NEXT_REQUEST, number(10)),
          ("; all learned up to 255", LEARNED_ALL, number(255)))
    # request 5 reads for the queue of "q1"; "q3" has no queue, and request 8 is for it
    read, other = FLIGHTS.entry(1) + PURPOSE, FLIGHTS.entry(3) + PURPOSE
    purposes(b, "no queue: ", other, text("q3"))
    b.end()
    purposes(b, "a queue's only request: ", read, text("q1"))
    b.ask_with(", of another name", (read + 1, text("q4")))
    b.end()
    purposes(b, "a queue's second request: ", other, text("q1"))
    b.end()
    # the entries' resources are "q1", "q1" and "q2", for which request 7 is
    second, third, written = WAITING.entry(1), WAITING.entry(2), FLIGHTS.entry(2) + PURPOSE
    b.ask_with("queues: q1 q1 q0", (third, text("q0")), (written + 1, text("q0")))
    b.ask_with(", q1 q2 q1", (second, text("q2")), (third, text("q1")))
    b.ask_with(", q1 q2 q2", (second, text("q2")), (third, text("q2")))
    b.ask_with(", q1 q1 q1", (third, text("q1")), (written, bytes([REFRESH])))
    b.end()

# ---- the reading functions

def read(b, words):
    b.say(words)
    b.end()
    for words, resource in [("waiting: q1", b"q1"), (", q2", b"q2"), (", q3", b"q3"), (", q", b"q"), (", no text", b"\xff")]:
        b.say(words, "w" + resource.hex())
    b.end()
    highest = 2 ** 64 - 1
    b.say("in flight:", *["i%d" % i for i in [0, 1, 2, 3, 4, highest]])
    b.end()
    b.say("records:", *["r%d" % i for i in [0, 1, 2, highest]])
    b.end()
    b.say("cursor:", "c")
    b.end()

def reading(b):
    b.two_queues()
    read(b, "a state with two queues")
    b.put(STATE - 1, b"\1")
    read(b, "its last byte changed")
    b.fill(0)
    read(b, "fresh")
    b.count(STATE - 1)
    read(b, "a byte short")

def main():
    [place] = usage.words(__doc__, usage.folder)
    b = Bytes()
    for part in [lengths, padding, values, events, full, entries, across, reading]:
        part(b)
    data = "".join(line + "\n" for line in b.list).encode()
    assert len(data) <= 65536, len(data)
    open(place + "/stdin", "wb").write(data)
    print(len(b.list), "lines,", len(data), "bytes")

main()
