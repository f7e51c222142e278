"""The bytes of frames, part by part, for the scripts that write lists of them."""

# ---- what a frame is made of

def number(n, width=8): return (n % 2 ** (8 * width)).to_bytes(width, "big")
def text(t): return bytes([len(t)]) + t
def some(value): return b"\1" + value
def several(values): return bytes([len(values)]) + b"".join(values)

def parts(widths, given):
    """The parts one after the other. One that is not given is zero: an empty text, nothing where there may be nothing, the first case, the tag 0."""
    assert set(given) <= set(widths), given
    return b"".join(given.get(name, bytes(width)) for name, width in widths.items())

IDS = dict(provider=1, id=1, ical_uid=1, series_id=1)
FIELDS = dict(title=1, times=8, recurrence=1, organizer=1, attendees=1, location=1, description=1, status=1, transparency=1, visibility=1, reminders=8)
EVENT = {**IDS, **dict(revision=1, mapper=4), **FIELDS, **dict(passthrough=8)}

def organizer(**given): return parts(dict(address=1, name=1), given)
def attendee(**given): return parts(dict(address=1, name=1, role=1, participation=1, kind=1), given)
def fields(**given): return parts(FIELDS, given)
def event(**given): return parts(EVENT, given)

# ---- inputs

SYNC, RESUME = b"\0", b"\4"

def tick(time): return b"\3" + number(time)

# An edit, by the owner where no role is given, and its operations.
DELETE = b"\2"
def edit(operation, **given): return b"\1" + parts(dict(id=1, resource=1, operation=1, role=1, expiry=1), dict(given, operation=operation))
def create(**given): return b"\0" + event(**given)
def update(base, ours): return b"\1" + base + ours

# A reply, its outcomes, and what a page has.
NOTHING, DELETED, CURSOR_EXPIRED = b"\1\0", b"\3", b"\4\0"
def reply(request, outcome): return b"\2" + number(request) + outcome
def listed(changes, after): return b"\0" + several(changes) + after
def read(found): return b"\1" + some(found)
def written(found): return b"\2" + found
def rejected(reason): return b"\4\5" + reason
def upsert(**given): return b"\0" + parts(dict(resource=1, revision=1, event=1), given)
def removal(resource): return b"\1" + resource
def more(cursor=text(b"")): return b"\0" + cursor
def done(cursor=text(b"")): return b"\1" + cursor
