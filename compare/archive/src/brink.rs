//! States on the brink of refusal 7: one entry whose notices take about as many bytes as a call's effects may.
use judge::frames::Rng;
use judge::limited::{Conflict, EditId, Effect, FieldValue, Notice, Refused, codec, limits};
use judge::model::Field;
use judge::view::{PendingView, Purpose, View};

/// How far from the limit the notices end at the most. What else a step sends counts too, so the limit is met from both sides.
const ABOUT: usize = 12;

/// Gives the head of the first queue, if there is one, reports of such a length, and has it written.
pub fn to_the_brink(view: &mut View, rng: &mut Rng) {
    let Some((name, queue)) = view.edits.iter_mut().next() else { return };
    let head = queue.front_mut().expect("no queue is empty");
    lengthen(head, rng);
    // Few other requests, so that a random reply is often one to this write.
    let read = Purpose::EditRead(name.clone());
    view.in_flight.retain(|_, purpose| matches!(purpose, Purpose::EditRead(_) | Purpose::EditWrite(_)));
    for purpose in view.in_flight.values_mut().filter(|purpose| **purpose == read) {
        *purpose = Purpose::EditWrite(name.clone());
    }
}

fn lengthen(head: &mut PendingView, rng: &mut Rng) {
    let most = limits::limit("absorbed");
    head.absorbed = (0..most).map(|_| EditId::new("f".repeat(rng.below(codec::TEXT + 1)))).collect();
    let ends = limits::EFFECTS + ABOUT - rng.below(2 * ABOUT + 1);
    (head.conflicts, head.refused) = (Vec::new(), Vec::new());
    let empty = notices(head);
    let each = (ends - empty) / (most + 1);
    let part = Refused { field: Field::Attendees, attendee: text(codec::TEXT) };
    head.refused = vec![part; (limits::REFUSED - 1) / (3 + codec::TEXT)];
    let refused = (notices(head) - empty) / (most + 1);
    head.conflicts = conflicts(each - refused);
}

/// The bytes of the notices that an applied entry ends with.
fn notices(entry: &PendingView) -> usize {
    let applied = |id: &EditId| {
        let (conflicts, refused) = (entry.conflicts.clone(), entry.refused.clone());
        codec::encode(&Effect::Notify(Notice::Applied { edit: id.clone(), conflicts, refused })).len()
    };
    applied(&entry.edit.id) + entry.absorbed.iter().map(applied).sum::<usize>()
}

fn text(length: usize) -> Option<String> {
    Some("k".repeat(length))
}

/// Conflicts that take so many bytes, without the count.
fn conflicts(bytes: usize) -> Vec<Conflict> {
    let conflict = |attendee, base, theirs| Conflict {
        field: Field::Location,
        attendee,
        base: FieldValue::Location(base),
        ours: FieldValue::Location(None),
        theirs: FieldValue::Location(theirs),
    };
    // Without a text a conflict takes 8 bytes; each text takes one more than its length.
    let (least, text_most) = (8, codec::TEXT + 1);
    let full = (bytes - least) / (least + 2 * text_most);
    let mut list = vec![conflict(None, text(codec::TEXT), text(codec::TEXT)); full];
    let mut rest = bytes - full * (least + 2 * text_most) - least;
    let mut next = || {
        let length = rest.min(text_most);
        rest -= length;
        length.checked_sub(1).and_then(text)
    };
    list.push(conflict(next(), next(), next()));
    list
}
