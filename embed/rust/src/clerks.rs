//! Two clerks, one booking: what two parties make of one event, and who can force what of it.

use crate::archive;
use crate::engine::{Refusal, answer, written};
use crate::event::{Attendee, NormalizedEvent};
use crate::forms::fields;
use crate::frame::{Frame, Reader};
use crate::merge::Role;
use crate::provider::ProviderEvent;

/// One of the two that write to an event.
#[derive(Clone, Debug, PartialEq, Eq, Hash)]
pub struct Party {
    /// Which parts of the event it owns.
    pub role: Role,
    /// What it would have of the event.
    pub wanted: NormalizedEvent,
}

fields!(Party { role, wanted });

/// A part of an event that is merged on its own.
#[derive(Clone, Debug, PartialEq, Eq, Hash)]
#[allow(missing_docs, reason = "the cases are the event's fields")]
pub enum Unit {
    Title,
    Times,
    Recurrence,
    Organizer,
    /// The attendee entry with this address, in ASCII lowercase, but for its reply.
    Rest(String),
    /// The reply of the entry with this address, in ASCII lowercase.
    Reply(String),
    Location,
    Description,
    Status,
    Transparency,
    Visibility,
    Reminders,
}

/// A party, by its place among the two.
#[derive(Clone, Copy, Debug, PartialEq, Eq, Hash)]
pub enum Named {
    /// The first that was given.
    One,
    /// The second.
    Two,
}

/// What one order of the two writes leads to.
#[derive(Clone, Debug, PartialEq, Eq, Hash)]
pub struct Written {
    /// The event after both writes.
    pub event: ProviderEvent,
    /// For each unit the party that can force it, the first to write if both can.
    pub names: Vec<(Unit, Option<Named>)>,
}

/// Two parties start from one event, and each writes one update: what both orders lead to, first the one in which `one` writes first.
///
/// A party can force a unit if for every value unlike the event's it has an update that leaves that value in the end, whichever
/// update the other chooses that gets neither merge refused. A reply has a value only while its entry stands.
///
/// The units stand in the merge's order. The entries are the event's, then those that `one` wants and the event has not, then those
/// that `two` wants and neither has.
///
/// ```
/// use bay::{EventTimes, MapperVersion, Named, NormalizedEvent, Party, Passthrough, Provider, ProviderEvent, ProviderIds, Role, Unit};
///
/// let fields = NormalizedEvent::new(EventTimes::new(0));
/// let event = ProviderEvent {
///     ids: ProviderIds::new(Provider::Google, "i"),
///     revision: None,
///     mapper_version: MapperVersion::new(0),
///     fields: fields.clone(),
///     passthrough: Passthrough::new(0),
/// };
/// let attendee = Party { role: Role::Attendee { address: "a".into() }, wanted: fields.clone() };
/// let owner = Party { role: Role::Owner, wanted: NormalizedEvent { title: Some("t".into()), ..fields } };
/// let [attendee_first, owner_first] = bay::two_clerks(&event, &attendee, &owner)?;
/// assert_eq!(attendee_first.event.fields, owner.wanted);
/// assert_eq!(attendee_first.names[0], (Unit::Title, Some(Named::Two))); // only the owner may change it
/// assert_eq!(attendee_first.names[9], (Unit::Reminders, Some(Named::One))); // both may, and the attendee writes first
/// assert_eq!(owner_first.names[9], (Unit::Reminders, Some(Named::Two)));
/// # Ok::<(), bay::Refusal>(())
/// ```
///
/// # Errors
///
/// [`Refusal::Input`] where a value passes a limit of the frame, then [`Refusal::AddressTwice`] where the event or a wanted event has an
/// attendee's address twice, then [`Refusal::Attendees`] where a merge of either order has too many.
pub fn two_clerks(
    event: &ProviderEvent,
    one: &Party,
    two: &Party,
) -> Result<[Written; 2], Refusal> {
    let mut frame = event.encode()?;
    one.write(&mut frame)?;
    two.write(&mut frame)?;
    let mut one_first = vec![0; archive::clerks_line_length()];
    let mut two_first = one_first.clone();
    let mut work = vec![0; archive::clerks_work_length()];
    let answered = archive::two_clerks(&frame, &mut one_first, &mut two_first, &mut work);
    let [one_length, two_length] = answer(answered)?;
    let units = units([&event.fields, &one.wanted, &two.wanted]);
    Ok([
        read(&one_first[..one_length], &units),
        read(&two_first[..two_length], &units),
    ])
}

/// The units, in the merge's order; each entry stands once.
fn units(events: [&NormalizedEvent; 3]) -> Vec<Unit> {
    let mut addresses = Vec::new();
    for Attendee { address, .. } in events.iter().flat_map(|event| &event.attendees) {
        let folded = address.to_ascii_lowercase();
        if !addresses.contains(&folded) {
            addresses.push(folded);
        }
    }
    let entry = |address: String| [Unit::Rest(address.clone()), Unit::Reply(address)];
    let before = [Unit::Title, Unit::Times, Unit::Recurrence, Unit::Organizer];
    let behind = [
        Unit::Location,
        Unit::Description,
        Unit::Status,
        Unit::Transparency,
        Unit::Visibility,
        Unit::Reminders,
    ];
    let entries = addresses.into_iter().flat_map(entry);
    before.into_iter().chain(entries).chain(behind).collect()
}

fn named(byte: u8) -> Option<Named> {
    match byte {
        0 => None,
        1 => Some(Named::One),
        2 => Some(Named::Two),
        _ => unreachable!("the archive names nobody, the first or the second"),
    }
}

/// A line: the event, and a byte for each unit.
fn read(line: &[u8], units: &[Unit]) -> Written {
    let mut from = Reader::new(line);
    let event = written(ProviderEvent::read(&mut from));
    let name = |unit: &Unit| (unit.clone(), named(written(from.byte())));
    let names = units.iter().map(name).collect();
    Written { event, names }
}
