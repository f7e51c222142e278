//! Two clerks: the worked example, who is named, refusals, and random bookings beside a merge and a naming of this file's own.

use crate::random::Random;
use bay::*;

fn bytes(hexadecimal: &str) -> Vec<u8> {
    let digits = |at| u8::from_str_radix(&hexadecimal[at..at + 2], 16).expect("two digits");
    (0..hexadecimal.len()).step_by(2).map(digits).collect()
}

/// An event with these attendees, all else empty.
fn fields(addresses: &[&str]) -> NormalizedEvent {
    NormalizedEvent {
        attendees: addresses.iter().copied().map(Attendee::new).collect(),
        ..NormalizedEvent::new(EventTimes::new(0))
    }
}

fn event(addresses: &[&str]) -> ProviderEvent {
    ProviderEvent {
        ids: ProviderIds::new(Provider::Google, "i"),
        revision: None,
        mapper_version: MapperVersion::new(0),
        fields: fields(addresses),
        passthrough: Passthrough::new(0),
    }
}

fn owner(wanted: NormalizedEvent) -> Party {
    let role = Role::Owner;
    Party { role, wanted }
}

fn attendee(address: &str, wanted: NormalizedEvent) -> Party {
    let address = address.into();
    let role = Role::Attendee { address };
    Party { role, wanted }
}

/// A digit for each unit, 0 or the party named, in groups: the fields before the entries, each entry, the fields behind them.
fn digits(written: &Written) -> String {
    let mut digits = String::new();
    for (unit, named) in &written.names {
        if matches!(unit, Unit::Rest(_) | Unit::Location) {
            digits.push(' ');
        }
        digits.push(match named {
            None => '0',
            Some(Named::One) => '1',
            Some(Named::Two) => '2',
        });
    }
    digits
}

#[test]
fn the_worked_example() {
    let event = event(&["a"]);
    let mut accepted = fields(&["a"]);
    accepted.attendees[0].participation = Participation::Accepted;
    let one = attendee("A", accepted.clone());
    let mut two = owner(fields(&["b"]));
    two.wanted.title = Some("t".into());
    let frame = [event.encode(), one.encode(), two.encode()].map(|part| part.expect("it fits"));
    let hexadecimal = [
        "00016900000000000000",
        "00000000000000000000000101610000000000000000000000000000000000",
        "0000000000000000",
        "010141",
        "00000000000000000000000101610000010000000000000000000000000000",
        "00",
        "010174000000000000000000000101620000000000000000000000000000000000",
    ];
    assert_eq!(frame.concat(), bytes(&hexadecimal.concat()));

    let [one_first, two_first] = two_clerks(&event, &one, &two).expect("two lines");
    let left = |attendees| ProviderEvent {
        fields: NormalizedEvent {
            attendees,
            ..two.wanted.clone()
        },
        ..event.clone()
    };
    let both = [accepted.attendees, two.wanted.attendees.clone()].concat();
    assert_eq!(one_first.event, left(both), "the reply saves the entry");
    assert_eq!(two_first.event, left(two.wanted.attendees.clone()));
    assert_eq!(digits(&one_first), "2222 01 22 222221");
    assert_eq!(digits(&two_first), "2222 22 22 222222");
    for written in [one_first, two_first] {
        let units: Vec<Unit> = written.names.into_iter().map(|name| name.0).collect();
        assert_eq!(units, units_of(["a", "b"].map(str::to_owned)));
    }
}

/// The names in both orders; the event has q, p and x, and n is new.
fn names(one: &str, two: &str) -> [String; 2] {
    let party = |address: &str| match address {
        "" => owner(fields(&["n"])),
        address => attendee(address, fields(&["N", "x"])),
    };
    let written = two_clerks(&event(&["q", "P", "x"]), &party(one), &party(two));
    written.expect("two lines").map(|written| digits(&written))
}

#[test]
fn who_is_named() {
    for (one, two, one_first, two_first) in [
        ("", "", "1111 11 11 11 11 111111", "2222 22 22 22 22 222222"),
        // an attendee has its own reply and the reminders; its reply can save its entry, so nobody can force the rest
        (
            "Q",
            "",
            "2222 01 22 22 22 222221",
            "2222 22 22 22 22 222222",
        ),
        (
            "",
            "q",
            "1111 11 11 11 11 111111",
            "1111 02 11 11 11 111112",
        ),
        (
            "q",
            "p",
            "0000 01 02 00 00 000001",
            "0000 01 02 00 00 000002",
        ),
        (
            "q",
            "Q",
            "0000 01 00 00 00 000001",
            "0000 02 00 00 00 000002",
        ),
        // an entry that the event has not is the owner's, even one of an attendee's own address
        (
            "n",
            "",
            "2222 22 22 22 22 222221",
            "2222 22 22 22 22 222222",
        ),
        (
            "n",
            "o",
            "0000 00 00 00 00 000001",
            "0000 00 00 00 00 000002",
        ),
    ] {
        assert_eq!(names(one, two), [one_first, two_first], "{one:?} {two:?}");
    }
}

#[test]
fn new_entries_stand_by_party_each_once() {
    let [one, two] = [&["B", "c"], &["d", "C"]].map(|wanted| owner(fields(wanted)));
    let expected = units_of(["a", "b", "c", "d"].map(str::to_owned));
    for written in two_clerks(&event(&["A"]), &one, &two).expect("two lines") {
        let units: Vec<Unit> = written.names.into_iter().map(|name| name.0).collect();
        assert_eq!(units, expected);
    }
}

const EIGHT: [&str; 8] = ["b", "c", "d", "e", "f", "g", "h", "i"];

#[test]
fn an_address_twice_is_refused() {
    let (once, twice) = (["a", "b"], ["a", "b", "A"]);
    for at in 0..3 {
        let lists = [0, 1, 2].map(|n| if n == at { &twice[..] } else { &once });
        let [one, two] = [lists[1], lists[2]].map(|wanted| owner(fields(wanted)));
        let written = two_clerks(&event(lists[0]), &one, &two);
        assert_eq!(written, Err(Refusal::AddressTwice));
    }
    assert_eq!(Refusal::AddressTwice.number(), 10);
}

#[test]
fn a_merge_of_either_order_is_refused() {
    let event = event(&["a"]);
    let mut replies = attendee("a", fields(&["a"]));
    replies.wanted.attendees[0].participation = Participation::Declined;
    let fills = owner(fields(&EIGHT));
    // where the attendee writes first, its reply saves its entry, which makes nine
    for (one, two) in [(&replies, &fills), (&fills, &replies)] {
        assert_eq!(two_clerks(&event, one, two), Err(Refusal::Attendees));
    }
    replies.wanted = event.fields.clone();
    for (one, two) in [(&replies, &fills), (&fills, &replies)] {
        let written = two_clerks(&event, one, two).expect("eight in the end");
        assert!(written.iter().all(|w| w.event.fields == fills.wanted));
    }
}

#[test]
fn refusals_come_in_order() {
    let [fills, other] = [&EIGHT[..], &["x"]].map(|wanted| owner(fields(wanted)));
    let long = owner(fields(&[&EIGHT[..], &["B"]].concat()));
    let [apart, twice] = [&[][..], &["a", "A"]].map(event);
    let nine = Refusal::Input(EncodeError::List { count: 9, limit: 8 });
    assert_eq!(two_clerks(&twice, &fills, &long), Err(nine));
    assert_eq!(nine.number(), 3);
    let written = two_clerks(&twice, &fills, &other);
    assert_eq!(written, Err(Refusal::AddressTwice));
    assert_eq!(two_clerks(&apart, &fills, &other), Err(Refusal::Attendees));
    assert!(two_clerks(&apart, &fills, &fills).is_ok());
}

// ---- a merge and a naming, for lists that have no address twice

fn folded(entry: &Attendee) -> String {
    entry.address.to_ascii_lowercase()
}

fn entry(address: &str, event: &NormalizedEvent) -> Option<Attendee> {
    let mut entries = event.attendees.iter();
    entries.find(|entry| folded(entry) == address).cloned()
}

/// What the writer wants, where it may and nobody else has changed it.
fn part<T: Clone + PartialEq>(owned: bool, base: &T, wanted: &T, theirs: &T) -> T {
    let taken = if owned && theirs == base {
        wanted
    } else {
        theirs
    };
    taken.clone()
}

fn merged_entry(
    role: &Role,
    address: &str,
    [base, wanted, theirs]: [&NormalizedEvent; 3],
) -> Option<Attendee> {
    let [base, wanted, mut theirs] = [base, wanted, theirs].map(|event| entry(address, event));
    match role {
        Role::Owner => part(true, &base, &wanted, &theirs),
        Role::Attendee { address: own } => {
            let own = own.eq_ignore_ascii_case(address);
            if let (true, Some(base), Some(wanted), Some(theirs)) = (own, base, wanted, &mut theirs)
            {
                theirs.participation = part(
                    true,
                    &base.participation,
                    &wanted.participation,
                    &theirs.participation,
                );
            }
            theirs
        }
    }
}

fn merged(base: &NormalizedEvent, party: &Party, theirs: &NormalizedEvent) -> NormalizedEvent {
    let Party { role, wanted } = party;
    let owned = *role == Role::Owner;
    let addresses = addresses(&[theirs, wanted]).into_iter();
    NormalizedEvent {
        title: part(owned, &base.title, &wanted.title, &theirs.title),
        times: part(owned, &base.times, &wanted.times, &theirs.times),
        recurrence: part(
            owned,
            &base.recurrence,
            &wanted.recurrence,
            &theirs.recurrence,
        ),
        organizer: part(owned, &base.organizer, &wanted.organizer, &theirs.organizer),
        attendees: addresses
            .filter_map(|address| merged_entry(role, &address, [base, wanted, theirs]))
            .collect(),
        location: part(owned, &base.location, &wanted.location, &theirs.location),
        description: part(
            owned,
            &base.description,
            &wanted.description,
            &theirs.description,
        ),
        status: part(owned, &base.status, &wanted.status, &theirs.status),
        transparency: part(
            owned,
            &base.transparency,
            &wanted.transparency,
            &theirs.transparency,
        ),
        visibility: part(
            owned,
            &base.visibility,
            &wanted.visibility,
            &theirs.visibility,
        ),
        reminders: part(true, &base.reminders, &wanted.reminders, &theirs.reminders),
    }
}

/// The folded addresses of these events' entries, each once.
fn addresses(events: &[&NormalizedEvent]) -> Vec<String> {
    let mut addresses: Vec<String> = Vec::new();
    for entry in events.iter().flat_map(|event| &event.attendees) {
        if !addresses.contains(&folded(entry)) {
            addresses.push(folded(entry));
        }
    }
    addresses
}

fn units_of(addresses: impl IntoIterator<Item = String>) -> Vec<Unit> {
    use Unit::{Description, Location, Status, Transparency, Visibility};
    use Unit::{Organizer, Recurrence, Reminders, Reply, Rest, Times, Title};
    let mut units = vec![Title, Times, Recurrence, Organizer];
    for address in addresses {
        units.extend([Rest(address.clone()), Reply(address)]);
    }
    units.extend([Location, Description, Status]);
    units.extend([Transparency, Visibility, Reminders]);
    units
}

/// By the order of the writes.
enum Writer {
    First,
    Second,
}

/// Who can force a unit, if anybody.
fn named(first: &Role, second: &Role, event: &NormalizedEvent, unit: &Unit) -> Option<Writer> {
    use Writer::{First, Second};
    let own = |role: &Role, at: &str| {
        entry(at, event).is_some()
            && matches!(role, Role::Attendee { address } if address.eq_ignore_ascii_case(at))
    };
    match (first, second, unit) {
        (Role::Owner, _, _) | (_, _, Unit::Reminders) => Some(First),
        (_, _, Unit::Reply(at)) if own(first, at) => Some(First),
        (_, Role::Owner, Unit::Rest(at)) if own(first, at) => None,
        (_, Role::Owner, _) => Some(Second),
        (_, _, Unit::Reply(at)) if own(second, at) => Some(Second),
        _ => None,
    }
}

/// What two clerks get, by this file's merge and naming.
fn expected(event: &ProviderEvent, one: &Party, two: &Party) -> Result<[Written; 2], Refusal> {
    let base = &event.fields;
    let events = [base, &one.wanted, &two.wanted];
    if (events.iter()).any(|event| addresses(&[event]).len() < event.attendees.len()) {
        return Err(Refusal::AddressTwice);
    }
    let units = units_of(addresses(&events));
    let written = |(first, p): (Named, &Party), (second, q): (Named, &Party)| {
        let name = |unit: &Unit| match named(&p.role, &q.role, base, unit) {
            Some(Writer::First) => (unit.clone(), Some(first)),
            Some(Writer::Second) => (unit.clone(), Some(second)),
            None => (unit.clone(), None),
        };
        Written {
            event: ProviderEvent {
                fields: merged(base, q, &merged(base, p, base)),
                ..event.clone()
            },
            names: units.iter().map(name).collect(),
        }
    };
    let (one, two) = ((Named::One, one), (Named::Two, two));
    let both = [written(one, two), written(two, one)];
    if (both.iter()).any(|written| written.event.fields.attendees.len() > MAX_ATTENDEES) {
        return Err(Refusal::Attendees);
    }
    Ok(both)
}

// ---- random bookings

/// One of two addresses that are the same when folded.
fn address(random: &mut Random, letter: char) -> String {
    match random.below(4) {
        0 => letter.to_ascii_uppercase().into(),
        _ => letter.into(),
    }
}

/// An entry of this address, often as in the list given or with another reply.
fn any_entry(random: &mut Random, letter: char, old: &[Attendee]) -> Attendee {
    let any = Attendee {
        address: address(random, letter),
        ..random.attendee()
    };
    let same = old.iter().find(|old| folded(old) == folded(&any));
    match (same, random.below(4)) {
        (None, _) | (_, 0) => any,
        (Some(same), 1) => Attendee {
            participation: any.participation,
            ..same.clone()
        },
        (Some(same), _) => same.clone(),
    }
}

/// Entries of a few addresses; seldom an address twice.
fn entries(random: &mut Random, old: &[Attendee]) -> Vec<Attendee> {
    let most = random.below(8);
    let mut entries = Vec::new();
    for letter in 'a'..='j' {
        if random.below(8) <= most {
            entries.push(any_entry(random, letter, old));
        }
    }
    if random.below(30) == 0 {
        entries.insert(0, Attendee::new("A"));
    }
    let turn = random.below(entries.len() + 1);
    entries.rotate_left(turn);
    entries.truncate(MAX_ATTENDEES);
    entries
}

/// A party that leaves many fields as they are; an attendee is often there, and often the same as the other.
fn party(random: &mut Random, event: &NormalizedEvent) -> Party {
    let role = match random.below(4) {
        0 => Role::Attendee {
            address: address(random, 'b'),
        },
        1 => Role::Attendee {
            address: address(random, 'c'),
        },
        _ => Role::Owner,
    };
    let any = random.fields();
    let mut wanted = event.clone();
    macro_rules! change {
        ($($field:ident)*) => { $( if random.below(2) == 0 { wanted.$field = any.$field; } )* };
    }
    change!(title times recurrence organizer location description status transparency visibility reminders);
    wanted.attendees = entries(random, &event.attendees);
    Party { role, wanted }
}

#[test]
fn random_bookings_beside_a_merge_and_a_naming() {
    let mut random = Random::new(13);
    let (mut lines, mut twice, mut many) = (0, 0, 0);
    for _ in 0..500 {
        let mut event = random.event();
        event.fields.attendees = entries(&mut random, &[]);
        let one = party(&mut random, &event.fields);
        let two = party(&mut random, &event.fields);
        let expected = expected(&event, &one, &two);
        assert_eq!(two_clerks(&event, &one, &two), expected);
        match expected {
            Ok(_) => lines += 1,
            Err(Refusal::AddressTwice) => twice += 1,
            Err(_) => many += 1,
        }
    }
    assert!(lines > 300 && twice > 10 && many > 10);
}
