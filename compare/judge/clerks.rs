//! Change request 10/13: two clerks, one booking, over the published merge.
use crate::engine::frame;
use crate::plain::{Role, merge::merge};
use crate::view::hex;
use calendar_sync_model::{Attendee, NormalizedEvent, ProviderEvent};
use serde::{Deserialize, Reader, Serialize, save};
use std::io::{self, BufRead, Write};

/// The refusals: not exactly that frame, a folded address twice in one list, a merge with too many attendees.
const NO_FRAME: u8 = 3;
const ADDRESS_TWICE: u8 = 10;
const TOO_MANY: u8 = 6;

pub const ATTENDEES: usize = 8;

pub struct Party {
    pub role: Role,
    /// What the party's update wants: fields, as an edit's `ours`.
    pub wanted: NormalizedEvent,
}

pub struct Clerks {
    pub event: ProviderEvent,
    pub parties: [Party; 2],
}

impl Clerks {
    fn read(bytes: &[u8]) -> Option<Self> {
        let mut r = Reader { rest: bytes };
        let event = ProviderEvent::de(&mut r)?;
        let mut party = || Some(Party { role: Role::de(&mut r)?, wanted: NormalizedEvent::de(&mut r)? });
        let parties = [party()?, party()?];
        r.rest.is_empty().then_some(Self { event, parties })
    }

    pub fn bytes(&self) -> Vec<u8> {
        let mut bytes = save(&self.event);
        for party in &self.parties {
            party.role.ser(&mut bytes);
            party.wanted.ser(&mut bytes);
        }
        bytes
    }

    /// The event's list, and those of the parties in frame order.
    fn lists(&self) -> [&[Attendee]; 3] {
        let [one, two] = &self.parties;
        [&self.event.fields.attendees, &one.wanted.attendees, &two.wanted.attendees]
    }

    /// The folded addresses of all entries, each once.
    fn entries(&self) -> Vec<String> {
        let mut keys = Vec::new();
        for key in self.lists().into_iter().flatten().map(fold) {
            if !keys.contains(&key) {
                keys.push(key);
            }
        }
        keys
    }

    /// The event after both writes, or the refusal of one.
    fn written(&self, first: &Party, second: &Party) -> Result<ProviderEvent, u8> {
        let base = &self.event.fields;
        let one = merge(base, &first.wanted, &self.event, &first.role).event;
        let two = merge(base, &second.wanted, &one, &second.role).event;
        let few = |e: &ProviderEvent| e.fields.attendees.len() <= ATTENDEES;
        if few(&one) && few(&two) { Ok(two) } else { Err(TOO_MANY) }
    }

    /// Whether the role is an attendee's whose own entry this is, and the event has it.
    fn own(&self, role: &Role, key: &str) -> bool {
        match role {
            Role::Owner => false,
            Role::Attendee { address } => {
                address.to_ascii_lowercase() == key && self.event.fields.attendees.iter().any(|a| fold(a) == key)
            }
        }
    }

    /// The numbers of those who can force each unit, the first to write if both: first and second are places in the frame.
    fn names(&self, first: usize, second: usize) -> Vec<u8> {
        let (p, q) = (&self.parties[first].role, &self.parties[second].role);
        let pick = |a: bool, b: bool| match (a, b) {
            (true, _) => first as u8 + 1,
            (false, true) => second as u8 + 1,
            (false, false) => 0,
        };
        let owner = |role: &Role| matches!(role, Role::Owner);
        let field = pick(owner(p), owner(q));
        let mut names = vec![field; 4];
        for key in self.entries() {
            // The first's own reply keeps the entry as it was.
            names.push(pick(owner(p), owner(q) && !self.own(p, &key)));
            names.push(pick(owner(p) || self.own(p, &key), owner(q) || self.own(q, &key)));
        }
        names.extend([field; 5]);
        // The reminders are everybody's.
        names.push(pick(true, true));
        names
    }

    fn line(&self, first: usize, second: usize) -> Result<Vec<u8>, u8> {
        let event = self.written(&self.parties[first], &self.parties[second])?;
        Ok([save(&event), self.names(first, second)].concat())
    }
}

pub fn fold(a: &Attendee) -> String {
    a.address.to_ascii_lowercase()
}

fn doubled(list: &[Attendee]) -> bool {
    list.iter().enumerate().any(|(i, a)| list[..i].iter().any(|b| fold(a) == fold(b)))
}

/// A line for each order of the writes, or a refusal.
fn judged(line: &[u8]) -> Result<[Vec<u8>; 2], u8> {
    let clerks = frame(line).and_then(|bytes| Clerks::read(&bytes)).ok_or(NO_FRAME)?;
    if clerks.lists().into_iter().any(doubled) {
        return Err(ADDRESS_TWICE);
    }
    Ok([clerks.line(0, 1)?, clerks.line(1, 0)?])
}

/// The program: the one line of standard input is the frame.
pub fn run(out: &mut impl Write) -> io::Result<bool> {
    let lines: Vec<Vec<u8>> = io::stdin().lock().split(b'\n').collect::<io::Result<_>>()?;
    let answer = match lines.as_slice() {
        [line] => judged(line),
        _ => Err(NO_FRAME),
    };
    match answer {
        Ok([one, two]) => writeln!(out, "{}\n{}", hex(&one), hex(&two))?,
        Err(code) => writeln!(out, "{code}")?,
    }
    Ok(true)
}
