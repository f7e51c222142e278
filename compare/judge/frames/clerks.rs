//! Random inputs for two clerks.
use super::{Gen, PROFILES, Rng};
use crate::clerks::{ATTENDEES, Clerks, Party, fold};
use crate::engine::Engine;
use crate::limited::{Operation, Role as Drawn};
use crate::plain::Role;
use crate::view::hex;
use calendar_sync_model::{Attendee, NormalizedEvent};

/// What is on standard input: mostly one line with a frame; one in six has an address twice in a list, is damaged, or is not just one line.
pub fn clerks_input(seed: u64) -> Vec<u8> {
    let mut g = Gen::new(Engine::new(false), Rng::new(seed ^ 0x636c_6572_6b73), 0, &PROFILES[0], None);
    let frame = g.clerks().bytes();
    let line = match g.rng.below(24) {
        0 => g.cut(frame),
        1 => g.odd_line(frame),
        _ => hex(&frame),
    };
    match g.rng.below(40) {
        0 => line.into_bytes(),
        1 => format!("{line}\n\n").into_bytes(),
        2 => format!("{line}\n{line}").into_bytes(),
        _ => format!("{line}\n").into_bytes(),
    }
}

impl Gen<'_> {
    fn clerks(&mut self) -> Clerks {
        let mut fields = self.fields();
        // Which of the three lists may have an address twice.
        let twice = self.rng.below(24);
        self.apart(&mut fields, twice == 0);
        let event = self.event_with("r", fields);
        let parties = [0, 1].map(|n| {
            let mut party = self.party(&event.fields);
            if self.rng.chance(20) {
                self.fill(&mut party.wanted, n);
            }
            self.apart(&mut party.wanted, twice == n + 1);
            party
        });
        Clerks { event, parties }
    }

    /// A party that changes these fields, or now and then wants quite others.
    fn party(&mut self, base: &NormalizedEvent) -> Party {
        let mut role = self.role();
        let other = self.fields();
        let Operation::Update { ours, .. } = self.update_by(&mut role, false, base.clone()) else { unreachable!() };
        let wanted = if self.rng.chance(15) { other } else { ours };
        let role = match role {
            Drawn::Owner => Role::Owner,
            Drawn::Attendee { address } => Role::Attendee { address },
        };
        Party { role, wanted }
    }

    /// New entries up to the limit: the two parties' own, or the same for both.
    fn fill(&mut self, wanted: &mut NormalizedEvent, party: usize) {
        let letter = if self.rng.chance(30) { 0 } else { party };
        for n in wanted.attendees.len()..ATTENDEES {
            wanted.attendees.push(Attendee::new(format!("{letter}N{n}")));
        }
    }

    /// Leaves each folded address once, or makes one stand twice.
    fn apart(&mut self, fields: &mut NormalizedEvent, twice: bool) {
        let list = &mut fields.attendees;
        let mut seen = Vec::new();
        list.retain(|a| !seen.contains(&fold(a)) && (seen.push(fold(a)), true).1);
        if twice && !list.is_empty() {
            list.truncate(ATTENDEES - 1);
            let mut again = self.rng.pick(list).clone();
            again.address = again.address.to_ascii_uppercase();
            let at = self.rng.below(list.len() + 1);
            list.insert(at, again);
        }
    }

    /// Bytes that are mostly no such frame.
    fn cut(&mut self, mut frame: Vec<u8>) -> String {
        let at = self.rng.below(frame.len());
        match self.rng.below(4) {
            0 => frame.truncate(at),
            1 => frame.push(0),
            _ => frame[at] ^= 1 << self.rng.below(8),
        }
        hex(&frame)
    }

    /// A line that holds no bytes.
    fn odd_line(&mut self, frame: Vec<u8>) -> String {
        let line = hex(&frame);
        match self.rng.below(6) {
            0 => String::new(),
            1 => line + "0",
            2 => line.replacen('0', "g", 1),
            3 => line.to_uppercase() + "AB",
            4 => line + "\r",
            _ => "0".repeat(16_386),
        }
    }
}
