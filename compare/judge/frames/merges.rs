//! Random merges under the attendee role.
use super::{Gen, PROFILES, Rng};
use crate::engine::Engine;
use crate::limited::{Operation, Role, codec};
use calendar_sync_model::{Attendee, NormalizedEvent, ProviderEvent};

/// What an attendee's edit is merged from.
#[derive(Debug)]
pub struct AttendeeMerge {
    pub base: NormalizedEvent,
    pub ours: NormalizedEvent,
    pub theirs: ProviderEvent,
    pub address: String,
}

/// So many of them.
pub fn attendee_merges(seed: u64, count: usize) -> impl Iterator<Item = AttendeeMerge> {
    let mut g = Gen::new(Engine::new(false), Rng::new(seed ^ 0x6174_7465_6e64), 0, &PROFILES[0], None);
    (0..count).map(move |_| g.attendee_merge())
}

impl Gen<'_> {
    fn attendee_merge(&mut self) -> AttendeeMerge {
        let (seen, mut role) = (self.fields(), Role::Attendee { address: self.address() });
        let Operation::Update { mut base, mut ours } = self.update_by(&mut role, false, seen) else { unreachable!() };
        let fields = self.theirs(&base, &ours);
        let mut theirs = self.event_with("r", fields);
        for list in [&mut base.attendees, &mut ours.attendees, &mut theirs.fields.attendees] {
            self.twice(list);
        }
        let Role::Attendee { address } = role else { unreachable!() };
        AttendeeMerge { base, ours, theirs, address }
    }

    /// Puts some entries in once more, a little changed, as long as there is room.
    fn twice(&mut self, list: &mut Vec<Attendee>) {
        for _ in 0..self.rng.below(3) {
            if list.is_empty() || list.len() == usize::from(codec::ATTENDEES) {
                return;
            }
            let mut again = self.rng.pick(list).clone();
            self.change_attendee(&mut again);
            let at = self.rng.below(list.len() + 1);
            list.insert(at, again);
        }
    }
}
