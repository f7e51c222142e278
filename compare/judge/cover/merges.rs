//! Situations of a merge: the verdict on each unit and on each attendee.
use super::Cover;
use super::names::role_name;
use crate::limited::Role;
use calendar_sync_model::{Attendee, NormalizedEvent, Participation};
use std::collections::BTreeSet;

fn verdict<T: PartialEq>(b: &T, o: &T, t: &T, owned: bool) -> &'static str {
    if o == b {
        "ours as base"
    } else if o == t {
        "ours as theirs"
    } else if !owned {
        "refused"
    } else if t == b {
        "ours"
    } else {
        "conflict"
    }
}

/// A folded address and how many entries with it stand before.
type Key = (String, usize);

fn keyed(list: &[Attendee]) -> Vec<(Key, &Attendee)> {
    let mut out: Vec<(Key, &Attendee)> = Vec::new();
    for a in list {
        let folded = a.address.to_ascii_lowercase();
        let n = out.iter().filter(|x| x.0.0 == folded).count();
        out.push(((folded, n), a));
    }
    out
}

fn find<'a>(list: &[(Key, &'a Attendee)], key: &Key) -> Option<&'a Attendee> {
    list.iter().find(|x| x.0 == *key).map(|x| x.1)
}

impl Cover {
    pub(super) fn merge(&mut self, b: &NormalizedEvent, o: &NormalizedEvent, t: &NormalizedEvent, role: &Role) {
        let own = *role == Role::Owner;
        let units = [
            ("title", verdict(&b.title, &o.title, &t.title, own)),
            ("times", verdict(&b.times, &o.times, &t.times, own)),
            ("recurrence", verdict(&b.recurrence, &o.recurrence, &t.recurrence, own)),
            ("organizer", verdict(&b.organizer, &o.organizer, &t.organizer, own)),
            ("location", verdict(&b.location, &o.location, &t.location, own)),
            ("description", verdict(&b.description, &o.description, &t.description, own)),
            ("status", verdict(&b.status, &o.status, &t.status, own)),
            ("transparency", verdict(&b.transparency, &o.transparency, &t.transparency, own)),
            ("visibility", verdict(&b.visibility, &o.visibility, &t.visibility, own)),
            ("reminders", verdict(&b.reminders, &o.reminders, &t.reminders, true)),
        ];
        for (field, verdict) in units {
            self.hit(format!("merge {field}: {verdict}"));
        }
        let [b, o, t] = [b, o, t].map(|f| keyed(&f.attendees));
        let in_theirs = t.iter().map(|x| &x.0);
        for key in in_theirs.chain(o.iter().map(|x| &x.0).filter(|k| find(&t, k).is_none())) {
            self.attendee(key, [find(&b, key), find(&o, key), find(&t, key)], role);
        }
    }

    fn attendee(&mut self, key: &Key, sides: [Option<&Attendee>; 3], role: &Role) {
        let [x, y, z] = sides;
        let there = format!("base {} ours {} theirs {}", x.is_some(), y.is_some(), z.is_some());
        let spellings: BTreeSet<&str> = sides.iter().flatten().map(|a| a.address.as_str()).collect();
        self.hit_if(spellings.len() > 1, "attendee spelled in two ways");
        self.hit_if(key.1 > 0, "attendee of a later occurrence");
        if !matches!(role, Role::Attendee { address } if address.to_ascii_lowercase() == key.0) {
            let verdict = verdict(&x, &y, &z, *role == Role::Owner);
            self.hit(format!("attendee by {}, {there}: {verdict}", role_name(role)));
            return;
        }
        self.hit_if(key.1 > 0, "own entry of a later occurrence");
        let rest = |a: &Attendee| Attendee { participation: Participation::NeedsAction, ..a.clone() };
        match sides {
            [Some(b), Some(o), None] => {
                let (rest, reply) = (rest(b) != rest(o), b.participation != o.participation);
                self.hit(format!("own entry gone: rest {rest} reply {reply}"));
            }
            [Some(b), Some(o), Some(t)] => {
                self.hit(format!("own entry rest: {}", verdict(&rest(b), &rest(o), &rest(t), false)));
                let reply = verdict(&b.participation, &o.participation, &t.participation, true);
                self.hit(format!("own entry reply: {reply}"));
            }
            _ => self.hit(format!("own entry {there}: {}", verdict(&x, &y, &z, false))),
        }
    }
}
