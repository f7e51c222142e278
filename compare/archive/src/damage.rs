//! Bytes of states, damaged: at random, and at each condition that the bytes of a state meet.
use crate::layout::{Layout, Name, OPTION, Part, TEXT, entry};
use jiff::MOST;
use judge::frames::{ODD_TEXTS, Rng};
use std::ops::Range;

/// A kind of damage. It may leave the bytes as they are.
type Kind = (&'static str, fn(&mut Damage<'_>));

pub const KINDS: [Kind; 17] = [
    ("any byte", |d| d.any_byte()),
    ("a byte of a value", |d| d.value_byte()),
    ("a count", |d| d.count()),
    ("two entries in the other order", |d| d.order()),
    ("an entry twice", |d| d.twice()),
    ("an entry taken out", |d| d.take_out()),
    ("the length of a key", |d| d.key_length()),
    ("a byte behind a value", |d| d.behind_value()),
    ("a byte behind the entries", |d| d.behind_entries()),
    ("a case or an option", |d| d.case()),
    ("a time around the range", |d| d.time()),
    ("an odd text", |d| d.odd_text()),
    ("a number against those in flight", |d| d.number()),
    ("a purpose", |d| d.purpose()),
    ("the pass opened or closed", |d| d.pass()),
    ("a list of an entry", |d| d.list()),
    ("a part of another state", |d| d.other_part()),
];

pub struct Damage<'a> {
    layout: &'a Layout,
    rng: &'a mut Rng,
    /// The bytes of another state.
    other: &'a [u8],
    bytes: Vec<u8>,
}

/// Damaged bytes and the place of the kind; now and then there are two damages. No bytes if nothing changed.
pub fn damage(layout: &Layout, rng: &mut Rng, bytes: &[u8], other: &[u8]) -> Option<(usize, Vec<u8>)> {
    let kind = rng.below(KINDS.len());
    let second = if rng.chance(15) { Some(rng.below(KINDS.len())) } else { None };
    let mut damage = Damage { layout, rng, other, bytes: bytes.to_vec() };
    KINDS[kind].1(&mut damage);
    if let Some(second) = second {
        KINDS[second].1(&mut damage);
    }
    (damage.bytes != bytes).then_some((kind, damage.bytes))
}

impl<'a> Damage<'a> {
    fn any_part(&mut self) -> &'a Part {
        let layout = self.layout;
        self.rng.pick(&layout.parts)
    }

    /// A table of at least so many entries, and how many it has.
    fn table(&mut self, least: usize) -> Option<(&'a Part, usize)> {
        let held = |p: &'a Part| p.most.and(p.count(&self.bytes)).filter(|n| *n >= least).map(|n| (p, n));
        let tables: Vec<_> = self.layout.parts.iter().filter_map(held).collect();
        if tables.is_empty() { None } else { Some(*self.rng.pick(&tables)) }
    }

    /// An entry of this part.
    fn entry_in(&mut self, name: Name) -> Option<(&'a Part, usize)> {
        let part = self.layout.part(name);
        let held = part.count(&self.bytes).filter(|n| *n > 0)?;
        Some((part, self.rng.below(held)))
    }

    /// A value: its part, entry and place in the entry.
    fn value(&mut self) -> Option<(&'a Part, usize, usize)> {
        let part = self.any_part();
        let (part, n) = self.entry_in(part.name)?;
        Some((part, n, self.rng.below(part.widths.len())))
    }

    fn put(&mut self, at: usize, bytes: &[u8]) {
        self.bytes[at..at + bytes.len()].copy_from_slice(bytes);
    }

    /// Of these zeros the first, the last or any becomes another byte.
    fn fill_one(&mut self, zeros: Range<usize>) {
        if zeros.is_empty() {
            return;
        }
        let any = zeros.start + self.rng.below(zeros.len());
        let at = *self.rng.pick(&[zeros.start, zeros.end - 1, any]);
        self.bytes[at] = 1 + self.rng.below(255) as u8;
    }

    fn any_byte(&mut self) {
        let at = self.rng.below(self.bytes.len());
        self.bytes[at] = self.rng.next() as u8;
    }

    /// A byte that is not zero, in any part alike.
    fn value_byte(&mut self) {
        let places: Vec<usize> = self.any_part().range().filter(|at| self.bytes[*at] != 0).collect();
        if places.is_empty() {
            return;
        }
        let at = *self.rng.pick(&places);
        let old = self.bytes[at];
        let changes = [old.wrapping_add(1), old.wrapping_sub(1), old ^ 0x80, 0, self.rng.next() as u8];
        self.bytes[at] = *self.rng.pick(&changes);
    }

    fn count(&mut self) {
        let Some((part, held)) = self.table(0) else { return };
        let most = part.most.unwrap_or(0);
        let counts = [0, held + 1, held.saturating_sub(1), most, most + 1, 255];
        self.bytes[part.at] = *self.rng.pick(&counts) as u8;
    }

    fn order(&mut self) {
        let Some((part, held)) = self.table(2) else { return };
        let n = self.rng.below(held - 1);
        let next = self.bytes[part.entry(n + 1)].to_vec();
        self.bytes.copy_within(part.entry(n), part.entry(n + 1).start);
        self.put(part.entry(n).start, &next);
    }

    /// An entry, or only its key, over the next one.
    fn twice(&mut self) {
        let Some((part, held)) = self.table(2) else { return };
        let n = self.rng.below(held - 1);
        let from = if self.rng.chance(50) { part.entry(n) } else { part.value(n, 0) };
        self.bytes.copy_within(from, part.entry(n + 1).start);
    }

    fn take_out(&mut self) {
        let Some((part, held)) = self.table(1) else { return };
        let n = self.rng.below(held);
        self.bytes.copy_within(part.entry(n).end..part.entry(held - 1).end, part.entry(n).start);
        self.bytes[part.entry(held - 1)].fill(0);
        self.bytes[part.at] -= 1;
    }

    fn key_length(&mut self) {
        let Some((part, held)) = self.table(1) else { return };
        let at = part.entry(self.rng.below(held)).start;
        let old = self.bytes[at];
        self.bytes[at] = *self.rng.pick(&[old.wrapping_add(1), old.wrapping_sub(1), 0, 32, 33, 255]);
    }

    /// A zero that only fills up a value's width.
    fn behind_value(&mut self) {
        let Some((part, n, i)) = self.value() else { return };
        let range = part.value(n, i);
        let filled = self.bytes[range.clone()].iter().rposition(|b| *b != 0).map_or(0, |last| last + 1);
        self.fill_one(range.start + filled..range.end);
    }

    fn behind_entries(&mut self) {
        let Some((part, held)) = self.table(0) else { return };
        self.fill_one(part.entry(held).start..part.range().end);
    }

    /// The first byte of a value.
    fn case(&mut self) {
        let Some((part, n, i)) = self.value() else { return };
        self.bytes[part.value(n, i).start] = self.rng.below(7) as u8;
    }

    /// Now, or when an edit expires.
    fn time(&mut self) {
        let at = match self.entry_in(Name::Waiting) {
            Some((part, n)) if self.rng.chance(70) => part.value(n, entry::EXPIRY).start,
            _ => self.layout.part(Name::Now).at,
        };
        let time = *self.rng.pick(&[MOST, MOST + 1, -MOST, -MOST - 1, i64::MIN, i64::MAX, 0, -1]);
        self.put(at, &[1]);
        self.put(at + 1, &time.to_be_bytes());
    }

    /// RFC 3629's edges in place of a text, alone or at the end of a long one.
    fn odd_text(&mut self) {
        let Some((part, n, i)) = self.value() else { return };
        let range = part.value(n, i);
        let before = match range.len() {
            TEXT => 0,
            OPTION => 1,
            _ => return,
        };
        let mut text = self.rng.pick(&ODD_TEXTS).to_vec();
        while self.rng.chance(50) && text.len() < TEXT - 1 {
            text.insert(0, b'p');
        }
        self.bytes[range.start + before..range.end].fill(0);
        self.put(range.start + before, &[text.len() as u8]);
        self.put(range.start + before + 1, &text);
    }

    /// The next request's number about the last in flight, or one in flight about the next.
    fn number(&mut self) {
        let Some((part, n)) = self.entry_in(Name::InFlight) else { return };
        let number = |bytes: &[u8], at: usize| u64::from_be_bytes(bytes[at..at + 8].try_into().expect("eight bytes"));
        let (held, next) = (part.entry(n).start + 1, self.layout.part(Name::NextRequest).at);
        let (to, from) = if self.rng.chance(50) { (next, held) } else { (held, next) };
        let about = number(&self.bytes, from);
        let about = *self.rng.pick(&[about.wrapping_sub(1), about, about.wrapping_add(1)]);
        self.put(to, &about.to_be_bytes());
    }

    /// Another case, another request's purpose, or the name of a queue.
    fn purpose(&mut self) {
        let Some((part, n)) = self.entry_in(Name::InFlight) else { return };
        let to = part.value(n, 1).start;
        match self.rng.below(3) {
            0 => self.bytes[to] = self.rng.below(6) as u8,
            1 => {
                let (_, from) = self.entry_in(Name::InFlight).expect("there is one");
                self.bytes.copy_within(part.value(from, 1), to);
            }
            _ => {
                let Some((queues, from)) = self.entry_in(Name::Waiting) else { return };
                self.bytes.copy_within(queues.value(from, 0), to + 1);
            }
        }
    }

    /// The byte alone, or the whole pass zero.
    fn pass(&mut self) {
        let open = self.layout.part(Name::Open).at;
        match self.rng.below(3) {
            0 => self.bytes[open..self.layout.part(Name::Done).range().end].fill(0),
            1 => self.bytes[open] ^= 1,
            _ => self.bytes[open] = 2 + self.rng.below(254) as u8,
        }
    }

    /// More conflicts, refused parts or folded ids, every byte of which is zero, than there were; or nothing but such ones.
    fn list(&mut self) {
        let Some((part, n)) = self.entry_in(Name::Waiting) else { return };
        let range = part.value(n, *self.rng.pick(&[entry::CONFLICTS, entry::REFUSED, entry::ABSORBED]));
        if self.rng.chance(50) {
            self.bytes[range.start] = self.bytes[range.start].saturating_add(1 + self.rng.below(8) as u8);
        } else {
            self.bytes[range.clone()].fill(0);
            self.bytes[range.start] = *self.rng.pick(&[1, 7, 8, 9, 10, 254, 255]);
        }
    }

    fn other_part(&mut self) {
        let part = self.any_part();
        self.put(part.at, &self.other[part.range()]);
    }
}
