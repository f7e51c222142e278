//! A state's bytes as docs/ARCHITECTURE.md lays them out ("The state's buffer"): written of a published state, and read back.
//! `shapes` is the one table of the parts; every offset follows from it.
use judge::limited::{Edit, ResourceId, codec, limits};
use judge::view::{PassView, PendingView, View};
use serde::{Deserialize, Reader, Serialize, save};
use std::collections::{BTreeMap, VecDeque};
use std::ops::Range;

const BYTE: usize = 1;
const NUMBER: usize = 8;
const NAME: usize = BYTE + codec::TEXT;
pub const TEXT: usize = BYTE + codec::TEXT;
/// An option or a case with a text: a cursor, where a listing starts, a role.
pub const OPTION: usize = BYTE + TEXT;
const TIME: usize = BYTE + NUMBER;
/// A request number as a key has its length before it, as a name has.
const NUMBER_KEY: usize = BYTE + NUMBER;
const ORGANIZER: usize = TEXT + OPTION;
const ATTENDEE: usize = TEXT + OPTION + 3 * BYTE;
const FIELDS: usize = OPTION
    + NUMBER
    + (BYTE + NUMBER)
    + (BYTE + ORGANIZER)
    + (BYTE + codec::ATTENDEES as usize * ATTENDEE)
    + OPTION
    + (BYTE + NUMBER)
    + 3 * BYTE
    + NUMBER;
const EVENT: usize = BYTE + NAME + 2 * (BYTE + NAME) + OPTION + 4 * BYTE + FIELDS + NUMBER;
const STAGED: usize = BYTE + EVENT;
/// An update is the longest operation.
const OPERATION: usize = BYTE + 2 * FIELDS;
const PURPOSE: usize = BYTE + NAME;

#[derive(Clone, Copy, Debug, PartialEq, Eq)]
pub enum Name {
    Records,
    Cursor,
    Open,
    Full,
    From,
    Staged,
    Seen,
    Observed,
    Done,
    Waiting,
    InFlight,
    NextRequest,
    Learned,
    LearnedAll,
    Now,
    Aliases,
}

/// The places of a waiting entry's values.
pub mod entry {
    pub const EXPIRY: usize = 4;
    pub const CONFLICTS: usize = 5;
    pub const REFUSED: usize = 6;
    pub const ABSORBED: usize = 8;
}

/// The parts in their order: for a table the most entries, and the widths of an entry's values, its key first.
fn shapes(limits: &[usize; 9]) -> [(Name, Option<usize>, Vec<usize>); 16] {
    let [records, staged, seen, observed, waiting, absorbed, in_flight, learned, aliases] = *limits;
    let operation = [NAME, TEXT, OPERATION, OPTION, TIME];
    let report = [limits::CONFLICTS, limits::REFUSED, BYTE, BYTE + absorbed * TEXT];
    [
        (Name::Records, Some(records), vec![NAME, EVENT]),
        (Name::Cursor, None, vec![OPTION]),
        (Name::Open, None, vec![BYTE]),
        (Name::Full, None, vec![BYTE]),
        (Name::From, None, vec![OPTION]),
        (Name::Staged, Some(staged), vec![NAME, STAGED]),
        (Name::Seen, Some(seen), vec![NAME]),
        (Name::Observed, Some(observed), vec![NAME]),
        (Name::Done, None, vec![OPTION]),
        (Name::Waiting, Some(waiting), [&operation[..], &report].concat()),
        (Name::InFlight, Some(in_flight), vec![NUMBER_KEY, PURPOSE]),
        (Name::NextRequest, None, vec![NUMBER]),
        (Name::Learned, Some(learned), vec![NAME, NUMBER]),
        (Name::LearnedAll, None, vec![NUMBER]),
        (Name::Now, None, vec![TIME]),
        (Name::Aliases, Some(aliases), vec![NAME, NAME]),
    ]
}

/// A part of the buffer: a table is a count byte and its entries; any other part is one entry without a count byte.
pub struct Part {
    pub name: Name,
    pub at: usize,
    pub most: Option<usize>,
    pub widths: Vec<usize>,
}

/// An entry's values in the frame's form, its key first.
type Row = Vec<Vec<u8>>;

fn row(values: &[&dyn Serialize]) -> Row {
    let form = |value: &&dyn Serialize| {
        let mut bytes = Vec::new();
        value.ser(&mut bytes);
        bytes
    };
    values.iter().map(form).collect()
}

impl Part {
    pub fn entry(&self, entry: usize) -> Range<usize> {
        let width: usize = self.widths.iter().sum();
        let first = self.at + if self.most.is_some() { BYTE } else { 0 };
        first + entry * width..first + (entry + 1) * width
    }

    pub fn value(&self, entry: usize, value: usize) -> Range<usize> {
        let at = self.entry(entry).start + self.widths[..value].iter().sum::<usize>();
        at..at + self.widths[value]
    }

    /// All its bytes.
    pub fn range(&self) -> Range<usize> {
        self.at..self.entry(self.most.unwrap_or(1)).start
    }

    /// How many entries the bytes say that it has, if there is room for them.
    pub fn count(&self, bytes: &[u8]) -> Option<usize> {
        match self.most {
            None => Some(1),
            Some(most) => Some(usize::from(bytes[self.at])).filter(|n| *n <= most),
        }
    }

    fn write(&self, bytes: &mut [u8], rows: &[Row]) {
        if let Some(most) = self.most {
            assert!(rows.len() <= most, "{:?} has {} entries", self.name, rows.len());
            bytes[self.at] = u8::try_from(rows.len()).expect("a count byte");
        }
        for (n, row) in rows.iter().enumerate() {
            assert_eq!(row.len(), self.widths.len());
            for (i, value) in row.iter().enumerate() {
                bytes[self.value(n, i)][..value.len()].copy_from_slice(value);
            }
        }
    }

    fn read<'a>(&self, bytes: &'a [u8]) -> Option<Vec<Vec<&'a [u8]>>> {
        let row = |n| (0..self.widths.len()).map(|i| &bytes[self.value(n, i)]).collect();
        Some((0..self.count(bytes)?).map(row).collect())
    }
}

/// The value that stands first in these bytes.
fn first<T: Deserialize>(bytes: &[u8]) -> Option<T> {
    T::de(&mut Reader { rest: bytes })
}

fn pair<K: Deserialize, V: Deserialize>(row: &[&[u8]]) -> Option<(K, V)> {
    Some((first(row[0])?, first(row[1])?))
}

fn number_key(number: u64) -> Vec<u8> {
    [&[NUMBER as u8][..], &number.to_be_bytes()].concat()
}

fn row_of(p: &PendingView) -> Row {
    let Edit { id, resource, operation, role, expires_at } = &p.edit;
    row(&[resource, id, operation, role, expires_at, &p.conflicts, &p.refused, &p.collided, &p.absorbed])
}

fn entry_of(row: &[&[u8]]) -> Option<PendingView> {
    let [resource, id, operation, role, expires_at, conflicts, refused, collided, absorbed] = row else { return None };
    Some(PendingView {
        edit: Edit {
            resource: first(resource)?,
            id: first(id)?,
            operation: first(operation)?,
            role: first(role)?,
            expires_at: first(expires_at)?,
        },
        conflicts: first(conflicts)?,
        refused: first(refused)?,
        collided: first(collided)?,
        absorbed: first(absorbed)?,
    })
}

pub struct Layout {
    limits: [usize; 9],
    pub parts: Vec<Part>,
    pub length: usize,
}

impl Layout {
    pub fn new(limits: &[usize; 9]) -> Self {
        let (mut parts, mut length) = (Vec::new(), 0);
        for (name, most, widths) in shapes(limits) {
            let part = Part { name, at: length, most, widths };
            length = part.range().end;
            parts.push(part);
        }
        Self { limits: *limits, parts, length }
    }

    pub fn part(&self, name: Name) -> &Part {
        &self.parts[name as usize]
    }

    /// The bytes of a state.
    pub fn write(&self, v: &View) -> Vec<u8> {
        let mut bytes = vec![0; self.length];
        let mut put = |name, rows: Vec<Row>| self.part(name).write(&mut bytes, &rows);
        put(Name::Records, v.records.iter().map(|(name, event)| row(&[name, event])).collect());
        put(Name::Cursor, vec![row(&[&v.cursor])]);
        if let Some(p) = &v.pass {
            put(Name::Open, vec![row(&[&true])]);
            put(Name::Full, vec![row(&[&p.full])]);
            put(Name::From, vec![row(&[&p.from])]);
            put(Name::Staged, p.staged.iter().map(|(name, staged)| row(&[name, staged])).collect());
            put(Name::Seen, p.seen.iter().map(|name| row(&[name])).collect());
            put(Name::Observed, p.observed.iter().map(|name| row(&[name])).collect());
            put(Name::Done, vec![row(&[&p.done])]);
        }
        put(Name::Waiting, v.edits.values().flatten().map(row_of).collect());
        put(
            Name::InFlight,
            v.in_flight.iter().map(|(id, purpose)| vec![number_key(id.get()), save(purpose)]).collect(),
        );
        put(Name::NextRequest, vec![row(&[&v.next_request])]);
        put(Name::Learned, v.learned.iter().map(|(name, number)| row(&[name, number])).collect());
        put(Name::LearnedAll, vec![row(&[&v.learned_all])]);
        put(Name::Now, vec![row(&[&v.now])]);
        put(Name::Aliases, v.aliases.iter().map(|(from, to)| row(&[from, to])).collect());
        bytes
    }

    /// The well-formed state whose bytes these are, if they are one's.
    pub fn state(&self, bytes: &[u8]) -> Option<View> {
        let view = self.read(bytes)?;
        (view.fault(&self.limits).is_none() && self.write(&view) == bytes).then_some(view)
    }

    /// What stands in the bytes. Order, keys told twice and what is left over are not looked at: to write it again shows them.
    fn read(&self, bytes: &[u8]) -> Option<View> {
        let in_flight = self.part(Name::InFlight).read(bytes)?;
        Some(View {
            records: self.map(bytes, Name::Records)?,
            cursor: self.value(bytes, Name::Cursor)?,
            pass: if self.value(bytes, Name::Open)? { Some(self.read_pass(bytes)?) } else { None },
            edits: self.read_queues(bytes)?,
            in_flight: in_flight.iter().map(|row| pair(&[&row[0][BYTE..], row[1]])).collect::<Option<_>>()?,
            next_request: self.value(bytes, Name::NextRequest)?,
            learned: self.map(bytes, Name::Learned)?,
            learned_all: self.value(bytes, Name::LearnedAll)?,
            now: self.value(bytes, Name::Now)?,
            aliases: self.map(bytes, Name::Aliases)?,
        })
    }

    fn read_pass(&self, bytes: &[u8]) -> Option<PassView> {
        let set = |name| self.part(name).read(bytes)?.iter().map(|row| first(row[0])).collect::<Option<_>>();
        Some(PassView {
            full: self.value(bytes, Name::Full)?,
            from: self.value(bytes, Name::From)?,
            staged: self.map(bytes, Name::Staged)?,
            seen: set(Name::Seen)?,
            observed: set(Name::Observed)?,
            done: self.value(bytes, Name::Done)?,
        })
    }

    fn read_queues(&self, bytes: &[u8]) -> Option<BTreeMap<ResourceId, VecDeque<PendingView>>> {
        let mut queues: BTreeMap<ResourceId, VecDeque<PendingView>> = BTreeMap::new();
        for row in self.part(Name::Waiting).read(bytes)? {
            let entry = entry_of(&row)?;
            queues.entry(entry.edit.resource.clone()).or_default().push_back(entry);
        }
        Some(queues)
    }

    fn value<T: Deserialize>(&self, bytes: &[u8], name: Name) -> Option<T> {
        first(&bytes[self.part(name).range()])
    }

    fn map<K: Deserialize + Ord, V: Deserialize>(&self, bytes: &[u8], name: Name) -> Option<BTreeMap<K, V>> {
        self.part(name).read(bytes)?.iter().map(|row| pair(row)).collect()
    }

    /// Where in the state a byte is, in words, and the bytes of the value that it belongs to.
    pub fn place(&self, at: usize) -> (String, Range<usize>) {
        let part = self.parts.iter().find(|p| p.range().contains(&at)).expect("a byte of the state");
        if part.most.is_some() && at == part.at {
            return (format!("{:?}, the count", part.name), at..at + BYTE);
        }
        let values = (0..part.most.unwrap_or(1)).flat_map(|n| (0..part.widths.len()).map(move |i| (n, i)));
        let (n, i) = values.into_iter().find(|&(n, i)| part.value(n, i).contains(&at)).expect("a value has it");
        let words = if part.most.is_some() {
            format!("{:?}, entry {n}, value {i}", part.name)
        } else {
            format!("{:?}", part.name)
        };
        (words, part.value(n, i))
    }
}
