//! The frame: how values become bytes, and back.
//!
//! Fields follow in source order. An enum starts with one byte, its case's place counted from 0; an option with 0 or 1; a list with a
//! count byte. Text is a length byte and UTF-8. Whole numbers are big-endian and as wide as their type.

use std::error::Error;
use std::fmt;

/// The most bytes of a resource id, and of an event's `id`, `ical_uid` and `series_id`.
pub const MAX_ID: usize = 32;

/// The most bytes of a reason.
pub const MAX_REASON: usize = 64;

/// The most bytes of every other text.
pub const MAX_TEXT: usize = 32;

/// The most attendees of an event.
pub const MAX_ATTENDEES: usize = 8;

/// The most changes of a page.
pub const MAX_CHANGES: usize = 8;

/// The most entries of a list that has no limit of its own.
pub const MAX_COUNT: usize = 255;

/// The first time that a frame can hold, in milliseconds.
pub const MIN_TIMESTAMP: i64 = -200_000_000_000_000;

/// The last time that a frame can hold, in milliseconds.
pub const MAX_TIMESTAMP: i64 = 200_000_000_000_000;

/// A value with a form in the frame.
pub trait Frame: Sized {
    /// Appends the value's bytes.
    ///
    /// # Errors
    ///
    /// A part of the value passes a limit of the frame; what was appended then is of no use.
    fn write(&self, to: &mut Vec<u8>) -> Result<(), EncodeError>;

    /// Reads a value, and moves on by exactly its bytes.
    ///
    /// # Errors
    ///
    /// No value stands at the reader's place.
    fn read(from: &mut Reader<'_>) -> Result<Self, DecodeError>;

    /// The value's bytes.
    ///
    /// # Errors
    ///
    /// A part of the value passes a limit of the frame.
    fn encode(&self) -> Result<Vec<u8>, EncodeError> {
        let mut bytes = Vec::new();
        self.write(&mut bytes)?;
        Ok(bytes)
    }

    /// The value whose bytes these are, all of them.
    ///
    /// # Errors
    ///
    /// They are not the bytes of exactly one value.
    fn decode(bytes: &[u8]) -> Result<Self, DecodeError> {
        let mut from = Reader::new(bytes);
        let value = Self::read(&mut from)?;
        if from.is_at_end() {
            Ok(value)
        } else {
            Err(from.defect(Defect::LeftOver))
        }
    }
}

/// What of a value fits no frame.
#[derive(Clone, Copy, Debug, PartialEq, Eq)]
pub enum EncodeError {
    /// A text has too many bytes.
    Text {
        /// How many it has.
        length: usize,
        /// How many it may have.
        limit: usize,
    },
    /// A list has too many entries.
    List {
        /// How many it has.
        count: usize,
        /// How many it may have.
        limit: usize,
    },
    /// A time, in milliseconds, is before [`MIN_TIMESTAMP`] or after [`MAX_TIMESTAMP`].
    Timestamp(i64),
}

impl fmt::Display for EncodeError {
    fn fmt(&self, f: &mut fmt::Formatter<'_>) -> fmt::Result {
        match self {
            Self::Text { length, limit } => {
                write!(f, "a text of {length} bytes, where {limit} are the most")
            }
            Self::List { count, limit } => {
                write!(f, "a list of {count} entries, where {limit} are the most")
            }
            Self::Timestamp(milliseconds) => {
                write!(f, "a time out of range: {milliseconds} milliseconds")
            }
        }
    }
}

impl Error for EncodeError {}

/// Where and why bytes are no value's.
#[derive(Clone, Copy, Debug, PartialEq, Eq)]
pub struct DecodeError {
    /// The place of the byte after those that were read.
    pub at: usize,
    /// What is wrong before it.
    pub defect: Defect,
}

/// What is wrong with bytes that are no value's.
#[derive(Clone, Copy, Debug, PartialEq, Eq)]
pub enum Defect {
    /// They end too soon.
    Short,
    /// No case, or no form of an option, has this byte.
    Case(u8),
    /// A text or a list is longer than its limit.
    Long,
    /// A text is not UTF-8.
    Text,
    /// A time is out of range.
    Timestamp,
    /// More bytes follow the value.
    LeftOver,
}

impl fmt::Display for DecodeError {
    fn fmt(&self, f: &mut fmt::Formatter<'_>) -> fmt::Result {
        write!(f, "no frame: {:?} at byte {}", self.defect, self.at)
    }
}

impl Error for DecodeError {}

/// A reading place in lent bytes.
#[derive(Clone, Debug)]
pub struct Reader<'a> {
    bytes: &'a [u8],
    at: usize,
}

impl<'a> Reader<'a> {
    /// The place of the first byte.
    #[must_use]
    pub fn new(bytes: &'a [u8]) -> Self {
        Self { bytes, at: 0 }
    }

    /// Whether every byte was read.
    #[must_use]
    pub fn is_at_end(&self) -> bool {
        self.at == self.bytes.len()
    }

    pub(crate) fn defect(&self, defect: Defect) -> DecodeError {
        DecodeError {
            at: self.at,
            defect,
        }
    }

    fn bytes(&mut self, count: usize) -> Result<&'a [u8], DecodeError> {
        let rest = &self.bytes[self.at..];
        let part = rest.get(..count).ok_or(self.defect(Defect::Short))?;
        self.at += count;
        Ok(part)
    }

    fn array<const N: usize>(&mut self) -> Result<[u8; N], DecodeError> {
        let part = self.bytes(N)?;
        Ok(part.try_into().expect("as many bytes as were asked for"))
    }

    pub(crate) fn byte(&mut self) -> Result<u8, DecodeError> {
        Ok(self.array::<1>()?[0])
    }

    /// A length or count byte.
    fn size(&mut self, limit: usize) -> Result<usize, DecodeError> {
        let size = usize::from(self.byte()?);
        if size <= limit {
            Ok(size)
        } else {
            Err(self.defect(Defect::Long))
        }
    }
}

/// A length or count byte, if the size is within the limit, which is below 256.
fn size_byte(size: usize, limit: usize) -> Option<u8> {
    u8::try_from(size).ok().filter(|_| size <= limit)
}

/// Text with a limit of its own.
pub(crate) trait Limited: Sized {
    fn write_within(&self, limit: usize, to: &mut Vec<u8>) -> Result<(), EncodeError>;
    fn read_within(limit: usize, from: &mut Reader<'_>) -> Result<Self, DecodeError>;
}

impl Limited for String {
    fn write_within(&self, limit: usize, to: &mut Vec<u8>) -> Result<(), EncodeError> {
        let length = self.len();
        to.push(size_byte(length, limit).ok_or(EncodeError::Text { length, limit })?);
        to.extend_from_slice(self.as_bytes());
        Ok(())
    }

    fn read_within(limit: usize, from: &mut Reader<'_>) -> Result<Self, DecodeError> {
        let length = from.size(limit)?;
        let text = from.bytes(length)?;
        match std::str::from_utf8(text) {
            Ok(text) => Ok(text.to_owned()),
            Err(_) => Err(from.defect(Defect::Text)),
        }
    }
}

impl Limited for Option<String> {
    fn write_within(&self, limit: usize, to: &mut Vec<u8>) -> Result<(), EncodeError> {
        write_option(self.as_ref(), to, |text, to| text.write_within(limit, to))
    }

    fn read_within(limit: usize, from: &mut Reader<'_>) -> Result<Self, DecodeError> {
        read_option(from, |from| String::read_within(limit, from))
    }
}

fn write_option<T>(
    value: Option<&T>,
    to: &mut Vec<u8>,
    write: impl FnOnce(&T, &mut Vec<u8>) -> Result<(), EncodeError>,
) -> Result<(), EncodeError> {
    to.push(u8::from(value.is_some()));
    value.map_or(Ok(()), |value| write(value, to))
}

fn read_option<T>(
    from: &mut Reader<'_>,
    read: impl FnOnce(&mut Reader<'_>) -> Result<T, DecodeError>,
) -> Result<Option<T>, DecodeError> {
    match from.byte()? {
        0 => Ok(None),
        1 => read(from).map(Some),
        other => Err(from.defect(Defect::Case(other))),
    }
}

impl Frame for String {
    fn write(&self, to: &mut Vec<u8>) -> Result<(), EncodeError> {
        self.write_within(MAX_TEXT, to)
    }

    fn read(from: &mut Reader<'_>) -> Result<Self, DecodeError> {
        Self::read_within(MAX_TEXT, from)
    }
}

impl<T: Frame> Frame for Option<T> {
    fn write(&self, to: &mut Vec<u8>) -> Result<(), EncodeError> {
        write_option(self.as_ref(), to, T::write)
    }

    fn read(from: &mut Reader<'_>) -> Result<Self, DecodeError> {
        read_option(from, T::read)
    }
}

/// What a list may hold.
pub(crate) trait Entry: Frame {
    /// The most entries of a list.
    const LIMIT: usize;
}

impl<T: Entry> Frame for Vec<T> {
    fn write(&self, to: &mut Vec<u8>) -> Result<(), EncodeError> {
        let (count, limit) = (self.len(), T::LIMIT);
        to.push(size_byte(count, limit).ok_or(EncodeError::List { count, limit })?);
        self.iter().try_for_each(|entry| entry.write(to))
    }

    fn read(from: &mut Reader<'_>) -> Result<Self, DecodeError> {
        let count = from.size(T::LIMIT)?;
        (0..count).map(|_| T::read(from)).collect()
    }
}

/// The numbers of the frame, big-endian.
macro_rules! whole_number {
    ($($type:ty),*) => { $(
        impl Frame for $type {
            fn write(&self, to: &mut Vec<u8>) -> Result<(), EncodeError> {
                to.extend_from_slice(&self.to_be_bytes());
                Ok(())
            }

            fn read(from: &mut Reader<'_>) -> Result<Self, DecodeError> {
                from.array().map(Self::from_be_bytes)
            }
        }
    )* };
}

whole_number!(u32, u64, i64);
