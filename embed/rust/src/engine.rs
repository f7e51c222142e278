//! One engine: a state, and the buffers that its steps need.

use std::collections::BTreeMap;
use std::error::Error;
use std::fmt;

use crate::archive;
use crate::frame::{EncodeError, Frame};
use crate::provider::ProviderEvent;
use crate::seam::{Cursor, RequestId, ResourceId};
use crate::sync::{Effect, Input};

/// One state, well-formed at all times, and the buffers that its steps need.
///
/// Two engines are equal where their states are. An engine shares nothing with another, so each may have its own thread.
#[derive(Clone)]
pub struct Engine {
    state: Box<[u8]>,
    work: Box<[u8]>,
    output: Box<[u8]>,
}

/// Why a call was refused. The state or the sender is then as it was.
#[derive(Clone, Copy, Debug, PartialEq, Eq)]
pub enum Refusal {
    /// 1: a state's or a sender's bytes have another length.
    Length,
    /// 2: the bytes are not those of a well-formed state, or not those of a sender.
    State,
    /// 3: the bytes are not exactly one input frame.
    Frame,
    /// 3 too: the input, or what two clerks are given, has no frame, and no call was made.
    Input(EncodeError),
    /// 4: no request number is left.
    RequestNumbers,
    /// 5: a table would need one entry more than its limit.
    Table,
    /// 6: the merged event would have too many attendees. Only an owner's update meets it.
    Attendees,
    /// 7: the effects would pass the output.
    Effects,
    /// 10: an attendee list has the same address twice, capitals or not.
    AddressTwice,
    /// 11: a sender has no such mill.
    Mill,
    /// 12: the mill's lane at the sender holds as many requests as it can.
    Lane,
}

impl Refusal {
    /// The refusal's number.
    #[must_use]
    pub fn number(self) -> u8 {
        match self {
            Self::Length => 1,
            Self::State => 2,
            Self::Frame | Self::Input(_) => 3,
            Self::RequestNumbers => 4,
            Self::Table => 5,
            Self::Attendees => 6,
            Self::Effects => 7,
            Self::AddressTwice => 10,
            Self::Mill => 11,
            Self::Lane => 12,
        }
    }

    fn numbered(number: u8) -> Self {
        match number {
            1 => Self::Length,
            2 => Self::State,
            3 => Self::Frame,
            4 => Self::RequestNumbers,
            5 => Self::Table,
            6 => Self::Attendees,
            7 => Self::Effects,
            10 => Self::AddressTwice,
            11 => Self::Mill,
            12 => Self::Lane,
            _ => unreachable!("the archive answers 0 to 7 and 10 to 12"),
        }
    }
}

impl fmt::Display for Refusal {
    fn fmt(&self, f: &mut fmt::Formatter<'_>) -> fmt::Result {
        f.write_str(match self {
            Self::Length => "the bytes have another length",
            Self::State => "the bytes are no well-formed state, or no sender's",
            Self::Frame => "the bytes are not exactly one input frame",
            Self::Input(_) => "the input has no frame",
            Self::RequestNumbers => "no request number is left",
            Self::Table => "a table is full",
            Self::Attendees => "the merged event has too many attendees",
            Self::Effects => "the effects are too long",
            Self::AddressTwice => "an attendee list has the same address twice",
            Self::Mill => "a sender has no such mill",
            Self::Lane => "the mill's lane is full",
        })
    }
}

impl Error for Refusal {
    fn source(&self) -> Option<&(dyn Error + 'static)> {
        match self {
            Self::Input(error) => Some(error),
            _ => None,
        }
    }
}

impl From<EncodeError> for Refusal {
    fn from(error: EncodeError) -> Self {
        Self::Input(error)
    }
}

/// What a function of the archive answers, by its result number.
pub(crate) fn answer<T>((number, value): (u8, T)) -> Result<T, Refusal> {
    match number {
        0 => Ok(value),
        refused => Err(Refusal::numbered(refused)),
    }
}

/// What a function of the archive answers that cannot refuse: an engine's state and buffers, or a sender's bytes, are right.
pub(crate) fn accepted<T>(answered: (u8, T)) -> T {
    answer(answered).expect("the state and the buffers are right")
}

/// What the archive wrote into an engine's state or output, or into a line.
pub(crate) fn written<T, E: fmt::Debug>(decoded: Result<T, E>) -> T {
    decoded.expect("what the archive writes can be read")
}

impl Engine {
    /// An engine with no records, no cursor and nothing waiting.
    #[must_use]
    pub fn fresh() -> Self {
        let mut engine = Self::with_state(vec![0; archive::state_length()].into());
        accepted((archive::fresh(&mut engine.state), ()));
        engine
    }

    fn with_state(state: Box<[u8]>) -> Self {
        Self {
            work: vec![0; archive::state_length()].into(),
            output: vec![0; archive::output_length()].into(),
            state,
        }
    }

    /// The engine whose state has these bytes, as [`Engine::as_bytes`] gave them.
    ///
    /// # Errors
    ///
    /// [`Refusal::Length`] or [`Refusal::State`]: they are not the bytes of a well-formed state.
    pub fn from_bytes(bytes: &[u8]) -> Result<Self, Refusal> {
        // any reading function checks the whole state
        answer(archive::cursor(bytes))?;
        Ok(Self::with_state(bytes.into()))
    }

    /// The state's bytes: equal states have equal bytes.
    #[must_use]
    pub fn as_bytes(&self) -> &[u8] {
        &self.state
    }

    /// Takes one input, and gives the effects to perform, in order.
    ///
    /// # Errors
    ///
    /// The refusal; the state is then as it was.
    pub fn step(&mut self, input: &Input) -> Result<Vec<Effect>, Refusal> {
        let effects = self.step_frame(&input.encode()?)?;
        Ok(written(Effect::decode_all(effects)))
    }

    /// Takes one input frame, and gives the bytes of the effects, back to back.
    ///
    /// # Errors
    ///
    /// The refusal; the state is then as it was.
    pub fn step_frame(&mut self, frame: &[u8]) -> Result<&[u8], Refusal> {
        let answered = archive::step(&mut self.state, &mut self.work, &mut self.output, frame);
        let length = answer(answered)?;
        Ok(&self.output[..length])
    }

    /// The cursor that the next pass starts from, once a pass is complete.
    #[must_use]
    pub fn cursor(&self) -> Option<Cursor> {
        let text = accepted(archive::cursor(&self.state))?;
        Some(Cursor::new(written(std::str::from_utf8(
            text.of(&self.state),
        ))))
    }

    /// How many edits wait for the resource; those folded into another are not counted.
    #[must_use]
    pub fn waiting_count(&self, resource: &ResourceId) -> usize {
        let name = resource.as_str().as_bytes();
        accepted(archive::waiting_count(&self.state, name))
    }

    /// The request in flight at this place in their order.
    #[must_use]
    pub fn in_flight_at(&self, place: usize) -> Option<RequestId> {
        accepted(archive::in_flight_at(&self.state, place)).map(RequestId::new)
    }

    /// The requests whose outcomes the engine waits for, in order.
    pub fn in_flight(&self) -> impl Iterator<Item = RequestId> {
        (0..).map_while(|place| self.in_flight_at(place))
    }

    /// The record at this place in the order of their resources.
    #[must_use]
    pub fn record_at(&self, place: usize) -> Option<(ResourceId, ProviderEvent)> {
        let (name, event) = accepted(archive::record_at(&self.state, place))?;
        let resource = ResourceId::new(written(std::str::from_utf8(name.of(&self.state))));
        let event = written(ProviderEvent::decode(event.of(&self.state)));
        Some((resource, event))
    }

    /// The records, by resource.
    #[must_use]
    pub fn records(&self) -> BTreeMap<ResourceId, ProviderEvent> {
        (0..).map_while(|place| self.record_at(place)).collect()
    }
}

impl Default for Engine {
    fn default() -> Self {
        Self::fresh()
    }
}

impl PartialEq for Engine {
    fn eq(&self, other: &Self) -> bool {
        self.state == other.state
    }
}

impl Eq for Engine {}

impl fmt::Debug for Engine {
    fn fmt(&self, f: &mut fmt::Formatter<'_>) -> fmt::Result {
        f.debug_struct("Engine")
            .field("cursor", &self.cursor())
            .field("records", &self.records())
            .field("in_flight", &self.in_flight().collect::<Vec<_>>())
            .finish_non_exhaustive()
    }
}
