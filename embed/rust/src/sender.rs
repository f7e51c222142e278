//! The sender, which grants eight mills on one account their turns at the provider.

use std::fmt;

use crate::archive;
use crate::engine::{Refusal, accepted, answer};
use crate::seam::RequestId;

/// A mill's request that may go to the provider.
#[derive(Clone, Copy, Debug, PartialEq, Eq, Hash)]
pub struct Call {
    /// The mill, 0 to 7.
    pub mill: u8,
    /// The number of its request.
    pub number: RequestId,
}

/// One account's sender: eight lanes of up to 24 requests, and the calls out, at most four.
///
/// Each use ends with every grant then possible, which is one at most. Two senders are equal where their bytes are.
///
/// ```
/// use bay::{Call, RequestId, Sender};
///
/// let mut sender = Sender::fresh();
/// for n in 0..4 {
///     let number = RequestId::new(n);
///     assert_eq!(sender.enter(0, number)?, Some(Call { mill: 0, number })); // send it
/// }
/// assert_eq!(sender.enter(1, RequestId::new(0))?, None); // it waits
/// let granted = sender.reply(0, RequestId::new(2))?; // a reply frees one call
/// assert_eq!(granted, Some(Call { mill: 1, number: RequestId::new(0) }));
/// # Ok::<(), bay::Refusal>(())
/// ```
#[derive(Clone, PartialEq, Eq)]
pub struct Sender {
    bytes: Box<[u8]>,
}

/// The call that was granted, if one was.
fn granted(answered: (u8, Option<(u8, u64)>)) -> Result<Option<Call>, Refusal> {
    let call = |(mill, number)| Call {
        mill,
        number: RequestId::new(number),
    };
    answer(answered).map(|granted| granted.map(call))
}

impl Sender {
    /// A sender with empty lanes and no call out; mill 0 is asked first.
    #[must_use]
    pub fn fresh() -> Self {
        let mut bytes = vec![0; archive::sender_length()].into_boxed_slice();
        accepted((archive::sender_fresh(&mut bytes), ()));
        Self { bytes }
    }

    /// The sender that has these bytes, as [`Sender::as_bytes`] gave them.
    ///
    /// # Errors
    ///
    /// [`Refusal::Length`] or [`Refusal::State`]: no uses of a fresh sender lead to these bytes.
    pub fn from_bytes(bytes: &[u8]) -> Result<Self, Refusal> {
        let mut bytes: Box<[u8]> = bytes.into();
        // a use of a mill that is not there checks the bytes and changes nothing
        match answer((archive::sender_resume(&mut bytes, u8::MAX), ())) {
            Err(refusal @ (Refusal::Length | Refusal::State)) => Err(refusal),
            _ => Ok(Self { bytes }),
        }
    }

    /// The sender's bytes: equal senders have equal bytes.
    #[must_use]
    pub fn as_bytes(&self) -> &[u8] {
        &self.bytes
    }

    /// A request enters its mill's lane. What is granted then may be another mill's.
    ///
    /// # Errors
    ///
    /// [`Refusal::Mill`] for a mill above 7, then [`Refusal::Lane`] where the lane holds 24; the sender is then as it was.
    pub fn enter(&mut self, mill: u8, number: RequestId) -> Result<Option<Call>, Refusal> {
        granted(archive::sender_enter(&mut self.bytes, mill, number.get()))
    }

    /// The reply to a call has come, and frees it. One whose mill and number are not out changes nothing.
    ///
    /// # Errors
    ///
    /// [`Refusal::Mill`] for a mill above 7; the sender is then as it was.
    pub fn reply(&mut self, mill: u8, number: RequestId) -> Result<Option<Call>, Refusal> {
        granted(archive::sender_reply(&mut self.bytes, mill, number.get()))
    }

    /// The mill starts anew: its lane is emptied, and its new requests enter after it. Its calls out hold their share until their
    /// reply comes, so nothing is granted.
    ///
    /// # Errors
    ///
    /// [`Refusal::Mill`] for a mill above 7; the sender is then as it was.
    pub fn resume(&mut self, mill: u8) -> Result<(), Refusal> {
        answer((archive::sender_resume(&mut self.bytes, mill), ()))
    }
}

impl Default for Sender {
    fn default() -> Self {
        Self::fresh()
    }
}

impl fmt::Debug for Sender {
    fn fmt(&self, f: &mut fmt::Formatter<'_>) -> fmt::Result {
        f.debug_struct("Sender").finish_non_exhaustive()
    }
}
