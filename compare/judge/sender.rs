//! Change request 11/13: a sender written from the request's words, with queues that grow and a loop over grants. No published engine has one, so
//! this is what the port's is held to.
use crate::engine::frame;
use crate::frames::Rng;
use crate::view::hex;
use std::collections::VecDeque;
use std::io::{self, BufRead, Write};

pub const MILLS: usize = 8;
pub const CALLS: usize = 4;
pub const LANE: usize = 24;

/// A refusal's number.
pub const NO_USE: u8 = 3;
pub const NO_SUCH_MILL: u8 = 11;
pub const LANE_FULL: u8 = 12;

#[derive(Clone, Copy, PartialEq, Eq, Debug)]
pub enum Use {
    Enter {
        mill: u8,
        number: u64,
    },
    Reply {
        mill: u8,
        number: u64,
    },
    /// Only empties the lane: the mill's new requests enter after it, each a use of its own.
    Resume {
        mill: u8,
    },
}

/// A mill and its request's number.
pub type Call = (u8, u64);

#[derive(Clone, PartialEq, Eq, Debug, Default)]
pub struct Sender {
    pub lanes: [VecDeque<u64>; MILLS],
    /// In the order of their grants. The same call may stand here more than once.
    pub out: Vec<Call>,
    /// The mill that is asked first: the one after the last granted.
    pub turn: usize,
}

impl Sender {
    /// The first mill with a request waiting, from the turn on.
    fn next(&self) -> Option<usize> {
        (self.turn..self.turn + MILLS).map(|n| n % MILLS).find(|mill| !self.lanes[*mill].is_empty())
    }

    /// Every grant now possible, in order.
    fn grants(&mut self) -> Vec<Call> {
        let mut told = Vec::new();
        while self.out.len() < CALLS
            && let Some(mill) = self.next()
        {
            let number = self.lanes[mill].pop_front().expect("a request waits");
            self.out.push((mill as u8, number));
            self.turn = (mill + 1) % MILLS;
            told.push((mill as u8, number));
        }
        told
    }

    /// The grants told, or the refusal, which changes nothing.
    pub fn apply(&mut self, asked: Use) -> Result<Vec<Call>, u8> {
        let (Use::Enter { mill, .. } | Use::Reply { mill, .. } | Use::Resume { mill }) = asked;
        let lane = self.lanes.get_mut(usize::from(mill)).ok_or(NO_SUCH_MILL)?;
        match asked {
            Use::Enter { .. } if lane.len() >= LANE => return Err(LANE_FULL),
            Use::Enter { number, .. } => lane.push_back(number),
            Use::Resume { .. } => lane.clear(),
            Use::Reply { number, .. } => {
                if let Some(at) = self.out.iter().position(|call| *call == (mill, number)) {
                    self.out.remove(at);
                }
            }
        }
        Ok(self.grants())
    }
}

/// A use's bytes by the frame's rule: its case, the mill and, but for a Resume, the number.
pub fn bytes(asked: Use) -> Vec<u8> {
    match asked {
        Use::Enter { mill, number } => [&[0, mill][..], &number.to_be_bytes()].concat(),
        Use::Reply { mill, number } => [&[1, mill][..], &number.to_be_bytes()].concat(),
        Use::Resume { mill } => vec![2, mill],
    }
}

fn parse(line: &[u8]) -> Option<Use> {
    let number = |bytes: &[u8]| Some(u64::from_be_bytes(bytes.try_into().ok()?));
    match frame(line)?.as_slice() {
        [0, mill, rest @ ..] => Some(Use::Enter { mill: *mill, number: number(rest)? }),
        [1, mill, rest @ ..] => Some(Use::Reply { mill: *mill, number: number(rest)? }),
        [2, mill] => Some(Use::Resume { mill: *mill }),
        _ => None,
    }
}

/// Uses on standard input, a line each; answers on standard output.
pub fn run(out: &mut impl Write) -> io::Result<bool> {
    let mut sender = Sender::default();
    for line in io::stdin().lock().split(b'\n') {
        let answer = parse(&line?).ok_or(NO_USE).and_then(|asked| sender.apply(asked));
        let code = answer.as_ref().err().copied().unwrap_or(0);
        let told = answer.unwrap_or_default();
        writeln!(out, "{code:02x}{:04x}", told.len())?;
        for (mill, number) in told {
            writeln!(out, "{mill:02x}{number:016x}")?;
        }
    }
    Ok(true)
}

/// Random uses of one account: some mills flood, some are silent, and replies come more or less often.
pub struct Uses {
    rng: Rng,
    weights: Vec<usize>,
    replies: usize,
    number: u64,
}

impl Uses {
    pub fn new(seed: u64) -> Self {
        let mut rng = Rng::new(seed);
        let weights = (0..MILLS).map(|_| *rng.pick(&[0, 1, 1, 5, 40])).collect();
        let replies = *rng.pick(&[10, 20, 45, 50, 60]);
        // Now and then numbers around the edges of their bytes.
        let number = *rng.pick(&[0, 0, 250, u64::from(u32::MAX) - 20, u64::MAX - 2_000_000]);
        Self { rng, weights, replies, number }
    }

    /// A mill by the weights, or now and then any number, one that is no mill's among them.
    fn mill(&mut self) -> u8 {
        if self.rng.chance(2) {
            return self.rng.next() as u8;
        }
        if self.weights.iter().all(|w| *w == 0) || self.rng.chance(5) {
            return self.rng.below(MILLS + 2) as u8;
        }
        self.rng.weigh(&self.weights) as u8
    }

    /// The next use, made from the sender as it is.
    pub fn next(&mut self, sender: &Sender) -> Use {
        if !sender.out.is_empty() && self.rng.chance(self.replies) {
            let (mill, number) = *self.rng.pick(&sender.out);
            // Mostly a call that is out; else one that differs in the mill or in the number.
            return match self.rng.below(20) {
                0 => Use::Reply { mill: self.mill(), number },
                1 => Use::Reply { mill, number: number ^ (1 << self.rng.below(64)) },
                _ => Use::Reply { mill, number },
            };
        }
        let mill = self.mill();
        if self.rng.chance(2) {
            return Use::Resume { mill };
        }
        // The same number may enter twice.
        if !self.rng.chance(15) {
            self.number = self.number.wrapping_add(1);
        }
        Use::Enter { mill, number: self.number }
    }

    /// A line that is no use: cut, lengthened, of another case, or no bytes at all.
    fn damaged(&mut self, mut frame: Vec<u8>) -> String {
        match self.rng.below(6) {
            0 => frame.truncate(self.rng.below(frame.len())),
            1 => frame.push(self.rng.next() as u8),
            2 => frame[0] = 3 + self.rng.below(253) as u8,
            3 => frame[0] = if frame[0] == 2 { 0 } else { 2 },
            4 => return hex(&frame) + "0",
            _ => return hex(&frame).replacen('0', "g", 1),
        }
        hex(&frame)
    }
}

/// Lines of random uses, one in forty of them damaged.
pub fn generate(out: &mut impl Write, seed: u64, steps: usize) -> io::Result<bool> {
    let (mut uses, mut sender) = (Uses::new(seed), Sender::default());
    for _ in 0..steps {
        let asked = uses.next(&sender);
        if uses.rng.below(40) == 0 {
            let line = uses.damaged(bytes(asked));
            writeln!(out, "{line}")?;
        } else {
            let _ = sender.apply(asked);
            writeln!(out, "{}", hex(&bytes(asked)))?;
        }
    }
    Ok(true)
}
