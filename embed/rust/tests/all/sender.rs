//! The sender: turns, refusals, its bytes, and runs beside a sender of plain queues.

use std::collections::VecDeque;

use crate::random::Random;
use bay::*;

const MILLS: usize = 8;
const CALLS: usize = 4;
const LANE: usize = 24;

fn call(mill: u8, number: u64) -> Call {
    Call {
        mill,
        number: RequestId::new(number),
    }
}

fn enter(sender: &mut Sender, mill: u8, number: u64) -> Result<Option<Call>, Refusal> {
    sender.enter(mill, RequestId::new(number))
}

fn reply(sender: &mut Sender, mill: u8, number: u64) -> Result<Option<Call>, Refusal> {
    sender.reply(mill, RequestId::new(number))
}

/// A sender whose four calls are out, all of mill 0.
fn busy() -> Sender {
    let mut sender = Sender::fresh();
    for number in 0..4 {
        assert_eq!(
            enter(&mut sender, 0, number),
            Ok(Some(call(0, number))),
            "a mill alone has all four"
        );
    }
    sender
}

#[test]
fn the_turn_goes_round() {
    let mut sender = busy();
    assert_eq!(enter(&mut sender, 0, 4), Ok(None));
    for mill in 1..8 {
        assert_eq!(enter(&mut sender, mill, 9), Ok(None));
    }
    let freed = [(0, 0), (0, 1), (0, 2), (0, 3), (1, 9), (2, 9), (3, 9)];
    for (next, (mill, number)) in (1..8).zip(freed) {
        assert_eq!(reply(&mut sender, mill, number), Ok(Some(call(next, 9))));
    }
    assert_eq!(
        reply(&mut sender, 4, 9),
        Ok(Some(call(0, 4))),
        "mill 0 has waited for the eighth grant"
    );
}

#[test]
fn a_reply_frees_a_call_of_its_mill_and_number() {
    let mut sender = busy();
    assert_eq!(enter(&mut sender, 1, 0), Ok(None));
    let before = sender.clone();
    for (mill, number) in [(1, 0), (0, 4), (7, u64::MAX)] {
        assert_eq!(reply(&mut sender, mill, number), Ok(None), "not out");
        assert_eq!(sender, before);
    }
    assert_eq!(reply(&mut sender, 0, 3), Ok(Some(call(1, 0))));
    assert_eq!(reply(&mut sender, 0, 3), Ok(None), "answered already");
}

#[test]
fn a_resume_empties_the_lane_and_frees_no_call() {
    let mut sender = busy();
    for number in 4..8 {
        assert_eq!(enter(&mut sender, 0, number), Ok(None));
    }
    assert_eq!(sender.resume(0), Ok(()));
    assert_eq!(sender, busy());
    assert_eq!(enter(&mut sender, 0, 8), Ok(None), "four are still out");
    assert_eq!(reply(&mut sender, 0, 0), Ok(Some(call(0, 8))));
}

#[test]
fn refusals_leave_the_sender_as_it_is() {
    let mut sender = busy();
    for number in 0..24 {
        assert_eq!(enter(&mut sender, 3, number), Ok(None));
    }
    let before = sender.clone();
    assert_eq!(enter(&mut sender, 3, 24), Err(Refusal::Lane));
    for mill in [8, 9, 255] {
        assert_eq!(enter(&mut sender, mill, 0), Err(Refusal::Mill));
        assert_eq!(reply(&mut sender, mill, 0), Err(Refusal::Mill));
        assert_eq!(sender.resume(mill), Err(Refusal::Mill));
    }
    assert_eq!(sender, before);
    assert_eq!((Refusal::Mill.number(), Refusal::Lane.number()), (11, 12));
}

/// A sender of plain queues.
#[derive(Default)]
struct Plain {
    lanes: [VecDeque<u64>; MILLS],
    out: Vec<(u8, u64)>,
    turn: usize,
}

impl Plain {
    fn granted(&mut self) -> Option<Call> {
        if self.out.len() == CALLS {
            return None;
        }
        let places = (0..MILLS).map(|n| (self.turn + n) % MILLS);
        let (mill, number) = places
            .filter_map(|mill| Some((mill, self.lanes[mill].front().copied()?)))
            .next()?;
        self.lanes[mill].pop_front();
        self.turn = (mill + 1) % MILLS;
        self.out.push((mill as u8, number));
        Some(call(mill as u8, number))
    }

    /// Eight lanes, each a count and 24 numbers; the calls out, a count and four calls; the turn.
    fn bytes(&self) -> Vec<u8> {
        let mut bytes = Vec::new();
        for lane in &self.lanes {
            bytes.push(lane.len() as u8);
            let numbers = lane.iter().copied().chain(std::iter::repeat(0));
            bytes.extend(numbers.take(LANE).flat_map(u64::to_be_bytes));
        }
        bytes.push(self.out.len() as u8);
        let calls = self.out.iter().copied().chain(std::iter::repeat((0, 0)));
        for (mill, number) in calls.take(CALLS) {
            bytes.push(mill);
            bytes.extend(number.to_be_bytes());
        }
        bytes.push(self.turn as u8);
        bytes
    }

    /// The sender with these bytes: what they would be written as again, if uses lead to it.
    fn read(bytes: &[u8]) -> Option<Self> {
        let number = |at: usize| u64::from_be_bytes(bytes[at..at + 8].try_into().expect("eight"));
        let mut plain = Self::default();
        for (mill, lane) in plain.lanes.iter_mut().enumerate() {
            let at = mill * (1 + LANE * 8);
            let count = usize::from(bytes[at]).min(LANE);
            lane.extend((0..count).map(|n| number(at + 1 + n * 8)));
        }
        let at = MILLS * (1 + LANE * 8);
        let places = (0..usize::from(bytes[at]).min(CALLS)).map(|n| at + 1 + n * 9);
        plain.out = places.map(|at| (bytes[at], number(at + 1))).collect();
        plain.turn = usize::from(bytes[at + 1 + CALLS * 9]);
        let there = plain.out.iter().all(|call| usize::from(call.0) < MILLS) && plain.turn < MILLS;
        let settled = match plain.out.get(CALLS - 1) {
            Some(last) => plain.turn == (usize::from(last.0) + 1) % MILLS,
            None => plain.lanes.iter().all(VecDeque::is_empty),
        };
        (there && settled && plain.bytes() == bytes).then_some(plain)
    }
}

/// Takes random uses on both; what they answer and the bytes are the same.
fn run(random: &mut Random, uses: usize) -> Sender {
    let (mut sender, mut plain) = (Sender::fresh(), Plain::default());
    for number in 0..uses as u64 {
        // two mills flood
        let most = if random.below(3) == 0 { MILLS } else { 2 };
        let mill = random.below(most) as u8;
        let lane = usize::from(mill);
        match random.below(8) {
            0..3 if !plain.out.is_empty() => {
                let (mill, number) = plain.out.remove(random.below(plain.out.len()));
                // each number enters once, so no other call is equal to it
                let granted = reply(&mut sender, mill, number);
                assert_eq!(granted, Ok(plain.granted()));
            }
            3 if random.below(10) == 0 => {
                assert_eq!(sender.resume(mill), Ok(()));
                plain.lanes[lane].clear();
            }
            _ if plain.lanes[lane].len() == LANE => {
                assert_eq!(enter(&mut sender, mill, number), Err(Refusal::Lane));
            }
            _ => {
                plain.lanes[lane].push_back(number);
                let granted = enter(&mut sender, mill, number);
                assert_eq!(granted, Ok(plain.granted()));
            }
        }
        assert_eq!(sender.as_bytes(), plain.bytes());
    }
    sender
}

#[test]
fn runs_beside_plain_queues() {
    let mut random = Random::new(11);
    for _ in 0..20 {
        run(&mut random, 300);
    }
}

#[test]
fn bytes_are_a_senders_where_uses_lead_to_them() {
    let mut random = Random::new(12);
    let (mut good, mut bad) = (0, 0);
    for uses in [0, 1, 3, 8, 60, 200] {
        let bytes = run(&mut random, uses).as_bytes().to_vec();
        assert_eq!(
            Sender::from_bytes(&bytes).expect("its own").as_bytes(),
            bytes
        );
        for at in 0..bytes.len() {
            let mut damaged = bytes.clone();
            damaged[at] = match random.below(4) {
                0 => random.below(256) as u8,
                1 => damaged[at].wrapping_add(1),
                2 => damaged[at].wrapping_sub(1),
                _ => random.below(9) as u8,
            };
            match Plain::read(&damaged) {
                Some(_) => {
                    good += 1;
                    let sender = Sender::from_bytes(&damaged).expect("a sender");
                    assert_eq!(sender.as_bytes(), damaged);
                }
                None => {
                    bad += 1;
                    assert_eq!(Sender::from_bytes(&damaged), Err(Refusal::State));
                }
            }
        }
    }
    assert!(good > 100 && bad > 1000, "{good} good, {bad} bad");
}

#[test]
fn another_length_is_refused() {
    let bytes = Sender::fresh().as_bytes().to_vec();
    let longer = [&bytes[..], &[0]].concat();
    for other in [&bytes[..bytes.len() - 1], &longer, &[]] {
        assert_eq!(Sender::from_bytes(other), Err(Refusal::Length));
    }
}
