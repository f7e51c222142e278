//! What was compared.
use crate::bay::{STATE, Want};
use crate::damage::KINDS;

/// From so many steps on each refusal from 2 to 7 must have come, or the run fails.
const FULL: u64 = 100_000;

#[derive(Default)]
pub struct Tally {
    pub runs: u64,
    /// Runs in which the judge checked itself.
    pub checked: u64,
    /// Calls by the answer's number.
    answers: [u64; 8],
    /// For each kind of damage the bytes that are no state, and those that still are one.
    damaged: [[u64; 2]; KINDS.len()],
    /// The most bytes of effects that a call gave.
    longest: usize,
    pub differences: u64,
}

impl Tally {
    pub fn answered(&mut self, want: &Want) {
        self.answers[usize::from(want.code)] += 1;
        self.longest = self.longest.max(want.effects.len());
    }

    pub fn damaged(&mut self, kind: usize, state: bool) {
        self.damaged[kind][usize::from(state)] += 1;
    }

    pub fn print(&self, seconds: u64) {
        for (kind, [broken, whole]) in KINDS.iter().zip(self.damaged) {
            println!("damaged, {:<34} {broken:>8} no state {whole:>8} still a state", kind.0);
        }
        for (number, steps) in self.answers.iter().enumerate().filter(|(_, steps)| **steps > 0) {
            println!("answer {number}: {steps}");
        }
        let ([broken, whole], steps) = (self.all_damaged(), self.steps());
        println!("the longest effects: {} bytes", self.longest);
        println!("{} runs, {} with the judge's own checks", self.runs, self.checked);
        println!(
            "{steps} steps, {broken} of them from bytes that are no state, {whole} from damaged ones that are one"
        );
        println!("{} differences, {seconds} s", self.differences);
        if self.full() && !self.met_all() {
            println!("a run of {FULL} steps must meet the refusals 2 to 7, and damaged bytes that are a state");
        }
    }

    /// No differences, and in a full run everything was met.
    pub fn good(&self) -> bool {
        self.differences == 0 && (!self.full() || self.met_all())
    }

    fn steps(&self) -> u64 {
        self.answers.iter().sum()
    }

    fn full(&self) -> bool {
        self.steps() >= FULL
    }

    fn met_all(&self) -> bool {
        self.answers[usize::from(STATE)..].iter().all(|steps| *steps > 0) && self.all_damaged()[1] > 0
    }

    fn all_damaged(&self) -> [u64; 2] {
        [0, 1].map(|n| self.damaged.iter().map(|d| d[n]).sum())
    }
}
