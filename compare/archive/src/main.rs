//! The archive and the published engine in one process, step by step: from fresh states, from well-formed states that no steps
//! lead to, and from damaged ones. Answers, effects and whole states are held to each other.
mod bay;
mod brink;
mod damage;
mod layout;
mod tally;

use bay::{Bay, STATE, Want};
use damage::{KINDS, damage};
use judge::engine::{self, Engine};
use judge::frames::{self, PROFILES, Rng};
use judge::limited::limits::LIMITS;
use judge::view::{View, hex};
use layout::Layout;
use serde::save;
use std::fs;
use std::panic::{AssertUnwindSafe, catch_unwind};
use std::process::ExitCode;
use std::time::Instant;
use tally::Tally;

const USAGE: &str = "usage: states SEEDS STEPS FOLDER
  SEEDS   A..B, or N for 1..N
  STEPS   the steps of each seed: a tenth from a fresh state, the others from random ones
  FOLDER  where to keep the states and frames that show a difference";

/// Steps from one random state.
const RUN: usize = 20;
/// In one of so many runs the judge checks itself too.
const CHECKED: usize = 16;
/// Differences that are told before the rest is left out.
const TOLD: u64 = 20;

struct Comparison {
    layout: Layout,
    bay: Bay,
    tally: Tally,
    /// The state that the last run ended with.
    last: Vec<u8>,
    folder: String,
}

/// Where a run starts and which frames it takes.
struct Run {
    words: String,
    start: View,
    profile: &'static str,
    seed: u64,
    steps: usize,
    check: bool,
}

fn main() -> ExitCode {
    let args: Vec<String> = std::env::args().skip(1).collect();
    let Some((first, last, steps, folder)) = parse(&args) else {
        eprintln!("{USAGE}");
        return ExitCode::from(2);
    };
    let began = Instant::now();
    let mut comparison = Comparison::new(folder);
    for seed in first..=last {
        comparison.seed(seed, steps);
    }
    if comparison.tally.differences >= TOLD {
        println!("no more was tried");
    }
    comparison.tally.print(began.elapsed().as_secs());
    ExitCode::from(u8::from(!comparison.tally.good()))
}

fn parse(args: &[String]) -> Option<(u64, u64, usize, String)> {
    let [seeds, steps, folder] = args else { return None };
    let (first, last) = seeds.split_once("..").unwrap_or(("1", seeds));
    Some((first.parse().ok()?, last.parse().ok()?, steps.parse().ok()?, folder.clone()))
}

impl Comparison {
    fn new(folder: String) -> Self {
        let (layout, bay) = (Layout::new(&LIMITS), Bay::new());
        assert_eq!(layout.length, bay.state.len(), "the layout's length and the archive's");
        assert!(layout.write(&Engine::new(false).view()) == bay.state, "the bytes of a fresh state");
        Self { layout, last: bay.state.clone(), bay, tally: Tally::default(), folder }
    }

    /// The runs of one seed.
    fn seed(&mut self, seed: u64, steps: usize) {
        let mut rng = Rng::new(seed);
        let frame = [4];
        self.told(&format!("seed {seed}, wrong lengths"), &self.last.clone(), &frame, &bay::lengths(&frame));
        let (mut n, mut left) = (0, steps);
        while left > 0 && self.tally.differences < TOLD {
            let profile = rng.pick(&PROFILES).name;
            let (kind, start) = if n == 0 { ("fresh", Engine::new(false).view()) } else { random_start(&mut rng) };
            let words = format!("seed {seed}, run {n} ({kind}, {profile})");
            let most = if n == 0 { steps.div_ceil(10) } else { RUN };
            let run = Run { words, start, profile, seed: rng.next(), steps: left.min(most), check: n % CHECKED == 1 };
            self.run(&run, &mut rng);
            n += 1;
            left -= run.steps;
        }
    }

    fn run(&mut self, run: &Run, rng: &mut Rng) {
        let saved = save(&run.start);
        let load = |check| Engine::load(&saved, check).expect("a well-formed state");
        let lines = frames::generate(load(false), run.seed, run.steps, run.profile, None).expect("a profile");
        // A line that stands for no bytes is as good a frame as any other bytes.
        let frames: Vec<Vec<u8>> = lines.into_iter().map(|line| engine::bytes(&line).unwrap_or(line)).collect();
        let bytes = self.layout.write(&run.start);
        self.tally.runs += 1;
        self.tally.checked += u64::from(run.check);
        if self.steps(run, load(run.check), &bytes, &frames) {
            let end = self.bay.state.clone();
            self.damages(run, rng, &[bytes, end.clone()], &frames);
            self.last = end;
        }
    }

    /// Steps through the frames. False at a difference.
    fn steps(&mut self, run: &Run, mut engine: Engine, start: &[u8], frames: &[Vec<u8>]) -> bool {
        self.bay.state.clone_from_slice(start);
        for (n, frame) in frames.iter().enumerate() {
            let before = self.bay.state.clone();
            let want = self.want(&mut engine, frame, &before);
            if !self.holds(&format!("{}, step {n}", run.words), &before, frame, want) {
                return false;
            }
        }
        let found = self.bay.reads(Some(&engine.view()));
        let end = self.bay.state.clone();
        self.told(&format!("{}, at its end", run.words), &end, &frames[0], &found)
    }

    /// As many damaged copies of these states as the run had steps.
    fn damages(&mut self, run: &Run, rng: &mut Rng, states: &[Vec<u8>], frames: &[Vec<u8>]) {
        for _ in frames {
            let good = rng.pick(states);
            let Some((kind, bytes)) = damage(&self.layout, rng, good, &self.last) else { continue };
            let words = format!("{}, damaged ({})", run.words, KINDS[kind].0);
            let (frame, reads) = (rng.pick(frames), rng.chance(5));
            if !self.damaged(&words, kind, &bytes, frame, reads) {
                return;
            }
        }
    }

    /// A step from damaged bytes. False at a difference.
    fn damaged(&mut self, words: &str, kind: usize, bytes: &[u8], frame: &[u8], reads: bool) -> bool {
        let view = self.layout.state(bytes);
        self.tally.damaged(kind, view.is_some());
        self.bay.state.clone_from_slice(bytes);
        let found = if reads { self.bay.reads(view.as_ref()) } else { Vec::new() };
        let want = match &view {
            None => Some(Want { code: STATE, effects: Vec::new(), state: bytes.to_vec() }),
            Some(view) => {
                let mut engine = Engine::load(&save(view), false).expect("a well-formed state");
                self.want(&mut engine, frame, bytes)
            }
        };
        self.told(words, bytes, frame, &found) && self.holds(words, bytes, frame, want)
    }

    /// What the published engine gives, or nothing where the judge stops: the two engines in it differ, or a demand fails.
    fn want(&self, engine: &mut Engine, frame: &[u8], before: &[u8]) -> Option<Want> {
        let answer = catch_unwind(AssertUnwindSafe(|| engine.step(frame))).ok()?;
        let state = if answer.number == 0 { self.layout.write(&engine.view()) } else { before.to_vec() };
        Some(Want { code: answer.number, effects: answer.bytes.concat(), state })
    }

    /// Takes the step. False at a difference.
    fn holds(&mut self, words: &str, before: &[u8], frame: &[u8], want: Option<Want>) -> bool {
        let found = match want {
            None => vec!["the judge stopped, as it says above".to_owned()],
            Some(want) => {
                self.tally.answered(&want);
                self.bay.step(&self.layout, frame, &want)
            }
        };
        self.told(words, before, frame, &found)
    }

    /// Tells what was found, and keeps the state and the frame. True if there is nothing to tell.
    fn told(&mut self, words: &str, before: &[u8], frame: &[u8], found: &[String]) -> bool {
        if found.is_empty() {
            return true;
        }
        self.tally.differences += 1;
        let file = format!("{}/states-{}", self.folder, self.tally.differences);
        let state = self.layout.state(before);
        let digits = state.as_ref().map_or_else(|| hex(before), |view| hex(&save(view)));
        fs::write(&file, format!("{digits}\n{}\n", hex(frame))).expect("a file in the folder");
        println!("{words}:\n  {}", found.join("\n  "));
        match state {
            Some(_) => println!("  tail -n 1 {file} | target/compare/judge state --state \"$(head -n 1 {file})\""),
            None => println!("  the state's bytes and the frame are in {file}"),
        }
        false
    }
}

/// A random state, or one on the brink.
fn random_start(rng: &mut Rng) -> (&'static str, View) {
    let mut view = frames::random_state(rng.next());
    if !rng.chance(10) {
        return ("wild", view);
    }
    brink::to_the_brink(&mut view, rng);
    ("brink", view)
}
