//! Nanoseconds a step of this engine and of the published Rust, on the same frames in one run.
use bay::Engine;
use calendar_sync_engine as published;
use std::hint::black_box;
use std::path::Path;
use std::time::Instant;

/// Steps timed together. The least time of each such run over all rounds counts, so that other load hardly does.
const RUN: usize = 64;
const ROUNDS: usize = 20;

/// The buffers of a step, with nothing to do but what every accepted step does.
struct Floor {
    state: Vec<u8>,
    work: Vec<u8>,
    output: Vec<u8>,
}

impl Floor {
    fn new() -> Self {
        let size = Engine::fresh().as_bytes().len();
        Self { state: vec![0; size], work: vec![0; size], output: vec![0; 32_768] }
    }

    /// The state copied to the work buffer and back, then work and output zeroed.
    fn step(&mut self) {
        self.work.copy_from_slice(black_box(&self.state));
        self.state.copy_from_slice(black_box(&self.work));
        black_box(&mut self.work).fill(0);
        black_box(&mut self.output).fill(0);
    }
}

/// Decodes, applies and encodes, as this engine does.
fn published_step(state: &mut published::SyncState, frame: &[u8]) -> usize {
    let input = published::codec::decode(frame).expect("an input frame");
    state.apply(input).iter().map(|effect| published::codec::encode(effect).len()).sum()
}

fn unhex(line: &[u8]) -> Option<Vec<u8>> {
    if line.len() % 2 != 0 {
        return None;
    }
    line.chunks(2).map(|pair| u8::from_str_radix(std::str::from_utf8(pair).ok()?, 16).ok()).collect()
}

/// The frames of a file that this engine accepts, so that both engines go through the same states.
fn accepted(path: &str) -> Vec<Vec<u8>> {
    let text = std::fs::read(path).expect("a file of frames");
    let mut engine = Engine::fresh();
    text.split(|&byte| byte == b'\n').filter_map(unhex).filter(|frame| engine.step_frame(frame).is_ok()).collect()
}

fn time(best: &mut f64, work: impl FnOnce()) {
    let began = Instant::now();
    work();
    *best = best.min(began.elapsed().as_nanos() as f64);
}

/// Nanoseconds a step: ours, the published engine's, the floor, and a check of the state, which every reading function makes.
fn measure(frames: &[Vec<u8>]) -> [f64; 4] {
    let mut best = vec![[f64::MAX; 4]; frames.len().div_ceil(RUN)];
    for _ in 0..ROUNDS {
        let mut ours = Engine::fresh();
        let mut theirs = published::SyncState::new();
        let mut floor = Floor::new();
        for (run, [a, b, c, d]) in frames.chunks(RUN).zip(&mut best) {
            time(a, || run.iter().for_each(|frame| assert!(ours.step_frame(frame).is_ok())));
            time(b, || {
                run.iter().for_each(|frame| _ = black_box(published_step(&mut theirs, frame)));
            });
            time(c, || run.iter().for_each(|_| floor.step()));
            time(d, || run.iter().for_each(|_| _ = black_box(ours.cursor())));
        }
    }
    [0, 1, 2, 3].map(|way| best.iter().map(|run| run[way]).sum::<f64>() / frames.len() as f64)
}

fn main() {
    println!("profile    steps   ours ns   published ns   times   floor ns   times   check ns");
    for path in std::env::args().skip(1) {
        let frames = accepted(&path);
        let [ours, theirs, floor, check] = measure(&frames);
        let name = Path::new(&path).file_name().expect("a file's name").to_string_lossy().into_owned();
        let (n, a, b) = (frames.len(), ours / theirs, ours / floor);
        println!("{name:9} {n:6} {ours:9.0} {theirs:14.0} {a:7.1} {floor:10.0} {b:7.1} {check:10.0}");
    }
}
