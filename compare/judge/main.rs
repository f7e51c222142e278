//! The judge: document 01's program over the published Rust, frames to try it with, and checks.
use judge::cover::{self, Cover};
use judge::engine::{self, Answer, Engine};
use judge::view::hex;
use judge::{attendee, checks, clerks, frames, limited, sender};
use std::io::{self, BufRead, Write};
use std::process::ExitCode;

const USAGE: &str = "usage:
  judge run   [--state HEX] [--limits a,b,..] [--fast]  frames on standard input, answers on standard output
  judge state [--state HEX] [--limits a,b,..]           the same, and each state on standard error
  judge look  [--state HEX]                    run, and after each answer one line of what can be read: the cursor (an
              option), the records (a count byte, then name and event in key order), the numbers in flight (a count
              byte, then each), the queues (a count byte, then name and waiting count in key order)
  judge save  [--state HEX]                    only the last state, as one hexadecimal line
  judge gen   --seed S --steps N [--profile P] [--state HEX]  frames on standard output
              (P: mixed queues passes merges limits damage)
  judge wild  --seed S                         a random well-formed state, as one hexadecimal line for --state
  judge cover --seed A..B --steps N [--profile P] [--wild]  the situations that these frames reach
  judge reach --seed A..B --steps N [--profile P]  for each run the listed situations that it reaches, a line each:
              profile, seed, the frame that first reaches it, situation; then, after '-', the ones that no run reaches
  judge check [--frames]                       document 01's lines, against the published Rust; with the frames used
  judge attendee [--seed S] [--merges N]       whether an attendee's merge changes only the writer's own answer: every
              merge of lists of at most two, and N random ones (500000)
  judge sender                                 uses of a sender on standard input, answers on standard output
  judge sender-gen --seed S --steps N          random uses for it, some lines damaged
  judge clerks                                 two clerks' frame as the one line of standard input, who can force what
  judge clerks-gen --seed S                    a random input for it, some damaged";

struct Args(Vec<String>);

impl Args {
    fn value(&self, name: &str) -> Option<&str> {
        let at = self.0.iter().position(|a| a == name)?;
        Some(self.0.get(at + 1).unwrap_or_else(|| die(USAGE)))
    }

    fn number(&self, name: &str, default: u64) -> u64 {
        self.value(name).map_or(default, |v| v.parse().unwrap_or_else(|_| die(USAGE)))
    }

    fn has(&self, name: &str) -> bool {
        self.0.iter().any(|a| a == name)
    }

    fn profile(&self) -> &str {
        self.value("--profile").unwrap_or("mixed")
    }

    fn steps(&self) -> usize {
        self.number("--steps", 1000) as usize
    }
}

fn die(message: &str) -> ! {
    eprintln!("{message}");
    std::process::exit(2)
}

fn main() -> ExitCode {
    let mut args = std::env::args().skip(1);
    let mode = args.next().unwrap_or_else(|| die(USAGE));
    let args = Args(args.collect());
    let mut out = io::BufWriter::new(io::stdout().lock());
    let done = match mode.as_str() {
        "run" | "state" | "save" | "look" => run(&mode, &args, &mut out),
        "gen" => generate(&args, &mut out),
        "wild" => wild(&args, &mut out),
        "cover" => cover(&args, &mut out),
        "reach" => reach(&args, &mut out),
        "check" => checks::run(&mut out, args.has("--frames")),
        "attendee" => attendee::run(&mut out, args.number("--seed", 1), args.number("--merges", 500_000) as usize),
        "sender" => sender::run(&mut out),
        "sender-gen" => sender::generate(&mut out, args.number("--seed", 1), args.steps()),
        "clerks" => clerks::run(&mut out),
        "clerks-gen" => out.write_all(&frames::clerks_input(args.number("--seed", 1))).map(|()| true),
        _ => die(USAGE),
    };
    // Only a reader that has gone away makes writing fail.
    match done.and_then(|good| out.flush().map(|()| good)) {
        Ok(good) => ExitCode::from(u8::from(!good)),
        Err(_) => ExitCode::from(141),
    }
}

fn start(args: &Args) -> Engine {
    let mut engine = match args.value("--state") {
        None => Engine::new(true),
        Some(digits) => {
            let bytes = engine::bytes(digits.as_bytes()).unwrap_or_else(|| die("--state: not hexadecimal"));
            Engine::load(&bytes, true).unwrap_or_else(|e| die(&format!("--state: {e}")))
        }
    };
    if let Some(list) = args.value("--limits") {
        let list: Vec<usize> = list.split(',').map(|n| n.parse().unwrap_or_else(|_| die(USAGE))).collect();
        engine.limits = list.try_into().unwrap_or_else(|_| die("--limits: nine numbers"));
        limited::limits::set(engine.limits);
    }
    engine.check = !args.has("--fast");
    engine
}

fn run(mode: &str, args: &Args, out: &mut impl Write) -> io::Result<bool> {
    let mut engine = start(args);
    // Each line without its line feed; the last may lack it.
    for (n, line) in io::stdin().lock().split(b'\n').enumerate() {
        let line = line?;
        let answer = engine.line(&line);
        if mode != "save" {
            out.write_all(&answer.lines())?;
        }
        if mode == "look" {
            writeln!(out, "{}", hex(&engine.view().readable()))?;
        }
        if mode == "state" {
            out.flush()?;
            describe(n + 1, &line, &answer, &engine);
        }
    }
    if mode == "save" {
        writeln!(out, "{}", hex(&serde::save(&engine.limited)))?;
    }
    Ok(true)
}

/// A step in words, on standard error.
fn describe(n: usize, line: &[u8], answer: &Answer, engine: &Engine) {
    eprint!("line {n}: answer {}", answer.number);
    if let Some(r) = answer.refusal {
        let passing = if answer.passing { ", though the end would fit" } else { "" };
        eprint!(" ({} at sync.rs:{}{passing})", r.table, r.line);
    }
    eprintln!();
    if let Some(input) = engine::frame(line).and_then(|f| limited::codec::decode(&f)) {
        eprintln!("  input {input:?}");
    }
    for e in &answer.effects {
        eprintln!("  effect {e:?}");
    }
    eprint!("{}", engine.view().dump());
}

fn generate(args: &Args, out: &mut impl Write) -> io::Result<bool> {
    let mut engine = start(args);
    engine.check = false;
    let lines = frames::generate(engine, args.number("--seed", 1), args.steps(), args.profile(), None);
    for line in lines.unwrap_or_else(|| die(USAGE)) {
        out.write_all(&line)?;
        out.write_all(b"\n")?;
    }
    Ok(true)
}

fn wild(args: &Args, out: &mut impl Write) -> io::Result<bool> {
    let view = frames::random_state(args.number("--seed", 1));
    writeln!(out, "{}", hex(&serde::save(&view)))?;
    Ok(true)
}

/// The runs that the arguments name, each a profile and a seed.
fn runs(args: &Args) -> Vec<(&str, u64)> {
    let seeds = args.value("--seed").unwrap_or("1..10");
    let (a, b) = seeds.split_once("..").unwrap_or((seeds, seeds));
    let (Ok(a), Ok(b)) = (a.parse::<u64>(), b.parse::<u64>()) else { die(USAGE) };
    let profiles: Vec<&str> = match args.value("--profile") {
        Some(p) => vec![p],
        None => frames::PROFILES.iter().map(|p| p.name).collect(),
    };
    (a..=b).flat_map(|seed| profiles.clone().into_iter().map(move |p| (p, seed))).collect()
}

fn cover(args: &Args, out: &mut impl Write) -> io::Result<bool> {
    let mut cover = Cover::default();
    for (profile, seed) in runs(args) {
        let engine = if args.has("--wild") {
            Engine::load(&serde::save(&frames::random_state(seed)), true).expect("a well-formed state")
        } else {
            Engine::new(true)
        };
        frames::generate(engine, seed, args.steps(), profile, Some(&mut cover)).unwrap_or_else(|| die(USAGE));
    }
    cover.print(out)
}

fn reach(args: &Args, out: &mut impl Write) -> io::Result<bool> {
    let mut missed = cover::wanted();
    for (profile, seed) in runs(args) {
        let mut cover = Cover::default();
        frames::generate(Engine::new(true), seed, args.steps(), profile, Some(&mut cover))
            .unwrap_or_else(|| die(USAGE));
        missed.retain(|w| cover.first(w).is_none());
        for situation in cover::wanted() {
            if let Some(frame) = cover.first(&situation) {
                writeln!(out, "{profile} {seed} {frame} {situation}")?;
            }
        }
    }
    for situation in &missed {
        writeln!(out, "- {situation}")?;
    }
    Ok(missed.is_empty())
}
