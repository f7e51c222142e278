//! Both engines side by side, and document 01's program.
use crate::limited::limits::{self, Refusal};
use crate::limited::{self, Effect, Failure, Input, Notice, Outcome, codec};
use crate::plain;
use crate::view::{Purpose, View, hex};
use std::panic::{AssertUnwindSafe, catch_unwind, resume_unwind};

pub struct Engine {
    pub limited: limited::SyncState,
    pub plain: plain::SyncState,
    /// Whether to run the plain engine too, and to look for faults after each step.
    pub check: bool,
    pub limits: [usize; 9],
}

/// What one call gives.
pub struct Answer {
    pub number: u8,
    pub effects: Vec<Effect>,
    pub bytes: Vec<Vec<u8>>,
    pub refusal: Option<Refusal>,
    /// Whether the step refused with 5 would have ended within the limits all the same.
    pub passing: bool,
}

impl Answer {
    fn refused(number: u8, refusal: Option<Refusal>) -> Self {
        Self { number, effects: Vec::new(), bytes: Vec::new(), refusal, passing: false }
    }

    /// The answer line, then one line an effect.
    pub fn lines(&self) -> Vec<u8> {
        let mut out = format!("{:02x}{:04x}\n", self.number, self.bytes.len());
        for e in &self.bytes {
            out.push_str(&hex(e));
            out.push('\n');
        }
        out.into_bytes()
    }
}

/// The bytes that these digits stand for.
pub fn bytes(digits: &[u8]) -> Option<Vec<u8>> {
    let digit = |b: u8| match b {
        b'0'..=b'9' => Some(b - b'0'),
        b'a'..=b'f' => Some(b - b'a' + 10),
        _ => None,
    };
    digits.chunks(2).map(|p| Some(digit(p[0])? << 4 | digit(*p.get(1)?)?)).collect()
}

/// The frame of a line without its line feed.
pub fn frame(line: &[u8]) -> Option<Vec<u8>> {
    if line.is_empty() || line.len() > 16_384 { None } else { bytes(line) }
}

impl Engine {
    pub fn new(check: bool) -> Self {
        let (limited, plain) = (limited::SyncState::new(), plain::SyncState::new());
        Self { limited, plain, check, limits: limits::LIMITS }
    }

    /// From a saved state.
    pub fn load(saved: &[u8], check: bool) -> Result<Self, String> {
        let view: View = serde::load(saved).ok_or("not the form of a state")?;
        if let Some(fault) = view.fault(&limits::LIMITS) {
            return Err(fault);
        }
        let limited = serde::load(saved).ok_or("limited")?;
        let plain = serde::load(saved).ok_or("plain")?;
        assert_eq!(serde::save(&limited), saved);
        assert_eq!(serde::save(&plain), saved);
        Ok(Self { limited, plain, check, limits: limits::LIMITS })
    }

    pub fn view(&self) -> View {
        serde::load(&serde::save(&self.limited)).expect("the state's own form")
    }

    pub fn line(&mut self, line: &[u8]) -> Answer {
        match frame(line) {
            Some(frame) => self.step(&frame),
            None => Answer::refused(3, None),
        }
    }

    pub fn step(&mut self, frame: &[u8]) -> Answer {
        let decoded = codec::decode(frame);
        if self.check {
            same_readers(frame, decoded.as_ref());
        }
        let Some(input) = decoded else {
            return Answer::refused(3, None);
        };
        let before = self.check.then(|| self.view());
        let state = self.limited.clone();
        match catch_unwind(AssertUnwindSafe(|| limited::step(state, input.clone()))) {
            Err(cause) => match cause.downcast_ref::<Refusal>() {
                Some(refusal) => {
                    let mut answer = Answer::refused(refusal.number, Some(*refusal));
                    answer.passing = before.is_some_and(|before| self.passes(&before, *refusal, frame));
                    answer
                }
                None => resume_unwind(cause),
            },
            Ok((state, effects)) => {
                self.limited = state;
                let bytes = effects.iter().map(codec::encode).collect();
                let answer = Answer { number: 0, effects, bytes, refusal: None, passing: false };
                if let Some(before) = before {
                    self.check_step(&before, &input, frame, &answer);
                }
                answer
            }
        }
    }

    /// Whether a step refused with 5 would end within the limits.
    fn passes(&self, before: &View, refusal: Refusal, frame: &[u8]) -> bool {
        let near_last = before.next_request > u64::MAX - 100;
        if refusal.number != 5 || refusal.table == "absorbed" || near_last {
            return false;
        }
        let input = plain::codec::decode(frame).expect("the same frame");
        let (end, _) = plain::step(self.plain.clone(), input);
        let end: View = serde::load(&serde::save(&end)).expect("the state's own form");
        end.fault(&self.limits).is_none()
    }

    /// Runs the plain engine too, and requires equal effects and states, well-formedness and demand 3.
    fn check_step(&mut self, before: &View, input: &Input, frame: &[u8], answer: &Answer) {
        let input2 = plain::codec::decode(frame).expect("the same frame");
        let (state, effects2) = plain::step(std::mem::take(&mut self.plain), input2);
        self.plain = state;
        let bytes2: Vec<Vec<u8>> = effects2.iter().map(plain::codec::encode).collect();
        assert_eq!(answer.bytes, bytes2, "plain and limited effects differ");
        assert_eq!(serde::save(&self.limited), serde::save(&self.plain), "plain and limited states differ");
        let after = self.view();
        assert_eq!(serde::save(&after), serde::save(&self.limited));
        let fault = match after.fault(&self.limits) {
            Some(fault) => Some(format!("well-formedness is lost: {fault}")),
            None => demand3(before, input, &answer.effects, &after),
        };
        if let Some(fault) = fault {
            panic!("{fault}\nbefore:\n{}input {input:?}\nafter:\n{}", before.dump(), after.dump());
        }
        answer.effects.iter().for_each(same_writers);
    }
}

/// Both readers agree on the frame, and the derived writer gives it back.
fn same_readers(frame: &[u8], decoded: Option<&Input>) {
    let derived: Option<Input> = serde::load(frame);
    assert_eq!(decoded, derived.as_ref(), "the two readers differ on {}", hex(frame));
    if let Some(input) = decoded {
        assert_eq!(serde::save(input), frame, "the reader and the derived writer differ");
    }
}

/// The derived writer agrees on the parts of an effect that derive it.
fn same_writers(e: &Effect) {
    let part = match e {
        Effect::Request { request, .. } => serde::save(request),
        Effect::Notify(Notice::Applied { edit, conflicts, refused }) => {
            [serde::save(edit), serde::save(conflicts), serde::save(refused)].concat()
        }
        _ => Vec::new(),
    };
    assert!(codec::encode(e).ends_with(&part), "the two writers differ");
}

/// What of demand 3 fails over one accepted call.
fn demand3(before: &View, input: &Input, effects: &[Effect], after: &View) -> Option<String> {
    let mut sum = before.ids();
    if let Input::Edit(edit) = input {
        *sum.entry(edit.id.as_str().to_owned()).or_insert(0) += 1;
    }
    for e in effects {
        if let Effect::Notify(Notice::Applied { edit, .. } | Notice::Rejected { edit, .. } | Notice::Expired { edit }) =
            e
        {
            *sum.entry(edit.as_str().to_owned()).or_insert(0) -= 1;
        }
    }
    for (id, n) in after.ids() {
        *sum.entry(id).or_insert(0) -= n;
    }
    if let Some((id, n)) = sum.iter().find(|(_, n)| **n != 0) {
        return Some(format!("demand 3 fails: id {id:?} is off by {n}"));
    }
    let synced = effects.iter().any(|e| matches!(e, Effect::Notify(Notice::Synced)));
    let expired = matches!(input, Input::Outcome { request, outcome: Outcome::Failed(Failure::CursorExpired) }
        if before.pass.is_some() && before.in_flight.get(request) == Some(&Purpose::List));
    (before.cursor != after.cursor && !synced && !expired).then(|| "demand 3 fails: the cursor moved".to_owned())
}
