//! The engine: document 01's example, what refusals leave, what can be read of a state, and whole runs.

use std::collections::BTreeMap;

use crate::random::Random;
use bay::*;

fn bytes(hexadecimal: &str) -> Vec<u8> {
    let digits = |at| u8::from_str_radix(&hexadecimal[at..at + 2], 16).expect("two digits");
    (0..hexadecimal.len()).step_by(2).map(digits).collect()
}

fn done(request: u64, changes: Vec<Change>, cursor: &str) -> Input {
    let next = Next::Done(Cursor::new(cursor));
    Input::Outcome {
        request: RequestId::new(request),
        outcome: Outcome::Listed(Page { changes, next }),
    }
}

fn deletion(id: &str, resource: &str, expires_at: Option<Timestamp>) -> Input {
    Input::Edit(Edit {
        id: EditId::new(id),
        resource: ResourceId::new(resource),
        operation: Operation::Delete,
        role: Role::Owner,
        expires_at,
    })
}

fn event(id: &str, revision: &str) -> ProviderEvent {
    ProviderEvent {
        ids: ProviderIds::new(Provider::Google, id),
        revision: Some(ProviderRevision::new(revision)),
        mapper_version: MapperVersion::new(1),
        fields: NormalizedEvent::new(EventTimes::new(7)),
        passthrough: Passthrough::new(0),
    }
}

fn listed(id: &str, revision: &str) -> Change {
    Change::Upsert {
        resource: ResourceId::new(id),
        revision: ProviderRevision::new(revision),
        event: Some(event(id, revision)),
    }
}

#[test]
fn the_example_frame_by_frame() {
    let mut engine = Engine::fresh();
    for (frame, effects) in [
        ("00", "0000000000000000000000"),
        ("0200000000000000000000010141", "0100"),
        ("030000000000000005", ""),
        ("01016101720200010000000000000005", "01040161"),
    ] {
        assert_eq!(
            engine.step_frame(&bytes(frame)),
            Ok(bytes(effects).as_slice())
        );
    }
    assert_eq!(engine.step_frame(&bytes("05")), Err(Refusal::Frame));
}

#[test]
fn the_example_with_types() {
    let mut engine = Engine::fresh();
    let list = Effect::Request {
        id: RequestId::new(0),
        request: Request::List {
            from: ListFrom::Start,
        },
    };
    let now = Timestamp::new(5);
    let edit = EditId::new("a");
    for (input, effects) in [
        (Input::Sync, vec![list]),
        (done(0, vec![], "A"), vec![Effect::Notify(Notice::Synced)]),
        (Input::Tick { now }, vec![]),
        (
            deletion("a", "r", Some(now)),
            vec![Effect::Notify(Notice::Expired { edit })],
        ),
    ] {
        assert_eq!(engine.step(&input), Ok(effects));
    }
    assert_eq!(engine.cursor(), Some(Cursor::new("A")));
}

#[test]
fn a_fresh_engine_is_empty() {
    let engine = Engine::fresh();
    assert_eq!(engine.cursor(), None);
    assert_eq!(engine.records(), BTreeMap::new());
    assert_eq!(engine.in_flight_at(0), None);
    assert_eq!(engine.in_flight_at(usize::MAX), None);
    assert_eq!(engine.record_at(usize::MAX), None);
    assert_eq!(engine.waiting_count(&ResourceId::new("r")), 0);
    assert_eq!(engine, Engine::default());
}

#[test]
fn what_was_listed_and_handed_in_can_be_read() {
    let mut engine = Engine::fresh();
    engine.step(&Input::Sync).expect("accepted");
    let changes = vec![listed("truck", "1"), listed("lorry", "2")];
    engine.step(&done(0, changes, "é")).expect("accepted");
    let (lorry, truck) = (ResourceId::new("lorry"), ResourceId::new("truck"));
    assert_eq!(engine.cursor(), Some(Cursor::new("é")));
    assert_eq!(
        engine.record_at(0),
        Some((lorry.clone(), event("lorry", "2")))
    );
    assert_eq!(
        engine.record_at(1),
        Some((truck.clone(), event("truck", "1")))
    );
    assert_eq!(engine.record_at(2), None);
    for id in ["x", "y", "z"] {
        engine.step(&deletion(id, "truck", None)).expect("accepted");
    }
    engine
        .step(&deletion("w", "lorry", None))
        .expect("accepted");
    assert_eq!(engine.waiting_count(&truck), 3);
    assert_eq!(engine.waiting_count(&lorry), 1);
    let numbers: Vec<_> = engine.in_flight().map(RequestId::get).collect();
    assert_eq!(numbers, [1, 2]);
}

#[test]
fn a_full_table_is_refused_and_the_state_stays() {
    let mut engine = Engine::fresh();
    for id in ["a", "b", "c", "d", "e", "f"] {
        engine.step(&deletion(id, id, None)).expect("accepted");
    }
    let before = engine.as_bytes().to_vec();
    let refusal = engine.step(&deletion("g", "g", None)).unwrap_err();
    assert_eq!((refusal, refusal.number()), (Refusal::Table, 5));
    assert_eq!(engine.as_bytes(), before);
}

#[test]
fn too_many_attendees_are_refused_and_the_state_stays() {
    let with = |names: std::ops::Range<u8>| {
        let mut fields = NormalizedEvent::new(EventTimes::new(7));
        fields.attendees = names.map(|n| Attendee::new(n.to_string())).collect();
        fields
    };
    let mut engine = Engine::fresh();
    let update = Input::Edit(Edit {
        id: EditId::new("e"),
        resource: ResourceId::new("r"),
        operation: Operation::Update {
            base: with(0..0),
            ours: with(0..5),
        },
        role: Role::Owner,
        expires_at: None,
    });
    engine.step(&update).expect("accepted");
    let before = engine.clone();
    let mut theirs = event("r", "1");
    theirs.fields = with(5..9);
    let read = Input::Outcome {
        request: RequestId::new(0),
        outcome: Outcome::Read(Some(theirs)),
    };
    let refusal = engine.step(&read).unwrap_err();
    assert_eq!((refusal, refusal.number()), (Refusal::Attendees, 6));
    assert_eq!(engine, before);
}

#[test]
fn a_state_of_another_length_is_refused() {
    let bytes = Engine::fresh().as_bytes().to_vec();
    let refusal = |bytes: &[u8]| Engine::from_bytes(bytes).unwrap_err();
    assert_eq!(refusal(&bytes[1..]), Refusal::Length);
    assert_eq!(refusal(&[&bytes[..], &[0]].concat()), Refusal::Length);
    assert_eq!(refusal(&[]), Refusal::Length);
    assert_eq!(Refusal::Length.number(), 1);
}

#[test]
fn bytes_that_are_no_state_are_refused() {
    let mut bytes = Engine::fresh().as_bytes().to_vec();
    assert!(Engine::from_bytes(&bytes).is_ok());
    bytes[0] = 11;
    let refusal = Engine::from_bytes(&bytes).unwrap_err();
    assert_eq!((refusal, refusal.number()), (Refusal::State, 2));
}

/// Answers to the requests that are out, and random inputs between: every effect can be read, refusals keep the state, and an
/// engine made of the state's bytes goes on in the same way.
#[test]
fn whole_runs() {
    let mut notices = [0; 6];
    for seed in 0..40 {
        let mut random = Random::new(seed);
        let mut engine = Engine::fresh();
        for _ in 0..100 {
            let input = next_input(&mut random, &engine);
            let before = engine.as_bytes().to_vec();
            let mut other = Engine::from_bytes(&before).expect("a state");
            let answer = engine.step(&input);
            assert_eq!(other.step(&input), answer);
            assert_eq!(other, engine);
            match answer {
                Ok(effects) => count_notices(&effects, &mut notices),
                Err(_) => assert_eq!(engine.as_bytes(), before),
            }
        }
    }
    assert!(notices.iter().all(|&told| told > 0), "{notices:?}");
}

fn next_input(random: &mut Random, engine: &Engine) -> Input {
    let out: Vec<_> = engine.in_flight().collect();
    if out.is_empty() || random.below(4) == 0 {
        return random.input();
    }
    Input::Outcome {
        request: out[random.below(out.len())],
        outcome: random.outcome(),
    }
}

fn count_notices(effects: &[Effect], notices: &mut [usize; 6]) {
    for effect in effects {
        let bytes = effect.encode().expect("it was read");
        if let Effect::Notify(_) = effect {
            notices[usize::from(bytes[1])] += 1;
        }
    }
}
