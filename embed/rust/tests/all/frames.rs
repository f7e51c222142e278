//! Values become bytes and come back; what fits no frame is refused, and what is no frame is refused exactly where the engine does.

use std::collections::BTreeSet;

use crate::random::Random;
use bay::*;

/// Encodes, decodes and encodes again; gives the bytes.
fn round_trip<T: Frame + PartialEq + std::fmt::Debug>(value: &T) -> Vec<u8> {
    let bytes = value.encode().expect("it fits");
    let back = T::decode(&bytes).expect("it can be read");
    assert_eq!(&back, value);
    assert_eq!(back.encode().as_ref(), Ok(&bytes));
    bytes
}

/// Which places of the first bytes were met: a case, and the case of what it holds.
fn cases(frames: &[Vec<u8>], at: usize) -> BTreeSet<(u8, Option<u8>)> {
    let met = |frame: &Vec<u8>| (frame[0], frame.get(at).copied());
    frames.iter().map(met).collect()
}

#[test]
fn every_kind_of_input_comes_back() {
    let mut random = Random::new(1);
    let frames: Vec<_> = (0..500).map(|_| round_trip(&random.input())).collect();
    let kinds: BTreeSet<u8> = frames.iter().map(|frame| frame[0]).collect();
    assert_eq!(kinds, (0..5).collect());
    let outcomes = cases(&frames, 9);
    assert!((0..5).all(|outcome| outcomes.contains(&(2, Some(outcome)))));
}

#[test]
fn every_kind_of_effect_comes_back() {
    let mut random = Random::new(2);
    let frames: Vec<_> = (0..500).map(|_| round_trip(&random.effect())).collect();
    let requests = cases(&frames, 9);
    assert!((0..6).all(|request| requests.contains(&(0, Some(request)))));
    let notices = cases(&frames, 1);
    assert!((0..6).all(|notice| notices.contains(&(1, Some(notice)))));
}

#[test]
fn effects_stand_back_to_back() {
    let mut random = Random::new(3);
    let effects: Vec<_> = (0..20).map(|_| random.effect()).collect();
    let mut bytes = Vec::new();
    for effect in &effects {
        effect.write(&mut bytes).expect("it fits");
    }
    assert_eq!(Effect::decode_all(&bytes), Ok(effects));
    bytes.pop();
    assert!(Effect::decode_all(&bytes).is_err());
}

// ---- the order of the fields, byte by byte

fn number(low: u8) -> [u8; 8] {
    [0, 0, 0, 0, 0, 0, 0, low]
}

/// An event with every field set, and its bytes.
fn full_event() -> (ProviderEvent, Vec<u8>) {
    let attendee = Attendee {
        address: "a".into(),
        name: Some("m".into()),
        role: AttendeeRole::Chair,
        participation: Participation::Tentative,
        kind: ParticipantKind::Unknown,
    };
    let organizer = Organizer {
        address: "o".into(),
        name: Some("n".into()),
    };
    let fields = NormalizedEvent {
        title: Some("t".into()),
        times: EventTimes::new(1),
        recurrence: Some(Recurrence::new(2)),
        organizer: Some(organizer),
        attendees: vec![attendee],
        location: Some("é".into()),
        description: Some(Description::new(3)),
        status: EventStatus::Cancelled,
        transparency: Transparency::Transparent,
        visibility: Visibility::Confidential,
        reminders: Reminders::new(4),
    };
    let event = ProviderEvent {
        ids: ProviderIds {
            provider: Provider::Ics,
            id: "i".into(),
            ical_uid: Some("u".into()),
            series_id: Some("s".into()),
        },
        revision: Some(ProviderRevision::new("v")),
        mapper_version: MapperVersion::new(0x0102_0304),
        fields,
        passthrough: Passthrough::new(5),
    };
    let parts = [
        &b"\x03\x01i\x01\x01u\x01\x01s"[..],
        b"\x01\x01v\x01\x02\x03\x04",
        b"\x01\x01t",
        &number(1),
        &[1],
        &number(2),
        b"\x01\x01o\x01\x01n",
        b"\x01\x01a\x01\x01m\x02\x03\x04",
        b"\x01\x02\xc3\xa9",
        &[1],
        &number(3),
        &[2, 1, 3],
        &number(4),
        &number(5),
    ];
    (event, parts.concat())
}

#[test]
fn an_event_has_its_fields_in_order() {
    let (event, bytes) = full_event();
    assert_eq!(round_trip(&event), bytes);
}

#[test]
fn an_input_has_its_fields_in_order() {
    let update = Input::Edit(Edit {
        id: EditId::new("e"),
        resource: ResourceId::new("r"),
        operation: Operation::Update {
            base: NormalizedEvent::new(EventTimes::new(1)),
            ours: NormalizedEvent::new(EventTimes::new(2)),
        },
        role: Role::Attendee {
            address: "a".into(),
        },
        expires_at: Some(Timestamp::new(-2)),
    });
    let plain = |times| [&[0][..], &number(times), &[0; 16]].concat();
    let parts = [
        &b"\x01\x01e\x01r\x01"[..],
        &plain(1),
        &plain(2),
        b"\x01\x01a\x01",
        &(-2_i64).to_be_bytes(),
    ];
    assert_eq!(round_trip(&update), parts.concat());
    let (event, bytes) = full_event();
    let change = Change::Upsert {
        resource: ResourceId::new("r"),
        revision: ProviderRevision::new("v"),
        event: Some(event),
    };
    let listed = Input::Outcome {
        request: RequestId::new(7),
        outcome: Outcome::Listed(Page {
            changes: vec![change],
            next: Next::More(Cursor::new("c")),
        }),
    };
    let parts = [
        &[2][..],
        &number(7),
        b"\x00\x01\x00\x01r\x01v\x01",
        &bytes,
        b"\x00\x01c",
    ];
    assert_eq!(round_trip(&listed), parts.concat());
}

#[test]
fn an_effect_has_its_fields_in_order() {
    let (event, bytes) = full_event();
    let write = Effect::Request {
        id: RequestId::new(7),
        request: Request::Update {
            resource: ResourceId::new("r"),
            if_match: Some(ProviderRevision::new("v")),
            event,
        },
    };
    let parts = [&[0][..], &number(7), b"\x04\x01r\x01\x01v", &bytes];
    assert_eq!(round_trip(&write), parts.concat());
    let conflict = Conflict {
        field: Field::Visibility,
        attendee: Some("a".into()),
        base: FieldValue::Visibility(Visibility::Public),
        ours: FieldValue::Visibility(Visibility::Private),
        theirs: FieldValue::Visibility(Visibility::Default),
    };
    let refused = Refused {
        field: Field::Reminders,
        attendee: Some("b".into()),
    };
    let applied = Effect::Notify(Notice::Applied {
        edit: EditId::new("e"),
        conflicts: vec![conflict],
        refused: vec![refused],
    });
    let bytes = b"\x01\x02\x01e\x01\x09\x01\x01a\x09\x01\x09\x02\x09\x00\x01\x0a\x01\x01b";
    assert_eq!(round_trip(&applied), bytes);
    let remapped = Effect::Notify(Notice::Remapped {
        from: ResourceId::new("f"),
        to: ResourceId::new("t"),
    });
    assert_eq!(round_trip(&remapped), b"\x01\x05\x01f\x01t");
}

// ---- what fits no frame

fn tick(milliseconds: i64) -> Input {
    let now = Timestamp::new(milliseconds);
    Input::Tick { now }
}

fn deletion(id: &str, resource: &str) -> Edit {
    Edit {
        id: EditId::new(id),
        resource: ResourceId::new(resource),
        operation: Operation::Delete,
        role: Role::Owner,
        expires_at: None,
    }
}

fn failed(reason: String) -> Input {
    Input::Outcome {
        request: RequestId::new(0),
        outcome: Outcome::Failed(Failure::Rejected(reason)),
    }
}

#[test]
fn texts_that_are_too_long_are_refused() {
    let long = "€".repeat(11);
    let error = EncodeError::Text {
        length: 33,
        limit: 32,
    };
    assert_eq!(deletion(&long, "r").encode(), Err(error));
    assert_eq!(deletion("e", &long).encode(), Err(error));
    assert!(deletion(&long[..30], &long[..30]).encode().is_ok());
    assert!(failed("x".repeat(64)).encode().is_ok());
    assert_eq!(
        failed("x".repeat(65)).encode(),
        Err(EncodeError::Text {
            length: 65,
            limit: 64
        })
    );
    assert_eq!(
        failed("x".repeat(300)).encode(),
        Err(EncodeError::Text {
            length: 300,
            limit: 64
        })
    );
}

#[test]
fn lists_that_are_too_long_are_refused() {
    let mut fields = NormalizedEvent::new(EventTimes::new(0));
    fields.attendees = vec![Attendee::new("a"); 8];
    assert!(fields.encode().is_ok());
    fields.attendees.push(Attendee::new("b"));
    let error = EncodeError::List { count: 9, limit: 8 };
    assert_eq!(fields.encode(), Err(error));
    let resource = ResourceId::new("r");
    let page = Page {
        changes: vec![Change::Remove { resource }; 9],
        next: Next::Done(Cursor::new("")),
    };
    assert_eq!(page.encode(), Err(error));
    let refused = Refused {
        field: Field::Title,
        attendee: None,
    };
    let applied = Notice::Applied {
        edit: EditId::new("e"),
        conflicts: vec![],
        refused: vec![refused; 256],
    };
    assert_eq!(
        applied.encode(),
        Err(EncodeError::List {
            count: 256,
            limit: 255
        })
    );
}

#[test]
fn times_out_of_range_are_refused() {
    for inside in [MIN_TIMESTAMP, -1, 0, MAX_TIMESTAMP] {
        round_trip(&tick(inside));
    }
    for outside in [i64::MIN, MIN_TIMESTAMP - 1, MAX_TIMESTAMP + 1, i64::MAX] {
        assert_eq!(tick(outside).encode(), Err(EncodeError::Timestamp(outside)));
        let frame = [&[3][..], &outside.to_be_bytes()].concat();
        let error = Input::decode(&frame).unwrap_err();
        assert_eq!((error.at, error.defect), (9, Defect::Timestamp));
        assert_eq!(Engine::fresh().step_frame(&frame), Err(Refusal::Frame));
    }
}

#[test]
fn an_input_that_fits_no_frame_makes_no_call() {
    let mut engine = Engine::fresh();
    let before = engine.clone();
    let refusal = engine.step(&tick(i64::MAX)).unwrap_err();
    assert_eq!(refusal, Refusal::Input(EncodeError::Timestamp(i64::MAX)));
    assert_eq!(refusal.number(), 3);
    assert_eq!(engine, before);
}

// ---- what is no frame

/// Whether the frame can be read here, which must be whether the engine does not refuse it with 3.
fn is_frame(engine: &mut Engine, frame: &[u8]) -> bool {
    let read = Input::decode(frame);
    let answer = engine.step_frame(frame);
    assert_eq!(read.is_err(), answer == Err(Refusal::Frame), "{frame:02x?}");
    if let Ok(input) = &read {
        assert_eq!(input.encode().as_deref(), Ok(frame));
    }
    read.is_ok()
}

#[test]
fn damaged_frames_are_refused_where_the_engine_refuses_them() {
    let mut random = Random::new(4);
    let mut engine = Engine::fresh();
    let (mut frames, mut damaged) = (0, 0);
    for turn in 0..10_000 {
        if turn % 100 == 0 {
            engine = Engine::fresh();
        }
        let frame = random.input().encode().expect("it fits");
        assert!(is_frame(&mut engine, &frame));
        if is_frame(&mut engine, &random.damaged(&frame)) {
            frames += 1;
        } else {
            damaged += 1;
        }
    }
    assert!(frames > 1000 && damaged > 1000, "{frames} {damaged}");
}

#[test]
fn every_part_of_a_frame_is_refused() {
    let mut random = Random::new(5);
    let mut engine = Engine::fresh();
    for _ in 0..20 {
        let frame = random.input().encode().expect("it fits");
        for end in 0..frame.len() {
            assert!(!is_frame(&mut engine, &frame[..end]));
        }
        assert!(!is_frame(&mut engine, &[&frame[..], &[0]].concat()));
    }
}
