//! Document 01's lines on the limits, and where each refusal is met.
use super::*;

pub const CHECKS: &[Check] = &[
    ("record 10 is stored, record 11 gives 5", || {
        let mut run = Run::fresh();
        let mut answers = Vec::new();
        for i in 0..11u64 {
            let name = format!("r{i:02}");
            run.edit("e", &name, Operation::Create(event(&name, "v", 3, 0)), Role::Owner);
            answers.push(run.answer(i, Outcome::Written(event(&name, "v", 3, 0))).number);
        }
        answers == [0, 0, 0, 0, 0, 0, 0, 0, 0, 0, 5] && run.view().records.len() == 10
    }),
    ("staged 10 is stored, 11 gives 5", || {
        let ten: Vec<Change> = (0..8).map(|i| upsert(&format!("s{i}"), "v", None)).collect();
        let mut run = Run::fresh();
        run.put(Input::Sync);
        run.answer(0, more(ten));
        let list = |run: &Run| run.view().in_flight.iter().find(|x| *x.1 == Purpose::List).unwrap().0.get();
        let a = run.answer(list(&run), more(vec![upsert("t8", "v", None), Change::Remove { resource: res("t9") }]));
        let n = list(&run);
        let b = run.answer(n, more(vec![upsert("t9", "v", None), upsert("x", "v", None)]));
        let c = run.answer(n, more(vec![upsert("t9", "v", None), upsert("s0", "w", None)]));
        a.number == 0 && b.number == 5 && c.number == 0 && run.view().pass.unwrap().staged.len() == 10
    }),
    ("seen 32 is stored, 33 gives 5", || {
        let mut v = blank();
        let mut p = open(true);
        p.seen = (0..31).map(|i| res(format!("s{i:02}"))).collect();
        v.pass = Some(p);
        v.next_request = 1;
        v.in_flight.insert(RequestId::new(0), Purpose::List);
        let mut run = Run::load(&v);
        let a = run.answer(0, more(vec![upsert("s31", "v", None)]));
        let b = run.answer(1, more(vec![upsert("s32", "v", None)]));
        let c = run.answer(1, more(vec![upsert("s31", "v", None)]));
        a.number == 0 && b.number == 5 && c.number == 0
    }),
    ("observed 16 is stored, 17 gives 5", || {
        let mut run = Run::fresh();
        run.put(Input::Sync);
        let mut answers = Vec::new();
        for i in 1..=17u64 {
            run.edit("e", &format!("o{i:02}"), Operation::Delete, Role::Owner);
            answers.push(run.answer(i, Outcome::Read(None)).number);
        }
        answers[..16].iter().all(|n| *n == 0) && answers[16] == 5
    }),
    ("waiting entry 6 is stored, 7 gives 5, in one queue and in seven", || {
        [true, false].iter().all(|&one| {
            let mut run = Run::fresh();
            let answers: Vec<u8> = (0..7u64)
                .map(|i| {
                    let name = if one { "r".to_owned() } else { format!("r{i}") };
                    run.edit("e", &name, update(i * 10, i * 10 + 1), Role::Owner).number
                })
                .collect();
            answers == [0, 0, 0, 0, 0, 0, 5]
        })
    }),
    ("six waiting: an edit that folds or cancels is still taken; an attendee's delete gives 5", || {
        let mut run = Run::fresh();
        for i in 0..5u64 {
            run.edit("e", "r", update(i * 10, i * 10 + 1), Role::Owner);
        }
        run.edit("c", "r", Operation::Create(event("r", "v", 3, 5)), Role::Owner);
        let full = run.view().waiting() == 6;
        let d = run.edit("d", "other", Operation::Delete, attendee("a")).number;
        let f = run.edit("f", "r", update(5, 6), Role::Owner).number;
        let x = run.edit("x", "r", Operation::Delete, Role::Owner);
        full && d == 5 && f == 0 && notices(&x) == [&applied("c"), &applied("f"), &applied("x")] && run.len("r") == 5
    }),
    ("absorbed 8 is stored, 9 gives 5", || {
        let mut run = Run::fresh();
        run.edit("h", "r", update(100, 101), Role::Owner);
        let answers: Vec<u8> = (0..10u64).map(|i| run.edit("e", "r", update(i, i + 1), Role::Owner).number).collect();
        answers == [0, 0, 0, 0, 0, 0, 0, 0, 0, 5]
    }),
    ("in flight 24 is stored, 25 gives 5", || {
        let mut v = blank();
        v.next_request = 23;
        for i in 0..23 {
            v.in_flight.insert(RequestId::new(i), Purpose::Refresh(res(format!("f{i:02}"))));
        }
        let mut run = Run::load(&v);
        let a = run.put(Input::Sync);
        let b = run.edit("e", "r", Operation::Delete, Role::Owner);
        a.number == 0 && b.number == 5 && run.view().in_flight.len() == 24
    }),
    ("learned 32 is stored, 33 gives 5, though it would be forgotten at once", || {
        let mut run = Run::fresh();
        run.edit("slow", "slow", Operation::Delete, Role::Owner);
        let answers: Vec<u8> = (1..=33u64)
            .map(|i| {
                run.edit("e", &format!("l{i:02}"), Operation::Delete, Role::Owner);
                run.answer(i, Outcome::Read(None)).number
            })
            .collect();
        let mut v = blank();
        v.next_request = 40;
        v.learned = (0..32).map(|i| (res(format!("l{i:02}")), 1)).collect();
        v.in_flight.insert(RequestId::new(39), Purpose::Refresh(res("new")));
        let mut settled = Run::load(&v);
        let a = settled.answer(39, Outcome::Read(None)).number;
        answers[..32].iter().all(|n| *n == 0) && answers[32] == 5 && a == 5
    }),
    ("alias 8 is stored, 9 gives 5", || {
        let mut run = Run::fresh();
        let mut n = 0;
        let answers: Vec<u8> = (0..9u64)
            .map(|i| {
                let key = format!("k{i}");
                run.edit("e", &key, Operation::Create(graph(&key)), Role::Owner);
                n += 1;
                run.answer(n - 1, Outcome::Read(Some(graph("given")))).number
            })
            .collect();
        answers == [0, 0, 0, 0, 0, 0, 0, 0, 5]
    }),
    ("next_request 2^64 - 1 gives 4, before a full in-flight table would give 5", || {
        let mut v = blank();
        v.next_request = u64::MAX - 1;
        let mut run = Run::load(&v);
        let a = run.put(Input::Sync).number;
        let b = run.edit("e", "r", Operation::Delete, Role::Owner).number;
        let mut v = run.view();
        for i in 0..23 {
            v.in_flight.insert(RequestId::new(i), Purpose::Refresh(res(format!("f{i:02}"))));
        }
        let mut run = Run::load(&v);
        let c = run.edit("e", "r", Operation::Delete, Role::Owner).number;
        // The waiting entry comes before the numbering.
        let d = (0..7)
            .map(|_| run.put(Input::Edit(edit("e", "r", Operation::Delete, Role::Owner, None))).number)
            .collect::<Vec<_>>();
        // A Resume of those 23 doubts: the 17th overruns observed, before any request is numbered.
        let e = run.put(Input::Resume).number;
        let mut v = blank();
        v.next_request = u64::MAX;
        v.in_flight.insert(RequestId::new(1), Purpose::Refresh(res("f")));
        let mut run = Run::load(&v);
        let f = run.put(Input::Resume).number;
        a == 0
            && b == 4
            && c == 4
            && d.iter().all(|n| *n == 4)
            && e == 5
            && f == 4
            && run.view() == v
            && run.answer(7, Outcome::Deleted).number == 0
    }),
    ("effects over 32,768 bytes give 7, exactly 32,768 pass (a state that no merge makes)", || {
        let big = |bytes: usize| {
            // Conflicts that take this many bytes: titles, 11 to 107 bytes each.
            let mut list = Vec::new();
            let mut left = bytes - 1;
            while left > 0 {
                let s = if left <= 107 {
                    left
                } else if left - 107 < 11 {
                    96
                } else {
                    107
                };
                left -= s;
                let mut extra = s - 11;
                let mut t = || {
                    let n = extra.min(32);
                    extra -= n;
                    FieldValue::Title(Some("y".repeat(n)))
                };
                list.push(Conflict { field: Field::Title, attendee: None, base: t(), ours: t(), theirs: t() });
            }
            let mut o = Vec::new();
            codec::put_conflicts(&list, &mut o);
            assert_eq!(o.len(), bytes);
            list
        };
        let end = |bytes: usize, id: usize| {
            let mut v = blank();
            let mut p = pending(edit(&"i".repeat(id), "r", update(1, 2), Role::Owner, None));
            p.absorbed = (0..8).map(|i| EditId::new(format!("{i}").repeat(32))).collect();
            p.conflicts = big(bytes);
            p.refused = (0..17).map(|_| Refused { field: Field::Attendees, attendee: Some("a".repeat(32)) }).collect();
            v.edits.insert(res("r"), VecDeque::from([p]));
            v.next_request = 1;
            v.in_flight.insert(RequestId::new(0), Purpose::EditWrite(res("r")));
            let mut run = Run::load(&v);
            let a = run.answer(0, Outcome::Deleted);
            (a.number, a.bytes.iter().map(Vec::len).sum::<usize>(), run.view() == v)
        };
        // Nine notices of 1 + 1 + 33 + conflicts + (1 + 17 * 35) bytes.
        end(3009, 32) == (0, 32760, false) && end(3010, 31) == (0, 32768, false) && end(3010, 32) == (7, 0, true)
    }),
    ("over 8 merged attendees give 6, 8 pass", || {
        let list = |n: usize, who: &str| {
            let mut f = fields(0);
            f.attendees = (0..n).map(|i| Attendee::new(format!("{who}{i}"))).collect();
            f
        };
        let plan = |theirs: usize, ours: usize, role: Role| {
            let mut run = Run::fresh();
            run.edit("e", "r", Operation::Update { base: fields(0), ours: list(ours, "o") }, role);
            let mut t = event("r", "v", 3, 0);
            t.fields = list(theirs, "t");
            run.answer(0, Outcome::Read(Some(t))).number
        };
        plan(5, 3, Role::Owner) == 0
            && plan(5, 4, Role::Owner) == 6
            && plan(8, 8, Role::Owner) == 6
            && plan(8, 0, Role::Owner) == 0
            && plan(8, 8, attendee("o0")) == 0
    }),
    ("a full commit stores before it drops: 11 for a moment gives 5", || {
        let mut v = blank();
        for i in 0..10 {
            v.records.insert(res(format!("r{i}")), event(&format!("r{i}"), "v", 3, 0));
        }
        v.pass = Some(open(true));
        v.next_request = 1;
        v.in_flight.insert(RequestId::new(0), Purpose::List);
        let mut run = Run::load(&v);
        run.answer(0, done(vec![upsert("new", "v", Some(event("new", "v", 3, 0)))])).number == 5
    }),
    ("commit goes in key order: a removal before a new record makes room, one after it does not", || {
        let try_ = |removed: &str, added: &str| {
            let mut v = blank();
            for i in 0..10 {
                v.records.insert(res(format!("r{i}")), event(&format!("r{i}"), "v", 3, 0));
            }
            v.cursor = Some(Cursor::new("c"));
            v.pass = Some(open(false));
            v.next_request = 1;
            v.in_flight.insert(RequestId::new(0), Purpose::List);
            let mut run = Run::load(&v);
            run.answer(
                0,
                done(vec![
                    upsert(added, "v", Some(event(added, "v", 3, 0))),
                    Change::Remove { resource: res(removed) },
                ]),
            )
            .number
        };
        try_("r0", "s") == 0 && try_("r9", "a") == 5
    }),
    ("a Resume may be refused: 17 Refreshes and an open pass overrun observed", || {
        let mut run = Run::fresh();
        let write = |run: &Run| {
            run.view().in_flight.iter().find_map(|(id, p)| match p {
                Purpose::EditWrite(r) => Some((id.get(), r.as_str().to_owned())),
                _ => None,
            })
        };
        let list = |run: &Run| run.view().in_flight.iter().find(|x| *x.1 == Purpose::List).unwrap().0.get();
        for round in 0..3 {
            for i in 0..6 {
                let name = format!("m{round}{i}");
                run.edit("e", &name, Operation::Create(event(&name, "v", 3, 0)), Role::Owner);
            }
            run.put(Input::Sync);
            if round > 0 {
                run.answer(list(&run), failed(Failure::CursorExpired));
            }
            run.answer(list(&run), done(vec![]));
            while let Some((id, name)) = write(&run) {
                run.answer(id, Outcome::Written(event(&name, "v", 3, 0)));
            }
        }
        let refreshes = run.view().in_flight.len();
        let a = run.put(Input::Sync).number;
        let b = run.put(Input::Resume).number;
        refreshes == 18 && a == 0 && b == 5
    }),
    ("an answer that finds learned full is refused each time, until a Resume", || {
        let mut run = Run::fresh();
        run.edit("slow", "slow", Operation::Delete, Role::Owner);
        for i in 1..=32u64 {
            run.edit("e", &format!("l{i:02}"), Operation::Delete, Role::Owner);
            run.answer(i, Outcome::Read(None));
        }
        run.edit("e", "l33", Operation::Delete, Role::Owner);
        let a = run.answer(33, Outcome::Read(None)).number;
        let b = run.answer(0, Outcome::Read(None)).number;
        let c = run.put(Input::Resume);
        let n = run.view().in_flight.keys().next().unwrap().get();
        (a, b, c.number) == (5, 5, 0) && run.view().learned.is_empty() && run.answer(n, Outcome::Read(None)).number == 0
    }),
    ("6 stands after the read's 5 and before the write's 4", || {
        let crowd = |who: &str| {
            let mut f = fields(0);
            f.attendees = (0..8).map(|i| Attendee::new(format!("{who}{i}"))).collect();
            f
        };
        let plan = |records: u64, next: u64| {
            let mut v = blank();
            for i in 0..records {
                v.records.insert(res(format!("r{i:02}")), event(&format!("r{i:02}"), "v", 3, 0));
            }
            v.edits.insert(
                res("x"),
                VecDeque::from([pending(edit(
                    "e",
                    "x",
                    Operation::Update { base: fields(0), ours: crowd("o") },
                    Role::Owner,
                    None,
                ))]),
            );
            v.next_request = next;
            v.in_flight.insert(RequestId::new(0), Purpose::EditRead(res("x")));
            let mut t = event("x", "v", 3, 0);
            t.fields = crowd("t");
            Run::load(&v).answer(0, Outcome::Read(Some(t))).number
        };
        plan(9, 1) == 6 && plan(10, 1) == 5 && plan(9, u64::MAX) == 6
    }),
];
