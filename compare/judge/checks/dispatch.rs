//! Document 01's lines on doubts, passes and records.
use super::*;

pub const CHECKS: &[Check] = &[
    ("* learned 5, learned_all 0: number 4 doubtful, 5 not", || {
        [4, 5].iter().all(|&n| {
            let mut v = blank();
            v.next_request = 7;
            v.learned.insert(res("r"), 5);
            v.in_flight.insert(RequestId::new(n), Purpose::Refresh(res("r")));
            v.in_flight.insert(RequestId::new(0), Purpose::Refresh(res("old")));
            let mut run = Run::load(&v);
            let a = run.answer(n, Outcome::Read(Some(event("r", "v", 3, 1))));
            let again = requests(&a) == [&read("r")];
            again == (n == 4) && run.view().records.contains_key(&res("r")) == (n == 5)
        })
    }),
    ("learned_all 5, nothing learned of it: number 4 doubtful, 5 not", || {
        [4, 5].iter().all(|&n| {
            let mut v = blank();
            v.next_request = 7;
            v.learned_all = 5;
            v.in_flight.insert(RequestId::new(n), Purpose::Refresh(res("r")));
            let mut run = Run::load(&v);
            let a = run.answer(n, Outcome::Read(Some(event("r", "v", 3, 1))));
            (requests(&a) == [&read("r")]) == (n == 4)
        })
    }),
    ("* same revision, mapper 3 over 3 keeps; 4 over 3 replaces; a new revision under mapper 2 over 3 keeps", || {
        let put = |revision: &str, mapper| {
            let mut v = blank();
            v.records.insert(res("r"), event("r", "v", 3, 1));
            v.next_request = 1;
            v.in_flight.insert(RequestId::new(0), Purpose::Refresh(res("r")));
            let mut run = Run::load(&v);
            run.answer(0, Outcome::Read(Some(event("r", revision, mapper, 2))));
            run.view().records[&res("r")].fields == fields(2)
        };
        !put("v", 3) && put("v", 4) && !put("w", 2) && put("w", 3) && put("w", 4) && !put("v", 2)
    }),
    (
        "an unknown number changes no request or record and tries no commit; settled doubts and unused aliases are forgotten",
        || {
            let mut v = blank();
            let mut p = open(true);
            p.done = Some(Cursor::new("d"));
            v.pass = Some(p);
            v.records.insert(res("r"), event("r", "v", 3, 0));
            v.next_request = 9;
            v.learned.insert(res("x"), 3);
            v.learned.insert(res("y"), 6);
            v.learned_all = 5;
            v.in_flight.insert(RequestId::new(5), Purpose::Refresh(res("q")));
            v.aliases.insert(res("k"), res("gone"));
            v.aliases.insert(res("l"), res("r"));
            let mut run = Run::load(&v);
            let a = run.answer(77, Outcome::Deleted);
            let w = run.view();
            a.number == 0
                && a.effects.is_empty()
                && w.records == v.records
                && w.in_flight == v.in_flight
                && w.pass == v.pass
                && w.learned.len() == 1
                && w.learned_all == 0
                && w.aliases.len() == 1
        },
    ),
    ("doubt learns first, then reads again: through an open pass, else by a Refresh unless one is in flight", || {
        let state = |pass: Option<bool>, other: bool| {
            let mut v = blank();
            v.next_request = 9;
            v.learned.insert(res("r"), 5);
            v.in_flight.insert(RequestId::new(2), Purpose::Refresh(res("r")));
            if other {
                v.in_flight.insert(RequestId::new(3), Purpose::Refresh(res("r")));
            }
            if let Some(done) = pass {
                let mut p = open(false);
                p.done = done.then(|| Cursor::new("d"));
                v.pass = Some(p);
                v.in_flight.insert(RequestId::new(1), Purpose::Refresh(res("old")));
            }
            Run::load(&v)
        };
        let gone = || Outcome::Read(None);
        let mut none = state(None, false);
        let a = none.answer(2, gone());
        let mut other = state(None, true);
        let b = other.answer(2, gone());
        let mut listing = state(Some(false), false);
        let c = listing.answer(2, gone());
        let mut ended = state(Some(true), false);
        let d = ended.answer(2, gone());
        requests(&a) == [&read("r")]
            && requests(&b).is_empty()
            && other.view().learned[&res("r")] == 9
            && requests(&c).is_empty()
            && listing.view().pass.unwrap().observed.contains(&res("r"))
            && requests(&d) == [&read("r")]
            && ended.view().pass.unwrap().staged[&res("r")] == Staged::Unread
            && ended.view().in_flight.values().any(|p| *p == Purpose::PassRead(res("r")))
    }),
    (
        "a commit waits for nothing unread; observed resources become unread first; a full pass keeps only the seen",
        || {
            let mut run = Run::fresh();
            run.edit("c", "old", Operation::Create(event("old", "v", 3, 0)), Role::Owner);
            run.answer(0, Outcome::Written(event("old", "v", 3, 0)));
            run.put(Input::Sync);
            run.edit("d", "o", Operation::Delete, Role::Owner);
            run.answer(2, Outcome::Read(None));
            let a = run.answer(1, done(vec![upsert("n", "v", None)]));
            let waits = requests(&a) == [&read("n")] && notices(&a).is_empty();
            let b = run.answer(3, Outcome::Read(Some(event("n", "v", 3, 0))));
            let observed = requests(&b) == [&read("o")] && notices(&b).is_empty();
            let c = run.answer(4, Outcome::Read(None));
            waits
                && observed
                && notices(&c) == [&Notice::Synced]
                && run.view().records.keys().eq([&res("n")])
                && run.view().cursor == Some(Cursor::new("d"))
        },
    ),
    ("reasons: the provider's own for Rejected, else the fixed texts", || {
        let listing = |o: Outcome| {
            let mut run = Run::fresh();
            run.put(Input::Sync);
            match notices(&run.answer(0, o)).first() {
                Some(Notice::ListingFailed { reason }) => reason.clone(),
                _ => "-".to_owned(),
            }
        };
        let pass_read = |o: Outcome| {
            let mut run = Run::fresh();
            run.put(Input::Sync);
            run.answer(0, done(vec![upsert("n", "v", None)]));
            match notices(&run.answer(1, o)).first() {
                Some(Notice::ListingFailed { reason }) => reason.clone(),
                _ => "-".to_owned(),
            }
        };
        let edit_read = |o: Outcome| {
            let mut run = Run::fresh();
            run.edit("e", "r", update(1, 2), Role::Owner);
            match notices(&run.answer(0, o)).first() {
                Some(Notice::Rejected { reason: Rejection::Provider(reason), .. }) => reason.clone(),
                _ => "-".to_owned(),
            }
        };
        let own = || failed(Failure::Rejected("why".to_owned()));
        let e = || event("r", "v", 3, 0);
        listing(own()) == "why"
            && pass_read(own()) == "why"
            && edit_read(own()) == "why"
            && listing(failed(Failure::PreconditionFailed)) == "unexpected failure: PreconditionFailed"
            && listing(failed(Failure::NotFound)) == "unexpected failure: NotFound"
            && listing(failed(Failure::AlreadyExists)) == "unexpected failure: AlreadyExists"
            && pass_read(failed(Failure::CursorExpired)) == "unexpected failure: CursorExpired"
            && edit_read(failed(Failure::CursorExpired)) == "unexpected failure: CursorExpired"
            && edit_read(more(vec![])) == "unexpected listing"
            && listing(Outcome::Read(None)) == "unexpected read"
            && listing(Outcome::Written(e())) == "unexpected write"
            && edit_read(Outcome::Deleted) == "unexpected delete"
            && listing(failed(Failure::Transient)) == "-"
            && listing(failed(Failure::CursorExpired)) == "-"
            && pass_read(failed(Failure::NotFound)) == "-"
    }),
    ("a resource twice on one page is doubtful the second time", || {
        let mut run = Run::fresh();
        run.put(Input::Sync);
        let e = event("r", "v", 3, 0);
        let a = run.answer(0, done(vec![upsert("r", "v", Some(e.clone())), upsert("r", "v", Some(e))]));
        requests(&a) == [&read("r")]
    }),
    ("a staged event is stored under the listed name, a read one under its own id", || {
        let mut run = Run::fresh();
        run.put(Input::Sync);
        run.answer(0, done(vec![upsert("listed", "v", Some(event("id", "v", 3, 0))), upsert("z", "v", None)]));
        run.answer(1, Outcome::Read(Some(event("y", "v", 3, 0))));
        run.view().records.keys().eq([&res("listed"), &res("y")])
    }),
    ("a read under another id leaves the read name's own record as it is", || {
        let mut v = blank();
        v.records.insert(res("r"), event("r", "v", 3, 1));
        v.next_request = 1;
        v.in_flight.insert(RequestId::new(0), Purpose::Refresh(res("r")));
        let mut run = Run::load(&v);
        run.answer(0, Outcome::Read(Some(event("s", "w", 3, 2))));
        run.view().records[&res("r")].fields == fields(1) && run.view().records[&res("s")].fields == fields(2)
    }),
];
