//! Document 01's lines on the queues.
use super::*;

pub const CHECKS: &[Check] = &[
    ("* now 5: expiry 5 is expired, 6 not; before any tick neither", || {
        let mut run = Run::fresh();
        let a = run.put(Input::Edit(edit("x", "x", Operation::Delete, Role::Owner, Some(5))));
        let b = run.put(Input::Edit(edit("y", "y", Operation::Delete, Role::Owner, Some(-200_000_000_000_000))));
        let mut ok = requests(&a) == [&read("x")] && requests(&b) == [&read("y")];
        let mut run = Run::fresh();
        run.put(ticks(5));
        let a = run.put(Input::Edit(edit("x", "x", Operation::Delete, Role::Owner, Some(5))));
        let b = run.put(Input::Edit(edit("y", "y", Operation::Delete, Role::Owner, Some(6))));
        ok &= notices(&a) == [&expired("x")] && requests(&a).is_empty() && requests(&b) == [&read("y")];
        // At and around zero.
        for (now, at, gone) in
            [(0, 0, true), (0, -1, true), (0, 1, false), (-1, 0, false), (-1, -1, true), (-2, -1, false)]
        {
            let mut run = Run::fresh();
            run.put(ticks(now));
            let a = run.put(Input::Edit(edit("x", "x", Operation::Delete, Role::Owner, Some(at))));
            ok &= (notices(&a) == [&expired("x")]) == gone;
        }
        ok
    }),
    ("* a second update is appended, a third whose base is the second's ours is folded", || {
        let mut run = Run::fresh();
        run.edit("1", "r", update(1, 2), Role::Owner);
        run.edit("2", "r", update(2, 3), Role::Owner);
        let two = run.len("r") == 2;
        let a = run.edit("3", "r", update(3, 4), Role::Owner);
        let q = &run.view().edits[&res("r")];
        two && q.len() == 2
            && a.effects.is_empty()
            && q[1].absorbed == [EditId::new("3")]
            && q[1].edit.operation == update(2, 4)
    }),
    ("* a waiting create behind a head, then a delete, both by the owner: both Applied", || {
        let mut run = Run::fresh();
        run.edit("h", "r", update(1, 2), Role::Owner);
        run.edit("c", "r", Operation::Create(event("r", "v", 3, 1)), Role::Owner);
        let a = run.edit("d", "r", Operation::Delete, Role::Owner);
        notices(&a) == [&applied("c"), &applied("d")] && run.len("r") == 1
    }),
    ("* aliases a to b, b to c: a delete of a queues under b, a create of a under a", || {
        let mut v = blank();
        v.records.insert(res("b"), event("b", "v", 3, 0));
        v.records.insert(res("c"), event("c", "v", 3, 0));
        v.aliases.insert(res("a"), res("b"));
        v.aliases.insert(res("b"), res("c"));
        let mut run = Run::load(&v);
        run.edit("d", "a", Operation::Delete, Role::Owner);
        run.edit("c", "a", Operation::Create(event("a", "v", 3, 0)), Role::Owner);
        run.edit("u", "a", update(1, 2), attendee("x"));
        run.len("b") == 2
            && run.len("a") == 1
            && run.len("c") == 0
            && run.view().edits[&res("b")].iter().all(|p| p.edit.resource == res("b"))
    }),
    ("* attendee's delete on an empty queue: Rejected NotOwner, no request", || {
        let mut run = Run::fresh();
        let a = run.edit("d", "r", Operation::Delete, attendee("a@m"));
        notices(&a) == [&rejected("d", Rejection::NotOwner)] && requests(&a).is_empty() && run.view() == blank()
    }),
    ("expiry is tested before aliasing", || {
        let mut v = blank();
        v.now = Some(Timestamp(5));
        v.records.insert(res("b"), event("b", "v", 3, 0));
        v.aliases.insert(res("a"), res("b"));
        let mut run = Run::load(&v);
        let a = run.put(Input::Edit(edit("x", "a", Operation::Delete, Role::Owner, Some(5))));
        notices(&a) == [&expired("x")] && run.view() == v
    }),
    ("coalescing never reaches the head; the folded entry takes the newer expiry, even an earlier one or none", || {
        let mut run = Run::fresh();
        run.edit("1", "r", update(1, 2), Role::Owner);
        run.edit("2", "r", update(2, 3), Role::Owner);
        let head = run.len("r") == 2;
        let at = |run: &Run| run.view().edits[&res("r")][1].edit.expires_at.map(|t| t.0);
        run.put(Input::Edit(edit("3", "r", update(3, 4), Role::Owner, Some(9))));
        let a = at(&run);
        run.put(Input::Edit(edit("4", "r", update(4, 5), Role::Owner, Some(7))));
        let b = at(&run);
        run.put(Input::Edit(edit("5", "r", update(5, 6), Role::Owner, None)));
        head && (a, b, at(&run)) == (Some(9), Some(7), None) && run.len("r") == 2
    }),
    ("a queue of six attendees' deletes empties in one call (a state that no step makes: by Resume)", || {
        let mut v = blank();
        v.edits.insert(
            res("r"),
            (0..6).map(|i| pending(edit(&format!("d{i}"), "r", Operation::Delete, attendee("a"), None))).collect(),
        );
        v.next_request = 1;
        v.in_flight.insert(RequestId::new(0), Purpose::EditRead(res("r")));
        let mut run = Run::load(&v);
        let a = run.put(Input::Resume);
        notices(&a).len() == 6
            && notices(&a).iter().all(|n| matches!(n, Notice::Rejected { reason: Rejection::NotOwner, .. }))
            && requests(&a).is_empty()
            && run.view().edits.is_empty()
    }),
    ("a head and five attendees' deletes behind it end in one call", || {
        let mut run = Run::fresh();
        run.edit("h", "r", update(1, 2), Role::Owner);
        for i in 0..5 {
            run.edit(&format!("d{i}"), "r", Operation::Delete, attendee("a"));
        }
        let a = run.answer(0, Outcome::Read(None));
        notices(&a).len() == 6 && *notices(&a)[0] == rejected("h", Rejection::Gone) && run.view().edits.is_empty()
    }),
    ("a tick drops at or before now, but spares a head being written; a head only being read is not spared", || {
        let mut run = Run::fresh();
        run.put(Input::Edit(edit("w", "w", Operation::Create(event("w", "v", 3, 0)), Role::Owner, Some(5))));
        run.put(Input::Edit(edit("w2", "w", update(1, 2), Role::Owner, Some(5))));
        run.put(Input::Edit(edit("r", "r", update(1, 2), Role::Owner, Some(5))));
        run.put(Input::Edit(edit("r2", "r", update(7, 8), Role::Owner, Some(6))));
        let a = run.put(ticks(5));
        notices(&a) == [&expired("r"), &expired("w2")]
            && requests(&a) == [&read("r")]
            && run.len("w") == 1
            && run.len("r") == 1
            && run.view().in_flight.keys().map(|k| k.get()).eq([0, 2])
    }),
    ("a remap moves what is no create to the end of the new name's queue, in order; creates stay", || {
        let mut run = Run::fresh();
        run.edit("t", "to", update(50, 51), Role::Owner);
        run.edit("c", "key", Operation::Create(graph("key")), Role::Owner);
        run.edit("u", "key", update(1, 2), Role::Owner);
        run.edit("c2", "key", Operation::Create(graph("key")), Role::Owner);
        run.edit("d", "key", Operation::Delete, attendee("a"));
        let a = run.answer(1, Outcome::Read(Some(graph("to"))));
        let ids = |r: &str| run.view().edits[&res(r)].iter().map(|p| p.edit.id.as_str().to_owned()).collect::<Vec<_>>();
        ids("key") == ["c2"]
            && ids("to") == ["t", "u", "d"]
            && run.view().aliases[&res("key")] == res("to")
            && *notices(&a)[0] == Notice::Remapped { from: res("key"), to: res("to") }
            && *notices(&a)[1] == applied("c")
            && requests(&a) == [&Request::Lookup { key: res("key") }]
    }),
    ("moved entries don't fold into the new name's queue, nor count twice under the limit of six", || {
        let mut run = Run::fresh();
        run.edit("t", "to", update(50, 51), Role::Owner);
        run.edit("t2", "to", update(60, 1), Role::Owner);
        run.edit("c", "key", Operation::Create(graph("key")), Role::Owner);
        run.edit("u1", "key", update(1, 2), Role::Owner);
        run.edit("u2", "key", update(3, 4), Role::Owner);
        run.edit("u3", "key", update(5, 6), Role::Owner);
        let a = run.answer(1, Outcome::Read(Some(graph("to"))));
        a.number == 0 && run.len("to") == 5 && run.len("key") == 0
    }),
    ("two update folds keep the first base; a create folds an update of its fields", || {
        let mut run = Run::fresh();
        run.edit("h", "r", update(8, 9), Role::Owner);
        run.edit("c", "r", Operation::Create(event("r", "v", 3, 1)), Role::Owner);
        run.edit("u", "r", update(1, 2), Role::Owner);
        let q = &run.view().edits[&res("r")];
        q.len() == 2
            && q[1].edit.operation == Operation::Create(event("r", "v", 3, 2))
            && q[1].absorbed == [EditId::new("u")]
    }),
    ("a write of an update answered Deleted, or of a delete answered Written, still ends as Applied", || {
        let mut run = Run::fresh();
        run.edit("c", "r", Operation::Create(event("r", "v", 3, 0)), Role::Owner);
        let a = run.answer(0, Outcome::Deleted);
        let mut del = Run::fresh();
        del.edit("d", "r", Operation::Delete, Role::Owner);
        del.answer(0, Outcome::Read(Some(event("r", "v", 3, 0))));
        let b = del.answer(1, Outcome::Written(event("r", "w", 3, 5)));
        notices(&a) == [&applied("c")]
            && notices(&b) == [&applied("d")]
            && del.view().records[&res("r")].fields == fields(5)
    }),
    ("a create of any provider written under another id is remapped", || {
        let mut run = Run::fresh();
        run.edit("c", "r", Operation::Create(event("r", "v", 3, 0)), Role::Owner);
        let a = run.answer(0, Outcome::Written(event("s", "v", 3, 0)));
        notices(&a) == [&Notice::Remapped { from: res("r"), to: res("s") }, &applied("c")]
            && run.view().aliases[&res("r")] == res("s")
    }),
    ("a clock may go back; expiry is compared with the latest tick only", || {
        let mut run = Run::fresh();
        run.put(ticks(5));
        run.put(ticks(-5));
        let a = run.put(Input::Edit(edit("x", "x", Operation::Delete, Role::Owner, Some(0))));
        notices(&a).is_empty() && run.view().now == Some(Timestamp(-5))
    }),
    ("roles that differ don't fold, an attendee's delete isn't folded", || {
        let mut run = Run::fresh();
        run.edit("h", "r", update(8, 9), Role::Owner);
        run.edit("u", "r", update(1, 2), attendee("a"));
        run.edit("v", "r", update(2, 3), attendee("A"));
        run.edit("w", "r", Operation::Delete, attendee("A"));
        run.len("r") == 4
    }),
];
