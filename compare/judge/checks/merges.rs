//! Document 01's lines on the merge.
use super::*;

pub const CHECKS: &[Check] = &[
    ("* verdicts: 1,1,2 theirs; 1,2,1 owned ours; 1,2,3 owned conflict; 1,2,3 unowned refused; 1,2,2 theirs", || {
        let p = |b, o, t, role| planned(fields(b), fields(o), fields(t), role);
        let times = |t| FieldValue::Times(tags::times(t));
        p(1, 1, 2, Role::Owner) == (None, vec![], vec![])
            && p(1, 2, 1, Role::Owner) == (Some(fields(2)), vec![], vec![])
            && p(1, 2, 3, Role::Owner)
                == (
                    None,
                    vec![Conflict {
                        field: Field::Times,
                        attendee: None,
                        base: times(1),
                        ours: times(2),
                        theirs: times(3),
                    }],
                    vec![],
                )
            && p(1, 2, 3, attendee("a@m")) == (None, vec![], vec![Refused { field: Field::Times, attendee: None }])
            && p(1, 2, 2, Role::Owner) == (None, vec![], vec![])
            && p(1, 2, 2, attendee("a@m")) == (None, vec![], vec![])
            && p(1, 2, 1, attendee("a@m")) == (None, vec![], vec![Refused { field: Field::Times, attendee: None }])
    }),
    ("reminders are always owned", || {
        let f = |t| {
            let mut f = fields(0);
            f.reminders = tags::reminders(t);
            f
        };
        let (written, conflicts, refused) = planned(f(1), f(2), f(1), attendee("a@m"));
        let (_, conflict, _) = planned(f(1), f(2), f(3), attendee("a@m"));
        written == Some(f(2)) && conflicts.is_empty() && refused.is_empty() && conflict.len() == 1
    }),
    ("* \"A@m\" then \"a@m\": occurrences 0 and 1", || {
        let list = |second: Option<&str>| {
            let mut f = fields(0);
            f.attendees = vec![Attendee::new("A@m"), Attendee::new("a@m")];
            f.attendees[1].name = second.map(str::to_owned);
            f
        };
        // Ours has them spelled the other way round; the second is still the second.
        let mut ours = list(Some("n"));
        ours.attendees[0].address = "A@m".to_owned();
        let (written, ..) = planned(list(None), ours, list(None), Role::Owner);
        written == Some(list(Some("n")))
    }),
    ("attendees: order is theirs, then ours not in theirs; the address shown is theirs, then ours, then base", || {
        let list = |names: &[&str]| {
            let mut f = fields(0);
            f.attendees = names.iter().map(|n| Attendee::new(*n)).collect();
            f
        };
        let (written, ..) =
            planned(list(&["a", "b"]), list(&["new", "a", "b", "last"]), list(&["b", "t", "a"]), Role::Owner);
        let order = written == Some(list(&["b", "t", "a", "new", "last"]));
        // Spelled three ways: a conflict under theirs.
        let (_, c, _) = planned(list(&["x@m"]), list(&["X@m"]), list(&["x@M"]), Role::Owner);
        let theirs = c.len() == 1 && c[0].attendee.as_deref() == Some("x@M");
        // Gone from theirs: ours.
        let (_, c, _) = planned(list(&["x@m"]), list(&["X@m"]), list(&[]), Role::Owner);
        let ours = c.len() == 1 && c[0].attendee.as_deref() == Some("X@m");
        order && theirs && ours
    }),
    ("* own entry gone from theirs, name and participation both changed: one refused, one conflict", || {
        let mut base = fields(0);
        base.attendees = vec![Attendee::new("Me@m")];
        let mut ours = base.clone();
        ours.attendees[0].name = Some("n".to_owned());
        ours.attendees[0].participation = Participation::Accepted;
        let entry = |f: &NormalizedEvent| FieldValue::Attendee(Some(f.attendees[0].clone()));
        let (written, conflicts, refused) = planned(base.clone(), ours.clone(), fields(0), attendee("mE@M"));
        written.is_none()
            && refused == [Refused { field: Field::Attendees, attendee: Some("Me@m".to_owned()) }]
            && conflicts
                == [Conflict {
                    field: Field::Attendees,
                    attendee: Some("Me@m".to_owned()),
                    base: entry(&base),
                    ours: entry(&ours),
                    theirs: FieldValue::Attendee(None),
                }]
    }),
];
