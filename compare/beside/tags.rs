//! Tags: one Rust value for each 64-bit number, another one for another number.
use crate::{Alert, AlertAction, AlertTrigger, EventTimes, Passthrough, Recurrence, Reminders, TimeValue};
use jiff::Timestamp;
use serde::{Deserialize, Reader, Serialize};

pub fn times(tag: u64) -> EventTimes {
    EventTimes::at(TimeValue::instant(Timestamp(tag as i64)))
}
pub fn times_tag(v: &EventTimes) -> u64 {
    match (v.start(), v.end()) {
        (TimeValue::Instant { timestamp }, None) => timestamp.0 as u64,
        _ => panic!("times of no tag"),
    }
}

pub fn recurrence(tag: u64) -> Recurrence {
    Recurrence { dates: vec![TimeValue::instant(Timestamp(tag as i64))], ..Recurrence::default() }
}
pub fn recurrence_tag(v: &Recurrence) -> u64 {
    match v.dates.as_slice() {
        [TimeValue::Instant { timestamp }] => timestamp.0 as u64,
        _ => panic!("recurrence of no tag"),
    }
}

pub fn description(tag: u64) -> String {
    format!("{tag:016x}")
}
pub fn description_tag(v: &str) -> u64 {
    u64::from_str_radix(v, 16).expect("description of no tag")
}

pub fn reminders(tag: u64) -> Reminders {
    Reminders {
        use_default: false,
        alerts: vec![Alert {
            trigger: AlertTrigger::Absolute { at: Timestamp(tag as i64) },
            action: AlertAction::Display,
        }],
    }
}
pub fn reminders_tag(v: &Reminders) -> u64 {
    match v.alerts.as_slice() {
        [Alert { trigger: AlertTrigger::Absolute { at }, .. }] => at.0 as u64,
        _ => panic!("reminders of no tag"),
    }
}

pub fn passthrough(tag: u64) -> Passthrough {
    let mut v = Passthrough::new();
    v.push("tag", tag.to_string());
    v
}
pub fn passthrough_tag(v: &Passthrough) -> u64 {
    v.get("tag").next().and_then(|t| t.parse().ok()).expect("passthrough of no tag")
}

macro_rules! tagged {
    ($($t:ty, $make:ident, $tag:ident);*) => {$(
        impl Serialize for $t {
            fn ser(&self, o: &mut Vec<u8>) { $tag(self).ser(o); }
        }
        impl Deserialize for $t {
            fn de(r: &mut Reader<'_>) -> Option<Self> { Some($make(u64::de(r)?)) }
        }
    )*};
}
tagged!(
    EventTimes, times, times_tag;
    Recurrence, recurrence, recurrence_tag;
    Reminders, reminders, reminders_tag;
    Passthrough, passthrough, passthrough_tag
);
