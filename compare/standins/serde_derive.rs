//! Stand-in for serde's derive macros. `Serialize` and `Deserialize` expand to the frame rule of
//! document 01, read off the published source itself: fields in source order, an enum's case
//! counted from 0. The `serde(..)` helper attributes are accepted and ignored.
//! The exceptions of document 01 (tags, list limits, reasons) are in `hook` and `SKIPPED`.
extern crate proc_macro;
use proc_macro::{Delimiter, TokenStream, TokenTree};

/// Types that stand behind a tag (hand-written in the model's tags.rs) or are never used.
const SKIPPED: &[&str] = &[
    "EventTimes",
    "EventTimesRepr",
    "TimeValue",
    "TimeZoneId",
    "Recurrence",
    "RecurrenceRule",
    "Frequency",
    "Skip",
    "Weekday",
    "NDay",
    "RuleMonth",
    "RuleEnd",
    "Reminders",
    "Alert",
    "AlertTrigger",
    "RelativeTo",
    "AlertAction",
    "Passthrough",
    "PassthroughField",
    "Loss",
    "LossReason",
];

/// The places where document 01 departs from the plain rule.
fn hook(ty: &str, case: &str, field: &str) -> Option<&'static str> {
    match (ty, case, field) {
        ("NormalizedEvent", "", "description") | ("FieldValue", "Description", "0") => Some("tag_text"),
        ("NormalizedEvent", "", "attendees") | ("Page", "", "changes") => Some("most8"),
        ("Pending", "", "absorbed") => Some("most8"),
        ("Failure", "Rejected", "0") => Some("reason"),
        _ => None,
    }
}

enum Body {
    Unit,
    Named(Vec<String>),
    Tuple(usize),
}
enum Item {
    Struct(Body),
    Enum(Vec<(String, Body)>),
}

/// Splits at the commas outside angle brackets (groups hide their own commas).
fn split(stream: TokenStream) -> Vec<Vec<TokenTree>> {
    let (mut parts, mut part, mut depth) = (Vec::new(), Vec::new(), 0i32);
    for token in stream {
        if let TokenTree::Punct(p) = &token {
            match p.as_char() {
                '<' => depth += 1,
                '>' => depth -= 1,
                ',' if depth == 0 => {
                    parts.push(std::mem::take(&mut part));
                    continue;
                }
                _ => {}
            }
        }
        part.push(token);
    }
    if !part.is_empty() {
        parts.push(part);
    }
    parts
}

/// Drops attributes and visibility from the front.
fn bare(tokens: &[TokenTree]) -> &[TokenTree] {
    let mut at = 0;
    loop {
        match tokens.get(at) {
            Some(TokenTree::Punct(p)) if p.as_char() == '#' => at += 2,
            Some(TokenTree::Ident(i)) if i.to_string() == "pub" => {
                at += 1;
                if let Some(TokenTree::Group(g)) = tokens.get(at) {
                    if g.delimiter() == Delimiter::Parenthesis {
                        at += 1;
                    }
                }
            }
            _ => return &tokens[at..],
        }
    }
}

fn body(token: Option<&TokenTree>) -> Body {
    match token {
        Some(TokenTree::Group(g)) if g.delimiter() == Delimiter::Brace => {
            Body::Named(split(g.stream()).iter().map(|f| bare(f)[0].to_string()).collect())
        }
        Some(TokenTree::Group(g)) if g.delimiter() == Delimiter::Parenthesis => Body::Tuple(split(g.stream()).len()),
        _ => Body::Unit,
    }
}

fn parse(input: TokenStream) -> (String, Item) {
    let tokens: Vec<TokenTree> = input.into_iter().collect();
    let tokens = bare(&tokens);
    let name = tokens[1].to_string();
    let item = match tokens[0].to_string().as_str() {
        "struct" => Item::Struct(body(tokens.get(2))),
        "enum" => {
            let TokenTree::Group(g) = &tokens[2] else { panic!("enum body of {name}") };
            Item::Enum(
                split(g.stream())
                    .iter()
                    .map(|v| {
                        let v = bare(v);
                        (v[0].to_string(), body(v.get(1)))
                    })
                    .collect(),
            )
        }
        other => panic!("unexpected item {other}"),
    };
    (name, item)
}

fn path(hook: Option<&str>) -> String {
    match hook {
        Some(name) => format!("::serde::hooks::{name}"),
        None => "::serde::plain".to_owned(),
    }
}

fn names(b: &Body) -> Vec<String> {
    match b {
        Body::Unit => vec![],
        Body::Named(f) => f.clone(),
        Body::Tuple(n) => (0..*n).map(|i| i.to_string()).collect(),
    }
}

#[proc_macro_derive(Serialize, attributes(serde))]
pub fn serialize(input: TokenStream) -> TokenStream {
    let (ty, item) = parse(input);
    if SKIPPED.contains(&ty.as_str()) {
        return TokenStream::new();
    }
    let code = match &item {
        Item::Struct(b) => {
            names(b).iter().map(|f| format!("{}::ser(&self.{f}, o);", path(hook(&ty, "", f)))).collect::<String>()
        }
        Item::Enum(cases) => {
            let arms: String = cases
                .iter()
                .enumerate()
                .map(|(n, (case, b))| {
                    let fields = names(b);
                    let binds: String = fields.iter().map(|f| format!("{f}: f_{f},")).collect();
                    let sers: String =
                        fields.iter().map(|f| format!("{}::ser(f_{f}, o);", path(hook(&ty, case, f)))).collect();
                    format!("Self::{case} {{ {binds} }} => {{ o.push({n}u8); {sers} }}")
                })
                .collect();
            format!("match self {{ {arms} }}")
        }
    };
    format!("impl ::serde::Serialize for {ty} {{ fn ser(&self, o: &mut ::std::vec::Vec<u8>) {{ {code} }} }}")
        .parse()
        .unwrap()
}

#[proc_macro_derive(Deserialize, attributes(serde))]
pub fn deserialize(input: TokenStream) -> TokenStream {
    let (ty, item) = parse(input);
    if SKIPPED.contains(&ty.as_str()) {
        return TokenStream::new();
    }
    let make = |case: &str, b: &Body| -> String {
        names(b).iter().map(|f| format!("{f}: {}::de(r)?,", path(hook(&ty, case, f)))).collect()
    };
    let code = match &item {
        Item::Struct(b) => format!("Some(Self {{ {} }})", make("", b)),
        Item::Enum(cases) => {
            let arms: String = cases
                .iter()
                .enumerate()
                // Field::Overrides and Other never occur.
                .filter(|(_, (case, _))| !(ty == "Field" && (case == "Overrides" || case == "Other")))
                .map(|(n, (case, b))| format!("{n}u8 => Some(Self::{case} {{ {} }}),", make(case, b)))
                .collect();
            format!("match r.byte()? {{ {arms} _ => None }}")
        }
    };
    format!("impl ::serde::Deserialize for {ty} {{ fn de(r: &mut ::serde::Reader<'_>) -> ::std::option::Option<Self> {{ {code} }} }}")
        .parse().unwrap()
}
