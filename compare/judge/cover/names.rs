//! What the situations call things.
use crate::limited::{Effect, Failure, ListFrom, Notice, Operation, Outcome, Rejection, Request, ResourceId, Role};
use crate::view::{Purpose, View};
use calendar_sync_model::Provider;

pub fn outcome_name(o: &Outcome) -> &'static str {
    match o {
        Outcome::Listed(_) => "Listed",
        Outcome::Read(Some(_)) => "Read(Some)",
        Outcome::Read(None) => "Read(None)",
        Outcome::Written(_) => "Written",
        Outcome::Deleted => "Deleted",
        Outcome::Failed(f) => match f {
            Failure::CursorExpired => "CursorExpired",
            Failure::PreconditionFailed => "PreconditionFailed",
            Failure::NotFound => "NotFound",
            Failure::AlreadyExists => "AlreadyExists",
            Failure::Transient => "Transient",
            Failure::Rejected(_) => "Rejected",
        },
    }
}

pub fn purpose_name(p: &Purpose) -> &'static str {
    match p {
        Purpose::List => "List",
        Purpose::PassRead(_) => "PassRead",
        Purpose::EditRead(_) => "EditRead",
        Purpose::EditWrite(_) => "EditWrite",
        Purpose::Refresh(_) => "Refresh",
    }
}

pub fn resource_of(p: &Purpose) -> Option<&ResourceId> {
    match p {
        Purpose::List => None,
        Purpose::PassRead(r) | Purpose::EditRead(r) | Purpose::EditWrite(r) | Purpose::Refresh(r) => Some(r),
    }
}

pub fn pass_name(v: &View) -> &'static str {
    match &v.pass {
        None => "no pass",
        Some(p) if p.done.is_none() => "pass listing",
        Some(_) => "pass done",
    }
}

pub fn is_graph_create(o: &Operation) -> bool {
    matches!(o, Operation::Create(e) if e.ids.provider == Provider::Graph)
}

pub fn op_name(o: &Operation) -> &'static str {
    match o {
        Operation::Create(_) if is_graph_create(o) => "Graph create",
        Operation::Create(_) => "create",
        Operation::Update { .. } => "update",
        Operation::Delete => "delete",
    }
}

pub fn role_name(r: &Role) -> &'static str {
    if *r == Role::Owner { "owner" } else { "attendee" }
}

pub fn effect_name(e: &Effect) -> String {
    match e {
        Effect::Request { request, .. } => request_name(request).to_owned(),
        Effect::Notify(notice) => notice_name(notice),
    }
}

fn request_name(request: &Request) -> &'static str {
    match request {
        Request::List { from: ListFrom::Start } => "List Start",
        Request::List { from: ListFrom::Since(_) } => "List Since",
        Request::List { from: ListFrom::Continue(_) } => "List Continue",
        Request::Read { .. } => "Read",
        Request::Lookup { .. } => "Lookup",
        Request::Create { .. } => "Create",
        Request::Update { if_match: None, .. } => "Update without revision",
        Request::Update { .. } => "Update",
        Request::Delete { if_match: None, .. } => "Delete without revision",
        Request::Delete { .. } => "Delete",
    }
}

fn notice_name(notice: &Notice) -> String {
    match notice {
        Notice::Synced => "Synced".to_owned(),
        Notice::ListingFailed { reason } => format!("ListingFailed {}", reason_name(reason)),
        Notice::Applied { conflicts, refused, .. } => {
            format!("Applied, conflicts {}, refused {}", !conflicts.is_empty(), !refused.is_empty())
        }
        Notice::Rejected { reason, .. } => match reason {
            Rejection::Gone => "Rejected Gone".to_owned(),
            Rejection::Exists => "Rejected Exists".to_owned(),
            Rejection::NotOwner => "Rejected NotOwner".to_owned(),
            Rejection::Provider(reason) => format!("Rejected Provider {}", reason_name(reason)),
        },
        Notice::Expired { .. } => "Expired".to_owned(),
        Notice::Remapped { .. } => "Remapped".to_owned(),
    }
}

fn reason_name(reason: &str) -> String {
    if let Some(f) = reason.strip_prefix("unexpected failure: ") {
        return format!("failure {f}");
    }
    reason.strip_prefix("unexpected ").unwrap_or("the provider's own").to_owned()
}
