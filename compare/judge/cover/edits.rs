//! Situations of an edit that is handed in.
use super::Cover;
use super::names::{op_name, role_name};
use crate::limited::{Edit, Operation, ResourceId};
use crate::view::View;
use jiff::Timestamp;

impl Cover {
    pub(super) fn edit(&mut self, before: &View, edit: &Edit, after: &View) {
        match (before.now, edit.expires_at) {
            (Some(now), Some(at)) => {
                self.hit(format!("edit expiry {:?} now", at.cmp(&now)));
                if at <= now {
                    let aliased = before.aliases.contains_key(&edit.resource);
                    self.hit_if(aliased, "edit expired on arrival under an alias");
                    return;
                }
            }
            (None, Some(_)) => self.hit("edit expiry before any tick"),
            (_, None) => {}
        }
        let to = self.aliased(before, edit);
        let op = op_name(&edit.operation);
        match before.edits.get(&to).map_or(0, |q| q.len()) {
            0 => self.hit(format!("start {op} by {}", role_name(&edit.role))),
            1 => self.hit(format!("behind a head only: {op}")),
            n => self.coalesce(before, edit, after, &to, n),
        }
    }

    /// The queue that the edit goes to.
    fn aliased(&mut self, before: &View, edit: &Edit) -> ResourceId {
        let Some(alias) = before.aliases.get(&edit.resource) else { return edit.resource.clone() };
        if matches!(edit.operation, Operation::Create(_)) {
            self.hit("alias not followed by a create");
            return edit.resource.clone();
        }
        self.hit("alias followed");
        let again = before.aliases.get(alias).is_some_and(|next| next != alias);
        self.hit_if(again, "alias followed one hop of two");
        alias.clone()
    }

    fn coalesce(&mut self, before: &View, edit: &Edit, after: &View, to: &ResourceId, len: usize) {
        let waiting = &before.edits[to][len - 1];
        let [first, second] = [&waiting.edit, edit].map(|e| op_name(&e.operation).replace("Graph ", ""));
        let now = after.edits.get(to).map_or(0, |q| q.len());
        let how = match now.cmp(&len) {
            _ if waiting.edit.role != edit.role => "roles differ",
            std::cmp::Ordering::Equal => "folded",
            std::cmp::Ordering::Less => "cancelled",
            std::cmp::Ordering::Greater => "appended",
        };
        self.hit(format!("coalesce {first} then {second} by {}: {how}", role_name(&edit.role)));
        if how == "folded" {
            let expiry = |t: Option<Timestamp>| t.map_or(i64::MAX, |t| t.0);
            let order = expiry(edit.expires_at).cmp(&expiry(waiting.edit.expires_at));
            self.hit(format!("folded expiry {order:?} old"));
            self.hit(format!("folded, absorbed then {}", waiting.absorbed.len() + 1));
        }
        if how == "cancelled" {
            self.hit(format!("cancelled with absorbed {}", !waiting.absorbed.is_empty()));
        }
    }
}
