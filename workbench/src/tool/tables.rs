//! A file with other tables, by the proved library, and what they change: its
//! smallest tables, or a given set in place of a name's own.

use std::collections::BTreeSet;
use std::path::Path;

use super::outcome::{document, load, refused_at, told, Outcome};
use crate::checker::{row_bytes, Counts, Refusal, Store};
use crate::explain::explain_replacement;
use crate::reference::document::{Document, Listed, Name, Set, Table};
use crate::reference::print::table_text;

/// A file with other tables.
pub struct Changed {
    /// The file's text with them.
    pub text: Vec<u8>,
    pub store: Store,
    pub counts: Counts,
    pub before: Document,
    pub after: Document,
}

/// A set given for a name.
#[derive(Debug)]
pub struct Given {
    pub name: Name,
    pub set: Listed,
}

impl Given {
    fn replace(&self, store: &mut Store) -> Result<Counts, Refusal> {
        store.replace(self.name, self.set.unit, &row_bytes(&self.set.rows))
    }

    /// What judge would answer on a store with the set in place of the name's own.
    pub fn preview(&self, store: &mut Store) -> Result<usize, Refusal> {
        store.preview(self.name, self.set.unit, &row_bytes(&self.set.rows))
    }
}

/// A store after a call that changes its tables.
fn changed(
    mut store: Store,
    call: impl FnOnce(&mut Store) -> Result<Counts, Refusal>,
) -> Result<Changed, Refusal> {
    let before = document(&store);
    let counts = call(&mut store)?;
    Ok(Changed {
        text: store.text()?,
        after: document(&store),
        before,
        counts,
        store,
    })
}

/// Puts the smallest tables into a file; the outcome of one that cannot be read
/// or loaded.
pub fn infer(path: &Path) -> Result<Changed, Outcome> {
    let (store, _) = load(path)?;
    changed(store, Store::infer).map_err(|refusal| refused_at(&[], refusal, None))
}

/// Puts a given set into a file; the outcome of a file that cannot be read or
/// loaded, or of a set that is refused.
pub fn replace(path: &Path, given: &Given) -> Result<Changed, Outcome> {
    let (store, _) = load(path)?;
    replaced(store, given)
}

/// Puts a given set into a store, or the outcome of one that is refused.
pub fn replaced(store: Store, given: &Given) -> Result<Changed, Outcome> {
    let document = document(&store);
    changed(store, |store| given.replace(store)).map_err(|refusal| {
        let explanation = explain_replacement(&document, given.name, &given.set, told(refusal));
        refused_at(&[], refusal, explanation)
    })
}

impl Changed {
    /// Each set that changed, before and after, with the members that went and
    /// those that came; and how many sets changed.
    pub fn diff(&self) -> String {
        let (before, after) = (&self.before, &self.after);
        let lines = before.tables().chain(after.tables());
        let tables: BTreeSet<Table> = lines.map(|(table, _)| table).collect();
        let mut text = String::new();
        let mut changed = 0;
        for table in tables {
            let (old, new) = (before.set(table), after.set(table));
            if old != new {
                changed += 1;
                text += &change(table, old, new);
            }
        }
        text + &match changed {
            0 => "no set changed\n".to_string(),
            1 => "1 set changed\n".to_string(),
            _ => format!("{changed} sets changed\n"),
        }
    }
}

/// A set before and after, with the members that went and those that came.
pub fn change(table: Table, old: &Set, new: &Set) -> String {
    let [from, to] = [old, new].map(|set| table_text(table, set));
    let mut text = format!("{from} -> {to}\n");
    for (word, set) in [("went", old.without(new)), ("came", new.without(old))] {
        if !set.is_empty() {
            let members: Vec<String> = set.members().map(|member| member.to_string()).collect();
            text += &format!("  {word}: {}\n", members.join(" "));
        }
    }
    text
}
