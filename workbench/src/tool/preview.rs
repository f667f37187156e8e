//! What judge would answer of a file if a given set stood in place of a name's
//! own, by the proved library, beside what it answers now.

use std::path::Path;

use super::json::{self, object, string};
use super::outcome::{judged, load, Outcome};
use super::report;
use super::tables::{change, replaced, Given};
use crate::checker::Refusal;
use crate::reference::document::{Name, Set, Table};
use crate::reference::print::{set_text, table_text};

/// What would become of a file, and what becomes of it now.
pub struct Preview {
    name: Name,
    before: Set,
    after: Set,
    now: Result<usize, Refusal>,
    /// Its lines count in the text with the set.
    pub then: Outcome,
}

/// Previews a given set; the outcome of a file that cannot be read or loaded, or
/// of a set that is refused.
pub fn preview(path: &Path, given: &Given) -> Result<Preview, Outcome> {
    let (mut store, _) = load(path)?;
    let now = store.judge();
    let answer = given.preview(&mut store);
    let changed = replaced(store, given)?;
    let name = given.name;
    Ok(Preview {
        name,
        before: changed.before.values(name).clone(),
        after: changed.after.values(name).clone(),
        now,
        then: judged(&changed.store, changed.counts, answer),
    })
}

/// The preview of one file, for people.
pub fn text(file: &str, preview: &Preview, colours: bool) -> String {
    let table = Table::Values(preview.name);
    let mut text = match preview.before == preview.after {
        true => format!("{} stays\n", table_text(table, &preview.before)),
        false => change(table, &preview.before, &preview.after),
    };
    text += &report::answer(&format!("{file} as it is"), preview.now, colours);
    text += &report::supposed(&format!("{file} with this set"), &preview.then, colours);
    if let Outcome::Refused { .. } = preview.then {
        text += "  Lines count in the text with this set, which `channel-check replace` prints.\n";
    }
    text
}

/// The preview of one file, as JSON: the fields of `check` tell of the file with
/// the set, `now` of the file as it is.
pub fn line(file: &Path, preview: &Preview) -> String {
    let mut fields = json::file(file);
    fields.extend([
        ("name", preview.name.to_string()),
        ("before", string(&set_text(&preview.before))),
        ("after", string(&set_text(&preview.after))),
        ("now", object(json::answer(preview.now))),
    ]);
    fields.extend(json::outcome(&preview.then));
    object(fields) + "\n"
}
