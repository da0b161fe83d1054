//! A sheet that is read and not evaluated: its own start may be one whose run fits no table.

use lawhemuri::Question;

use crate::load::Source;
use crate::refusal::{told, Told};

/// A sheet that is accepted: the names of its fluents, and what it asks.
pub struct Sheet {
    /// The file's name, without its folder.
    pub file: String,
    /// The same without `.sheet`.
    pub name: String,
    /// The names of the fluents, in their order.
    pub fluents: Vec<String>,
    read: lawhemuri::Sheet,
    rules: Vec<u16>,
}

impl Sheet {
    /// Reads a sheet; a refusal is told in words.
    pub fn of(source: &Source) -> Result<Sheet, Box<Told>> {
        let mut rules = vec![0; lawhemuri::MOST_RULE_WORDS];
        let unread = |unread| Box::new(told(&source.text, source.length, unread));
        let read = lawhemuri::read(&source.text, &mut rules).map_err(unread)?;
        let name = |k| String::from_utf8_lossy(lawhemuri::fluent_name(&source.text, k)).into_owned();
        let fluents = (0..read.fluents).map(name).collect();
        Ok(Sheet { file: source.file.clone(), name: source.name.clone(), fluents, read, rules })
    }

    /// What the sheet asks of the library.
    pub fn question(&self) -> Question<'_> {
        self.read.question(&self.rules)
    }
}
