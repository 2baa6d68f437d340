//! The list of wrong settlements: one file each, a change of one line.
//!
//!     # the rule of document 01 or of a change request that it breaks
//!     file: a source of the separate settlement
//!     old: text that stands in it once
//!     new: text in its place

use std::fs;
use std::path::Path;

/// A change of one line.
#[derive(Debug)]
pub struct Edit {
    /// The file's name without its ending.
    pub name: String,
    /// The rule of document 01 or of a change request that it breaks.
    pub rule: String,
    /// The source file, from the separate settlement's folder on.
    pub file: String,
    old: String,
    new: String,
}

impl Edit {
    fn parse(name: &str, text: &str) -> Option<Edit> {
        let lines: Vec<&str> = text.lines().collect();
        let [rule, file, old, new] = lines[..] else {
            return None;
        };
        Some(Edit {
            name: name.to_string(),
            rule: rule.strip_prefix("# ")?.to_string(),
            file: file.strip_prefix("file: ")?.to_string(),
            old: old.strip_prefix("old: ")?.to_string(),
            new: new.strip_prefix("new: ")?.to_string(),
        })
    }

    /// The changed source; the old text must stand in it exactly once.
    pub fn apply(&self, source: &str) -> Result<String, String> {
        match source.matches(&self.old).count() {
            1 => Ok(source.replace(&self.old, &self.new)),
            times => Err(format!(
                "the old text stands {times} times in {}",
                self.file
            )),
        }
    }
}

/// All edits of a folder, by name.
pub fn read_edits(folder: &Path) -> Result<Vec<Edit>, String> {
    let told = |error| format!("{}: {error}", folder.display());
    let mut edits = Vec::new();
    for entry in fs::read_dir(folder).map_err(told)? {
        let path = entry.map_err(told)?.path();
        let text = fs::read_to_string(&path).map_err(told)?;
        let name = path.file_stem().unwrap_or_default().to_string_lossy();
        let edit =
            Edit::parse(&name, &text).ok_or(format!("{name}: not of the form of an edit"))?;
        edits.push(edit);
    }
    edits.sort_by(|one, other| one.name.cmp(&other.name));
    Ok(edits)
}

#[cfg(test)]
mod tests {
    use super::*;

    /// How many wrong settlements there are; docs/MUTATIONS.md has a row for each.
    const WRONG_SETTLEMENTS: usize = 585;

    /// The list is tried in full by the program; here no edit may fall behind the sources.
    #[test]
    fn every_edit_fits_its_source() {
        let here = Path::new(env!("CARGO_MANIFEST_DIR"));
        let edits = read_edits(&here.join("edits")).expect("the list is read");
        assert_eq!(edits.len(), WRONG_SETTLEMENTS);
        for edit in edits {
            let source = fs::read_to_string(here.join("..").join(&edit.file)).expect(&edit.name);
            let changed = edit.apply(&source).expect(&edit.name);
            assert_ne!(changed, source, "{}", edit.name);
        }
    }
}
