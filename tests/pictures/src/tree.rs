//! The repository's files, as they are or with one of them made wrong.

use std::collections::BTreeMap;
use std::fs;
use std::path::PathBuf;

pub struct Tree {
    root: PathBuf,
    changed: BTreeMap<String, String>,
}

impl Tree {
    /// The tree that this package is in.
    pub fn here() -> Tree {
        Tree {
            root: PathBuf::from(env!("CARGO_MANIFEST_DIR")).join("../.."),
            changed: BTreeMap::new(),
        }
    }

    /// With this replaced in a file, where it must stand once.
    pub fn with(mut self, path: &str, old: &str, new: &str) -> Tree {
        let text = self.read(path).expect("the file is there");
        assert_eq!(text.matches(old).count(), 1, "'{old}' in {path}");
        self.changed
            .insert(path.to_string(), text.replace(old, new));
        self
    }

    pub fn read(&self, path: &str) -> Result<String, String> {
        if let Some(text) = self.changed.get(path) {
            return Ok(text.clone());
        }
        fs::read_to_string(self.root.join(path)).map_err(|error| format!("{path}: {error}"))
    }

    pub fn exists(&self, path: &str) -> bool {
        self.root.join(path).exists()
    }

    /// The names in a folder, in order; none where there is no such folder.
    pub fn names(&self, folder: &str) -> Vec<String> {
        let entries = fs::read_dir(self.root.join(folder)).into_iter().flatten();
        let mut names: Vec<_> = entries
            .filter_map(|entry| entry.ok()?.file_name().into_string().ok())
            .collect();
        names.sort();
        names
    }
}
