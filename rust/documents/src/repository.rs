//! The files of the repository, in memory, by their path from its root.
use std::collections::BTreeMap;
use std::path::Path;
use std::{fs, io};

pub struct Repository {
    files: BTreeMap<String, String>,
}

impl Repository {
    pub fn read(root: &Path) -> io::Result<Self> {
        let mut files = BTreeMap::new();
        read_folder(root, "", &mut files)?;
        Ok(Repository { files })
    }

    #[cfg(test)]
    pub fn of(files: &[(&str, &str)]) -> Self {
        let owned = |(path, text): &(&str, &str)| (path.to_string(), text.to_string());
        Repository {
            files: files.iter().map(owned).collect(),
        }
    }

    pub fn text(&self, path: &str) -> Option<&str> {
        self.files.get(path).map(String::as_str)
    }

    pub fn files(&self) -> impl Iterator<Item = (&str, &str)> {
        self.files.iter().map(|(p, t)| (p.as_str(), t.as_str()))
    }

    /// The files of a folder, at any depth.
    pub fn under<'a>(&'a self, folder: &'a str) -> impl Iterator<Item = (&'a str, &'a str)> {
        self.files().filter(move |(path, _)| {
            path.strip_prefix(folder)
                .is_some_and(|p| p.starts_with('/'))
        })
    }

    /// Whether a file or folder is there. A `*` stands for any part of a name.
    pub fn has(&self, path: &str) -> bool {
        let wanted: Vec<&str> = path.trim_end_matches('/').split('/').collect();
        self.files.keys().any(|file| {
            let names: Vec<&str> = file.split('/').collect();
            names.len() >= wanted.len() && wanted.iter().zip(&names).all(|(w, n)| matches(w, n))
        })
    }
}

fn matches(wanted: &str, name: &str) -> bool {
    match wanted.split_once('*') {
        None => wanted == name,
        Some((head, tail)) => {
            name.len() >= head.len() + tail.len() && name.starts_with(head) && name.ends_with(tail)
        }
    }
}

/// What is built, and what git keeps, is no part of the repository.
fn made(name: &str, path: &str) -> bool {
    let in_crate = path.starts_with("crates/") && path.matches('/').count() == 2;
    name == ".git" || name == "target" || (in_crate && name == "out")
}

fn read_folder(folder: &Path, path: &str, files: &mut BTreeMap<String, String>) -> io::Result<()> {
    for entry in fs::read_dir(folder)? {
        let entry = entry?;
        let name = entry.file_name().to_string_lossy().into_owned();
        let path = if path.is_empty() {
            name.clone()
        } else {
            format!("{path}/{name}")
        };
        if entry.file_type()?.is_dir() {
            if !made(&name, &path) {
                read_folder(&entry.path(), &path, files)?;
            }
        } else {
            let bytes = fs::read(entry.path())?;
            files.insert(path, String::from_utf8_lossy(&bytes).into_owned());
        }
    }
    Ok(())
}
