//! What a folder holds.

use std::collections::BTreeMap;
use std::fs;
use std::io;
use std::path::Path;

/// The bytes of each file and, without bytes, each folder, by path from the folder.
#[derive(Clone, Debug, Default, PartialEq, Eq, Hash)]
pub struct Tree(BTreeMap<String, Option<Vec<u8>>>);

impl Tree {
    pub fn load(folder: &Path) -> io::Result<Self> {
        let mut tree = Tree::default();
        tree.add(folder, "")?;
        Ok(tree)
    }

    fn add(&mut self, folder: &Path, prefix: &str) -> io::Result<()> {
        for entry in fs::read_dir(folder)? {
            let entry = entry?;
            let name = format!("{prefix}{}", entry.file_name().to_string_lossy());
            if entry.file_type()?.is_dir() {
                self.add(&entry.path(), &format!("{name}/"))?;
                self.put_folder(&name);
            } else {
                self.put(&name, fs::read(entry.path())?);
            }
        }
        Ok(())
    }

    /// Makes the folder hold this and nothing else.
    pub fn store(&self, folder: &Path) -> io::Result<()> {
        if folder.exists() {
            fs::remove_dir_all(folder)?;
        }
        fs::create_dir_all(folder)?;
        // A folder's name sorts before those of the files in it.
        for (name, bytes) in &self.0 {
            match bytes {
                None => fs::create_dir(folder.join(name))?,
                Some(bytes) => fs::write(folder.join(name), bytes)?,
            }
        }
        Ok(())
    }

    pub fn put(&mut self, name: &str, bytes: Vec<u8>) {
        self.0.insert(name.into(), Some(bytes));
    }

    pub fn put_folder(&mut self, name: &str) {
        self.0.insert(name.into(), None);
    }

    pub fn remove(&mut self, name: &str) {
        self.0.remove(name);
    }

    /// The bytes of a file, if it is there.
    pub fn file(&self, name: &str) -> Option<&[u8]> {
        self.0.get(name)?.as_deref()
    }

    pub fn names(&self) -> impl Iterator<Item = &str> {
        self.0.keys().map(String::as_str)
    }
}
