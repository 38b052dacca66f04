//! A disk under a running system: what programs see, and what is sure to be there after the power
//! failed. Nothing is sure before it is synced. Until then a write may be there, be missing or be
//! torn, each by itself, and so may a new name or a new length.

use std::collections::BTreeMap;

use crate::calls::{Call, Logged, INTERRUPTED};
use crate::change::{Change, Fate};
use crate::tree::Tree;

#[derive(Clone, Default)]
struct File {
    is_folder: bool,
    /// What programs see.
    now: Vec<u8>,
    /// What is sure to be there, and what has been done since, in order.
    sure: Vec<u8>,
    since: Vec<(Change, Fate)>,
}

/// A change of names, of the file with this number.
#[derive(Clone)]
enum Naming {
    Add {
        path: String,
        file: usize,
    },
    Remove {
        path: String,
    },
    Move {
        from: String,
        to: String,
        file: usize,
    },
}

type Names = BTreeMap<String, usize>;

#[derive(Clone, Default)]
pub struct Disk {
    files: Vec<File>,
    now: Names,
    sure: Names,
    since: Vec<Naming>,
    /// The open files of the running process.
    open: BTreeMap<i32, usize>,
}

const ROOT: usize = 0;

impl Disk {
    /// A disk on which all of this is sure.
    pub fn with(tree: &Tree) -> Self {
        let root = File {
            is_folder: true,
            ..File::default()
        };
        let mut disk = Disk {
            files: vec![root],
            ..Disk::default()
        };
        disk.now.insert(".".into(), ROOT);
        disk.sure = disk.now.clone();
        for name in tree.names() {
            disk.put(name, tree.file(name));
        }
        disk
    }

    /// Puts a file there from outside, for good; without bytes a folder.
    pub fn put(&mut self, path: &str, bytes: Option<&[u8]>) {
        let bytes = bytes.map(<[u8]>::to_vec);
        self.files.push(File {
            is_folder: bytes.is_none(),
            now: bytes.clone().unwrap_or_default(),
            sure: bytes.unwrap_or_default(),
            since: Vec::new(),
        });
        self.now.insert(path.into(), self.files.len() - 1);
        self.sure.insert(path.into(), self.files.len() - 1);
    }

    /// What programs see.
    pub fn seen(&self) -> Tree {
        self.tree(&self.now, |file| self.files[file].now.clone())
    }

    /// A new process has no file open.
    pub fn start_process(&mut self) {
        self.open.clear();
    }

    /// Does what the call did; true if it had an effect on what may be there after a power cut.
    pub fn play(&mut self, logged: &Logged) -> bool {
        let failed = logged.result < 0;
        match &logged.call {
            _ if logged.result == INTERRUPTED => return false,
            Call::Sync { fd } => return self.sync(self.open[fd], failed),
            _ if failed => return false,
            Call::Open { purpose, path } => return self.open(purpose, path, logged.result as i32),
            Call::Write { fd, offset, bytes } => {
                let file = self.open_file(*fd);
                let change = Change::write(*offset, bytes, file.now.len());
                file.change(change);
            }
            Call::Cut { fd, length } => self.open_file(*fd).change(Change::Cut(*length)),
            Call::Access | Call::Close | Call::Lock => return false,
            Call::Rename { from, to } => self.rename(from, to),
            Call::Unlink { path } => {
                self.now.remove(path);
                self.since.push(Naming::Remove { path: path.clone() });
            }
            Call::MakeFolder { path } => {
                self.add(path, true);
            }
        }
        true
    }

    fn open_file(&mut self, fd: i32) -> &mut File {
        &mut self.files[self.open[&fd]]
    }

    fn open(&mut self, purpose: &str, path: &str, fd: i32) -> bool {
        let path = path.trim_end_matches('/');
        if let Some(&file) = self.now.get(path) {
            self.open.insert(fd, file);
            let empties = purpose.contains('t') && !self.files[file].now.is_empty();
            if empties {
                self.files[file].change(Change::Cut(0));
            }
            return empties;
        }
        // What lies outside, like settings of a library, is of no interest.
        if purpose.contains('c') {
            let file = self.add(path, false);
            self.open.insert(fd, file);
        }
        purpose.contains('c')
    }

    fn add(&mut self, path: &str, is_folder: bool) -> usize {
        let file = self.files.len();
        self.files.push(File {
            is_folder,
            ..File::default()
        });
        self.now.insert(path.into(), file);
        self.since.push(Naming::Add {
            path: path.into(),
            file,
        });
        file
    }

    fn rename(&mut self, from: &str, to: &str) {
        let file = self.now.remove(from).expect("a renamed file is there");
        self.now.insert(to.into(), file);
        self.since.push(Naming::Move {
            from: from.into(),
            to: to.into(),
            file,
        });
    }

    fn sync(&mut self, file: usize, failed: bool) -> bool {
        if !self.files[file].is_folder {
            self.files[file].sync(failed);
            return true;
        }
        if failed {
            return false;
        }
        let folder = |naming: &Naming| self.now.get(parent(naming.path())) == Some(&file);
        let (synced, left) = self.since.iter().cloned().partition(folder);
        self.since = left;
        let synced: Vec<Naming> = synced;
        synced
            .iter()
            .for_each(|naming| naming.apply(&mut self.sure));
        true
    }

    /// How many ways there are for each thing that isn't sure.
    pub fn choices(&self) -> Vec<usize> {
        let names = self.since.iter().map(|_| 2);
        let changes = self.files.iter().flat_map(File::loose);
        names.chain(changes.map(Change::ways)).collect()
    }

    /// What is there after a power cut, where `ways` says how each thing that isn't sure came out.
    pub fn after_cut(&self, ways: &[usize]) -> Tree {
        let (name_ways, mut rest) = ways.split_at(self.since.len());
        let mut names = self.sure.clone();
        for (naming, &way) in self.since.iter().zip(name_ways) {
            if way == 1 {
                naming.apply(&mut names);
            }
        }
        let mut file_ways = Vec::new();
        for file in &self.files {
            let (own, others) = rest.split_at(file.loose().count());
            file_ways.push(own);
            rest = others;
        }
        self.tree(&names, |file| self.files[file].after_cut(file_ways[file]))
    }

    /// The files that these names lead to, from folders that are there.
    fn tree(&self, names: &Names, content: impl Fn(usize) -> Vec<u8>) -> Tree {
        let mut tree = Tree::default();
        for (path, &file) in names.iter().filter(|(_, &file)| file != ROOT) {
            if !names.contains_key(parent(path)) {
                continue;
            }
            if self.files[file].is_folder {
                tree.put_folder(path);
            } else {
                tree.put(path, content(file));
            }
        }
        tree
    }
}

impl File {
    fn change(&mut self, change: Change) {
        change.make(&mut self.now);
        self.since.push((change, Fate::Loose));
    }

    fn sync(&mut self, failed: bool) {
        let fate = if failed { Fate::Doubtful } else { Fate::Firm };
        for (_, old) in &mut self.since {
            if *old == Fate::Loose {
                *old = fate;
            }
        }
        let firm = self
            .since
            .iter()
            .take_while(|(_, fate)| *fate == Fate::Firm);
        for (change, _) in self.since.drain(..firm.count()) {
            change.make(&mut self.sure);
        }
    }

    /// The changes that aren't sure.
    fn loose(&self) -> impl Iterator<Item = &Change> {
        let loose = self.since.iter().filter(|(_, fate)| *fate != Fate::Firm);
        loose.map(|(change, _)| change)
    }

    fn after_cut(&self, ways: &[usize]) -> Vec<u8> {
        let mut bytes = self.sure.clone();
        let mut ways = ways.iter();
        for (change, fate) in &self.since {
            match fate {
                Fate::Firm => change.make(&mut bytes),
                _ => change.apply(&mut bytes, *ways.next().expect("a way for each change")),
            }
        }
        bytes
    }
}

impl Naming {
    fn path(&self) -> &str {
        match self {
            Naming::Add { path, .. } | Naming::Remove { path } => path,
            Naming::Move { to, .. } => to,
        }
    }

    fn apply(&self, names: &mut Names) {
        match self {
            Naming::Add { path, file } => {
                names.insert(path.clone(), *file);
            }
            Naming::Remove { path } => {
                names.remove(path);
            }
            Naming::Move { from, to, file } => {
                names.retain(|path, named| path != from || named != file);
                names.insert(to.clone(), *file);
            }
        }
    }
}

/// The folder that a name stands in.
fn parent(path: &str) -> &str {
    path.rsplit_once('/').map_or(".", |(folder, _)| folder)
}

#[cfg(test)]
mod tests {
    use super::Disk;
    use crate::calls::read_log;
    use crate::cuts::cuts;
    use crate::tree::Tree;
    use reference::prng::Prng;

    const CREATE: &str = "1\topen\t3\twct\tnew\n2\twrite\t2\t3\t0\t6162\n";
    const RENAME: &str = "4\trename\t0\tnew\told\n";

    /// All that a file may hold after these calls and a power cut; "-" where it isn't there.
    fn outcomes(log: &str, file: &str) -> Vec<String> {
        let mut tree = Tree::default();
        tree.put("old", b"o".to_vec());
        let mut disk = Disk::with(&tree);
        for logged in read_log(log) {
            disk.play(&logged);
        }
        let shown = |ways: Vec<usize>| match disk.after_cut(&ways).file(file) {
            None => "-".to_string(),
            Some(bytes) => String::from_utf8(bytes.to_vec()).expect("text"),
        };
        let all = cuts(&disk.choices(), 10_000, &mut Prng::seeded(0));
        let mut found: Vec<String> = all.into_iter().map(shown).collect();
        found.sort();
        found.dedup();
        found
    }

    #[test]
    fn nothing_is_sure_before_the_sync() {
        let found = outcomes(CREATE, "new");
        assert_eq!(found, ["", "\0\0", "\0b", "-", "a", "ab"]);
    }

    #[test]
    fn bytes_are_sure_after_it_and_the_name_is_not() {
        let found = outcomes(&format!("{CREATE}3\tfsync\t0\t3\n"), "new");
        assert_eq!(found, ["-", "ab"]);
    }

    #[test]
    fn a_failed_sync_leaves_the_bytes_in_doubt_for_good() {
        let log = format!("{CREATE}3\tfsync\t-5\t3\n4\tfsync\t0\t3\n");
        assert!(outcomes(&log, "new").contains(&String::new()));
        let again = format!("{log}5\twrite\t2\t3\t0\t6162\n6\tfsync\t0\t3\n");
        assert_eq!(outcomes(&again, "new"), ["-", "ab"]);
    }

    #[test]
    fn an_interrupted_sync_can_be_made_again() {
        let log = format!("{CREATE}3\tfsync\t-4\t3\n4\tfsync\t0\t3\n");
        assert_eq!(outcomes(&log, "new"), ["-", "ab"]);
    }

    #[test]
    fn a_file_renamed_before_its_sync_may_be_empty() {
        let found = outcomes(&format!("{CREATE}{RENAME}"), "old");
        assert!(found.contains(&"o".into()) && found.contains(&String::new()));
    }

    #[test]
    fn a_name_is_sure_once_its_folder_is_synced() {
        let log = format!("{CREATE}3\tfsync\t0\t3\n{RENAME}5\topen\t4\trd\t.\n");
        assert_eq!(outcomes(&log, "old"), ["ab", "o"]);
        let synced = format!("{log}6\tfsync\t0\t4\n");
        assert_eq!(outcomes(&synced, "old"), ["ab"]);
        assert_eq!(outcomes(&synced, "new"), ["-"]);
    }

    #[test]
    fn a_folder_that_is_not_sure_takes_its_files_along() {
        let log = "1\tmkdir\t0\tbox\n2\topen\t3\twc\tbox/a\n3\topen\t4\trd\tbox\n4\tfsync\t0\t4\n";
        assert_eq!(outcomes(log, "box/a"), ["", "-"]);
    }
}
