//! A folder as a history tells it: at each moment its names, its files, and what a crash may make of both.
use std::collections::{BTreeMap, BTreeSet};

/// The file of each name, by its number.
pub type Names = BTreeMap<String, usize>;

/// What a name leads to.
#[derive(Clone, Debug, PartialEq, Eq)]
pub enum Content {
    Plain(Vec<u8>),
    /// A link, a folder, a pipe or a device.
    Special,
}

/// A file; it is synced where nothing was written since its last sync.
#[derive(Clone, Debug, PartialEq, Eq)]
pub struct Kept {
    pub content: Content,
    pub synced: bool,
    /// What its owner, its group and others may do with it.
    pub mode: u32,
}

/// The mode of a new file.
pub const USUAL: u32 = 0o644;

/// What a crash may leave under a name.
#[derive(Clone, Debug, PartialEq, Eq)]
pub enum Left {
    Nothing,
    Exactly(Content),
    /// Some file with any content.
    AnyFile,
}

impl Left {
    /// Whether this is among what may be left.
    pub fn is_among(&self, lefts: &[Left]) -> bool {
        lefts.contains(self) || (*self != Left::Nothing && lefts.contains(&Left::AnyFile))
    }
}

/// The folder at a moment.
#[derive(Clone, Debug, PartialEq, Eq)]
pub struct Moment {
    pub names: Names,
    /// The names at each earlier moment since the folder was last synced, that one included.
    pub kept: Vec<Names>,
    pub files: Vec<Kept>,
    /// How many calls have failed.
    pub faults: u64,
}

impl Moment {
    /// A folder of these files, all of which the disk has.
    pub fn of(files: impl IntoIterator<Item = (String, Content, u32)>) -> Moment {
        let kept = |content, mode| Kept {
            content,
            synced: true,
            mode,
        };
        let (names, files): (Vec<String>, Vec<Kept>) = files
            .into_iter()
            .map(|(name, content, mode)| (name, kept(content, mode)))
            .unzip();
        Moment {
            names: names.into_iter().zip(0..).collect(),
            kept: Vec::new(),
            files,
            faults: 0,
        }
    }

    /// What a name leads to.
    pub fn seen(&self, name: &str) -> Option<&Content> {
        self.names.get(name).map(|file| &self.files[*file].content)
    }

    /// The mode of a name's file.
    pub fn mode(&self, name: &str) -> Option<u32> {
        self.names.get(name).map(|file| self.files[*file].mode)
    }

    /// The names of which a crash leaves each name one.
    pub fn lasting(&self) -> Vec<Names> {
        let mut all = vec![self.names.clone()];
        all.extend(self.kept.iter().cloned());
        all
    }

    /// All names that a crash may leave.
    pub fn lasting_names(&self) -> BTreeSet<String> {
        self.lasting().into_iter().flat_map(Names::into_keys).collect()
    }

    /// What a crash may leave under a name: each making, renaming and removal that no sync of the folder followed may be
    /// undone, and a file that isn't synced may have any content.
    pub fn left(&self, name: &str) -> Vec<Left> {
        let lasting = self.lasting();
        let left = |names: &Names| match names.get(name).map(|file| &self.files[*file]) {
            None => Left::Nothing,
            Some(file) if file.synced => Left::Exactly(file.content.clone()),
            Some(_) => Left::AnyFile,
        };
        lasting.iter().map(left).collect()
    }
}
