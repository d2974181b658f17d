use crate::folder::{Folder, MAX_PIECE, PRIVATE};
use fallible::{Vec, read_to_end};
use std::fs::{self, File, OpenOptions, Permissions};
use std::io::{self, ErrorKind, Read, Write};
use std::os::unix::fs::{OpenOptionsExt, PermissionsExt};

/// The program's current folder. That each call does what `Folder` says is believed of the system.
#[derive(Clone, Copy, Debug, Default)]
pub struct HostFolder;

// Which bits of a mode are kept. What runs as a file's owner is not to run as another, who writes the file.
const RIGHTS: u32 = 0o777;

// The mode of a name's plain file, if it has one. A link isn't followed: like a folder, a pipe or a device it is an error.
fn mode(name: &str) -> io::Result<Option<u32>> {
    match fs::symlink_metadata(name) {
        Ok(told) if told.is_file() => Ok(Some(told.permissions().mode() & RIGHTS)),
        Ok(_) => Err(ErrorKind::InvalidInput.into()),
        Err(why) if why.kind() == ErrorKind::NotFound => Ok(None),
        Err(why) => Err(why),
    }
}

impl Folder for HostFolder {
    type File = File;

    fn make_new(&mut self, name: &str, target: &str) -> io::Result<File> {
        let mut how = OpenOptions::new();
        how.read(true).write(true).create_new(true);
        if mode(target)?.is_some() {
            how.mode(PRIVATE);
        }
        how.open(name)
    }

    fn take_mode(&mut self, file: &File, name: &str) -> io::Result<()> {
        match mode(name)? {
            Some(mode) => file.set_permissions(Permissions::from_mode(mode)),
            None => Ok(()),
        }
    }

    fn append(&mut self, file: &mut File, bytes: &[u8]) -> io::Result<()> {
        file.write_all(bytes)
    }

    fn sync(&mut self, file: &File) -> io::Result<()> {
        file.sync_all()
    }

    fn rename(&mut self, from: &str, to: &str) -> io::Result<()> {
        fs::rename(from, to)
    }

    fn remove(&mut self, name: &str) -> io::Result<()> {
        fs::remove_file(name)
    }

    fn sync_folder(&mut self) -> io::Result<()> {
        File::open(".")?.sync_all()
    }

    // A link isn't followed, and a pipe isn't opened, since that may wait for its writer.
    fn look(&mut self, name: &str) -> io::Result<Option<u64>> {
        let told = fs::symlink_metadata(name)?;
        Ok(if told.is_file() {
            Some(told.len())
        } else {
            None
        })
    }

    fn open(&mut self, name: &str) -> io::Result<File> {
        File::open(name)
    }

    fn read(&mut self, file: &mut File, bytes: &mut Vec<u8>) -> io::Result<usize> {
        read_to_end(&mut Read::by_ref(file).take(MAX_PIECE as u64), bytes)
    }
}
