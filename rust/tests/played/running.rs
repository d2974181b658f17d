//! One run of the program: words, script and files in; status, output and files out.

use std::collections::BTreeMap;
use std::ffi::{OsStr, OsString};
use std::fs;
use std::io::{self, Write};
use std::os::fd::OwnedFd;
use std::os::unix::ffi::OsStrExt;
use std::os::unix::net::UnixStream;
use std::path::{Path, PathBuf};
use std::process::{Command, Stdio};
use std::sync::atomic::{AtomicUsize, Ordering};
use std::thread;

/// The bytes of files, by their paths below a folder.
pub type Files = BTreeMap<PathBuf, Vec<u8>>;

/// What becomes of a stream that the program writes to.
#[derive(Clone, Copy, Debug, PartialEq, Eq)]
pub enum Stream {
    Read,
    Closed,
    Unread,
}

/// What a run is given.
#[derive(Clone, Debug)]
pub struct Given {
    pub words: Vec<Vec<u8>>,
    pub script: Vec<u8>,
    pub files: Files,
    pub output: Stream,
    pub errors: Stream,
}

/// What a run did.
#[derive(Clone, Debug, PartialEq, Eq)]
pub struct Ended {
    pub status: Option<i32>,
    pub wrote: Vec<u8>,
    pub complained: Vec<u8>,
    pub files: Files,
}

impl Given {
    /// A script alone.
    pub fn script(words: &[String], script: &[u8]) -> Given {
        Given {
            words: words.iter().map(|word| word.clone().into_bytes()).collect(),
            script: script.to_vec(),
            files: Files::new(),
            output: Stream::Read,
            errors: Stream::Read,
        }
    }

    /// Runs the program in a folder of its own.
    pub fn run(&self) -> io::Result<Ended> {
        let folder = Folder::new()?;
        for (name, bytes) in &self.files {
            let path = folder.path.join(name);
            fs::create_dir_all(path.parent().unwrap_or(&folder.path))?;
            fs::write(path, bytes)?;
        }
        let mut child = self.command().current_dir(&folder.path).spawn()?;
        let input = child.stdin.take();
        let ended = thread::scope(|scope| {
            // A program that has ended takes no more of its script.
            scope.spawn(|| input.map(|mut input| input.write_all(&self.script)));
            child.wait_with_output()
        })?;
        Ok(Ended {
            status: ended.status.code(),
            wrote: ended.stdout,
            complained: ended.stderr,
            files: files_below(&folder.path)?,
        })
    }

    fn command(&self) -> Command {
        let mut command = Command::new("sh");
        command.arg("-c").arg(format!(
            r#"exec "$@"{}{}"#,
            closing(self.output, " >&-"),
            closing(self.errors, " 2>&-")
        ));
        command.arg("sh").arg(env!("CARGO_BIN_EXE_site_cli"));
        command.args(self.words.iter().map(|word| OsStr::from_bytes(word)));
        command.stdin(Stdio::piped());
        command.stdout(pipe(self.output)).stderr(pipe(self.errors));
        command
    }
}

fn closing(stream: Stream, word: &str) -> &str {
    if stream == Stream::Closed { word } else { "" }
}

fn pipe(stream: Stream) -> Stdio {
    match stream {
        // A pair of which one end is dropped: nobody reads what is written to the other.
        Stream::Unread => {
            UnixStream::pair().map_or(Stdio::null(), |(end, _)| OwnedFd::from(end).into())
        }
        Stream::Read | Stream::Closed => Stdio::piped(),
    }
}

/// All files below a folder.
pub fn files_below(folder: &Path) -> io::Result<Files> {
    let mut found = Files::new();
    let mut left = vec![folder.to_path_buf()];
    while let Some(at) = left.pop() {
        for entry in fs::read_dir(at)? {
            let path = entry?.path();
            if path.is_dir() {
                left.push(path);
            } else {
                let name = path.strip_prefix(folder).map_err(io::Error::other)?;
                found.insert(name.to_path_buf(), fs::read(&path)?);
            }
        }
    }
    Ok(found)
}

// A folder that is taken away at the end.
struct Folder {
    path: PathBuf,
}

impl Folder {
    fn new() -> io::Result<Folder> {
        static COUNT: AtomicUsize = AtomicUsize::new(0);
        let mut name = OsString::from("vialshoal-");
        name.push(format!(
            "{}-{}",
            std::process::id(),
            COUNT.fetch_add(1, Ordering::Relaxed)
        ));
        // If possible a folder in memory, in which a sync costs nothing.
        let in_memory = Path::new("/dev/shm").join(&name);
        let path = match fs::create_dir(&in_memory) {
            Ok(()) => in_memory,
            Err(_) => std::env::temp_dir().join(&name),
        };
        fs::create_dir_all(&path)?;
        Ok(Folder { path })
    }
}

impl Drop for Folder {
    fn drop(&mut self) {
        let _ = fs::remove_dir_all(&self.path);
    }
}
