//! The folder of a run's files.
use std::collections::hash_map::RandomState;
use std::fs::{self, DirBuilder};
use std::hash::{BuildHasher, Hasher};
use std::io::{self, ErrorKind};
use std::os::unix::fs::DirBuilderExt;
use std::path::{Path, PathBuf};

/// A folder, which goes away when it is dropped, unless it was given.
pub(crate) struct Folder {
    pub(crate) path: PathBuf,
    is_own: bool,
}

impl Folder {
    pub(crate) fn new(given: Option<&Path>) -> io::Result<Folder> {
        if let Some(path) = given {
            fs::create_dir_all(path)?;
            return Ok(Folder { path: path.to_owned(), is_own: false });
        }
        loop {
            let path = std::env::temp_dir().join(format!("toxi-{:016x}", random()));
            match DirBuilder::new().mode(0o700).create(&path) {
                Ok(()) => return Ok(Folder { path, is_own: true }),
                Err(error) if error.kind() == ErrorKind::AlreadyExists => {}
                Err(error) => return Err(error),
            }
        }
    }
}

impl Drop for Folder {
    fn drop(&mut self) {
        if self.is_own {
            // What can't be removed stays in the folder of temporary files.
            let _ = fs::remove_dir_all(&self.path);
        }
    }
}

/// A number that std's hash maps are keyed with.
pub(crate) fn random() -> u64 {
    RandomState::new().build_hasher().finish()
}
