// No part of the crate: what the examples in its comments and its tests share. Each example is a process of its own.
use std::path::{Path, PathBuf};
#[allow(unused_imports)]
pub use zelamiku::*;

/// A path in the system's folder for temporary files. The file there is removed with it.
pub struct Scratch(PathBuf);

impl Scratch {
    /// Of this name among the tests of this process. No file is there.
    pub fn new(name: &str) -> Scratch {
        let path = std::env::temp_dir().join(format!("zelamiku-{name}-{}", std::process::id()));
        let _ = std::fs::remove_file(&path);
        Scratch(path)
    }
}

impl AsRef<Path> for Scratch {
    fn as_ref(&self) -> &Path {
        &self.0
    }
}

impl Drop for Scratch {
    fn drop(&mut self) {
        let _ = std::fs::remove_file(&self.0);
    }
}

/// A new heap: objects 0 and 1, and their fields of the same numbers, which are 100.
#[allow(dead_code)]
pub fn new_heap() -> (Heap, Scratch) {
    let path = Scratch::new("example");
    let heap = Heap::options().objects(2).field(Field(0), Object(0), 100).field(Field(1), Object(1), 100).open(&path).unwrap();
    (heap, path)
}
