//! The real recordings of the repository.
use std::path::{Path, PathBuf};

/// A recording, and where it should be.
pub struct Recording {
    pub name: &'static str,
    path: PathBuf,
}

impl Recording {
    pub const NAMES: [&'static str; 6] = [
        "rtcm3-1.bin",
        "rtcm3-3.bin",
        "rtcm3.bndm.bin",
        "rtcm3.bin",
        "ublox-f9p-rtcm.bin",
        "testglo.rtcm3",
    ];

    /// All recordings, in the folder that RECORDINGS names, or in that of the C tests.
    pub fn all(root: &Path) -> Vec<Recording> {
        let folder = match std::env::var_os("RECORDINGS") {
            Some(folder) => PathBuf::from(folder),
            None => root.join("c/data"),
        };
        let recording = |name| Recording {
            name,
            path: folder.join(name),
        };
        Recording::NAMES.into_iter().map(recording).collect()
    }

    /// What it holds, or nothing where it is missing.
    pub fn bytes(&self) -> Option<Vec<u8>> {
        std::fs::read(&self.path).ok()
    }
}
