//! The frozen files, held to what they were when they were frozen.

use crate::digest::Digest;
use std::path::{Path, PathBuf};
use std::{env, fs, io};

/// A frozen file: its path in the folder, its size, and the digest of its bytes.
pub struct Frozen {
    pub path: &'static str,
    pub size: usize,
    pub digest: Digest,
}

/// All of them. These numbers stay: whoever needs others has changed what must not change.
pub const FILES: [Frozen; 10] = [
    frozen("data/apply", 240_000, 0x2553_f99e_042c_47cc),
    frozen("data/build", 200_000, 0xa903_f4ae_7629_6f0f),
    frozen("data/compose", 400_000, 0x4764_1daa_3c46_759b),
    frozen("data/decode", 331_635, 0xabfe_0467_3cc8_3d62),
    frozen("data/listing", 80_000, 0xef63_4e8c_62a9_c255),
    frozen("data/lists", 863_982, 0x874e_aee6_9dd3_5eb6),
    frozen("data/pools", 198_656, 0xb4ec_5623_b0c1_2fdf),
    frozen("data/run", 360_000, 0xfd33_0d63_ed32_bc06),
    frozen("data/step", 506_200, 0x8808_6872_d6fc_cf83),
    frozen("stdout", 2_933_176, 0xcd31_9df7_d046_5e29),
];

const fn frozen(path: &'static str, size: usize, digest: u64) -> Frozen {
    let digest = Digest(digest);
    Frozen { path, size, digest }
}

/// The folder of the frozen files. Cargo says where this package is when it runs a test; the path
/// that was compiled in can be that of another checkout, if the two share a build folder.
pub fn folder() -> PathBuf {
    let given = env::var_os("CARGO_MANIFEST_DIR");
    let own = given.unwrap_or_else(|| env!("CARGO_MANIFEST_DIR").into());
    Path::new(&own).join("base")
}

/// Each of the files that is missing or has changed, and each other file, in a sentence.
pub fn changes(files: &[Frozen], folder: &Path) -> Vec<String> {
    let changed = files.iter().filter_map(|file| file.change(folder));
    changed.chain(others(files, folder)).collect()
}

impl Frozen {
    /// Says how the file has changed, if it has.
    fn change(&self, folder: &Path) -> Option<String> {
        let path = self.path;
        let bytes = match fs::read(folder.join(path)) {
            Ok(bytes) => bytes,
            Err(e) => return Some(format!("base/{path} cannot be read: {e}")),
        };
        let (size, digest) = (bytes.len(), Digest::of(&bytes));
        let same = size == self.size && digest == self.digest;
        (!same).then(|| {
            format!(
                "base/{path} has changed: {size} bytes with digest {digest}, not {} with {}",
                self.size, self.digest
            )
        })
    }
}

fn others(files: &[Frozen], folder: &Path) -> Vec<String> {
    // A folder that cannot be read has none; its own files are then missing.
    let found = ["", "data"].map(|inner| present(folder, inner).unwrap_or_default());
    let mut paths = found.concat();
    paths.retain(|path| files.iter().all(|file| Path::new(file.path) != path));
    let sentence = |path: PathBuf| format!("base/{} is no frozen file", path.display());
    paths.into_iter().map(sentence).collect()
}

/// The paths of the files that lie right in `inner`.
fn present(folder: &Path, inner: &str) -> io::Result<Vec<PathBuf>> {
    let mut paths = Vec::new();
    for entry in fs::read_dir(folder.join(inner))? {
        let entry = entry?;
        if !entry.file_type()?.is_dir() {
            paths.push(Path::new(inner).join(entry.file_name()));
        }
    }
    Ok(paths)
}
