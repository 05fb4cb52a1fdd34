//! The files that the gate puts to the programs, as tools/pack-jobs packs them.
use std::path::{Path, PathBuf};

/// The folder of the gate's program `vectors`.
pub fn folder() -> PathBuf {
    Path::new(env!("CARGO_MANIFEST_DIR")).join("../../crates/vectors")
}

/// The jobs of a pack, as tools/pack-jobs writes them.
fn unpacked(pack: &[u8]) -> Vec<(String, Vec<u8>)> {
    let mut at = 0;
    let mut found = Vec::new();
    while at < pack.len() {
        let n = pack[at] as usize;
        let name = String::from_utf8(pack[at + 1..at + 1 + n].to_vec()).unwrap();
        at += 1 + n;
        let size = pack[at] as usize + 256 * pack[at + 1] as usize + 65536 * pack[at + 2] as usize;
        found.push((name, pack[at + 3..at + 3 + size].to_vec()));
        at += 3 + size;
    }
    found
}

/// Every job of the packs that `vectors` is given, with its name.
pub fn jobs() -> Vec<(String, Vec<u8>)> {
    let names = std::fs::read_to_string(folder().join("args")).expect("crates/vectors/args");
    names.lines().flat_map(|pack| unpacked(&std::fs::read(folder().join("data").join(pack)).expect(pack))).collect()
}
