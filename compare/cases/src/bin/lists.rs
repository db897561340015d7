//! `lists ROOT`: writes the kept lists into ROOT/crates.

use cases::kept;
use std::{env, fs, io, path::PathBuf};

fn main() -> io::Result<()> {
    let root = env::args().nth(1).expect("give the repository's root");
    for list in kept::all() {
        let folder = PathBuf::from(&root).join("crates").join(list.name);
        fs::create_dir_all(&folder)?;
        fs::write(folder.join("stdin"), list.stdin)?;
        fs::write(folder.join("stdout"), list.stdout)?;
        fs::write(folder.join("README.md"), list.readme)?;
    }
    Ok(())
}
