//! batch_data FOLDER: writes the images of crates/batch/data into a folder.

use std::fs;
use std::path::Path;
use trials::batch_data::samples;

fn main() {
    let folder = std::env::args_os().nth(1).expect("usage: batch_data FOLDER");
    for sample in samples() {
        let path = Path::new(&folder).join(sample.name);
        fs::write(&path, sample.bytes)
            .unwrap_or_else(|error| panic!("{}: {error}", path.display()));
    }
}
