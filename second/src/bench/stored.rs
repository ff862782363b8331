//! The stored test files. They are the same at every run.

pub mod cuts;
pub mod fixture;
pub mod image;
pub mod purchase;
pub mod records;
pub mod sessions;

use std::fs;
use std::io;
use std::path::Path;

use super::scenario::Scenario;
use crate::terminal;

/// Writes every stored file into a folder that is there; an error names the file.
pub fn write(folder: &Path) -> io::Result<()> {
    let files = [
        ("example.bench", example()),
        ("purchase.bench", purchase::file()),
        ("sessions.bench", sessions::file()),
        ("cuts.bench", cuts::file()),
        ("records.bench", records::file()),
        ("image-making.bench", image::making()),
        ("image-reading.bench", image::reading()),
        ("image-no-card.bench", image::no_card()),
    ];
    for (name, bytes) in files {
        let path = folder.join(name);
        let named =
            |error: io::Error| io::Error::new(error.kind(), format!("{}: {error}", path.display()));
        fs::write(&path, bytes).map_err(named)?;
    }
    Ok(())
}

/// 01's worked example: install, start, SELECT, GET DATA 15 on a fresh card.
pub fn example() -> Vec<u8> {
    let mut scenario = Scenario::new(1);
    scenario.install(&fixture::installation());
    scenario.start();
    scenario.select();
    scenario.send(&terminal::get_data(0x15));
    scenario.file
}
