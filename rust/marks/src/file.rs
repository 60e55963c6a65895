//! Tags in files.

use crate::reading::{Fault, Reading};
use crate::{bytes, text};
use std::fs;
use std::path::Path;

/// Whether a file holds the program's bytes or, if not, a text: its name alone says so.
pub fn holds_bytes(path: &Path) -> Option<bool> {
    match path.extension()?.to_str()? {
        "tag" => Some(true),
        "marks" => Some(false),
        _ => None,
    }
}

fn read(path: &Path) -> Result<Reading, String> {
    let held = fs::read(path).map_err(|error| error.to_string())?;
    if holds_bytes(path) != Some(true) {
        return Ok(text::read(&String::from_utf8_lossy(&held)));
    }
    let tag = bytes::read(&held)?;
    Ok(Reading {
        tag,
        ..Reading::default()
    })
}

pub fn open(path: &Path) -> Result<Reading, Vec<Fault>> {
    read(path).map_err(|why| vec![Fault { line: None, why }])
}
