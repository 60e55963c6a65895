//! A tag as the program's bytes: n, k, L, G, then the weights, low byte first.

use crate::tag::{Mark, Tag, NAMES};
use kv::SYMBOLS;

const BYTES_OF_A_MARK: usize = 2 * SYMBOLS;

pub fn write(tag: &Tag) -> Vec<u8> {
    let weights = tag.weights().into_iter().flat_map(u16::to_le_bytes);
    tag.settings.into_iter().chain(weights).collect()
}

fn mark(bytes: &[u8]) -> Mark {
    let mut mark = Mark::default();
    for (weight, pair) in mark.0.iter_mut().zip(bytes.chunks_exact(2)) {
        *weight = u16::from_le_bytes([pair[0], pair[1]]);
    }
    mark
}

/// The tag, or why there is none.
pub fn read(bytes: &[u8]) -> Result<Tag, String> {
    let (there, least) = (bytes.len(), NAMES.len());
    let &[n, k, level, limit, ref weights @ ..] = bytes else {
        return Err(format!(
            "there are {there} bytes, and should be {least} at least: n, k, L and G"
        ));
    };
    let length = least + BYTES_OF_A_MARK * usize::from(n);
    if there != length {
        return Err(format!(
            "there are {there} bytes, and should be {length} where n is {n}"
        ));
    }
    Ok(Tag {
        settings: [n, k, level, limit],
        marks: weights.chunks_exact(BYTES_OF_A_MARK).map(mark).collect(),
    })
}
