//! INI documents.

use crate::outcome::Outcome;
use readers::ini;
use readers::ini::Section;
use std::alloc::Global;

/// Returns `more` plus the length in bytes of the values of all pairs.
fn with_values(more: u64, pairs: &[(&str, &str)]) -> u64 {
    let mut sum = more;
    for pair in pairs {
        sum = sum.wrapping_add(pair.1.len() as u64);
    }
    sum
}

/// Returns the length in bytes of all values.
#[inline(never)]
fn value_bytes(sections: &[Section<'_, Global>]) -> u64 {
    let mut sum: u64 = 0;
    for section in sections {
        sum = with_values(sum, &section.pairs);
    }
    sum
}

/// Parses a document. Counts its sections, and sums the lengths of its values in bytes.
#[unsafe(no_mangle)]
pub extern "C" fn timed_document(alloc: Global, input: &[u8], out: &mut Outcome) {
    *out = Outcome {
        count: 0,
        sum: 0,
        left: 0,
    };
    if let Ok(sections) = ini::document(alloc, input) {
        out.count = sections.len() as u64;
        out.sum = value_bytes(&sections);
    }
}
