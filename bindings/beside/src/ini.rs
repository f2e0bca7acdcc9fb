//! INI readers. Each pair is counted; the sum is of the lengths of the keys and values.
use crate::text::{Outcome, Text};
use pergidau::pairs::{document, Entry};
use std::cell::RefCell;

thread_local! {
    /// Buffers for the text and the entries of a document, which callers reuse.
    static ROOM: RefCell<(Vec<u8>, Vec<Entry>)> =
        RefCell::new((vec![0; 1 << 20], vec![Entry::default(); 1 << 16]));
}

pub fn pairs(text: &Text) -> Outcome {
    let mut out = Outcome::default();
    ROOM.with_borrow_mut(|(bytes, entries)| {
        if let Ok(document) = document(text.bytes(), bytes, entries) {
            let pairs = document.sections().flat_map(|it| it.pairs());
            pairs.for_each(|(key, value)| out.add(key.len() + value.len()));
        }
    });
    out
}
