//! The workloads: their input texts, and their readers.
use crate::outcome::Outcome;
use crate::{by_hand, by_nom, library, texts};
use std::mem::ManuallyDrop;

pub type Reader = Box<dyn Fn(&[u8]) -> Outcome>;
/// A reader of a text that arrives in chunks of a size.
type InChunks = fn(usize, &[u8]) -> Outcome;

pub struct Workload {
    pub name: String,
    pub text: Box<dyn Fn(usize) -> Vec<u8>>,
    pub library: Reader,
    pub nom: Reader,
    pub hand: Option<Reader>,
}

impl Workload {
    fn new(
        name: &str,
        text: impl Fn(usize) -> Vec<u8> + 'static,
        library: impl Fn(&[u8]) -> Outcome + 'static,
        nom: impl Fn(&[u8]) -> Outcome + 'static,
    ) -> Workload {
        Workload {
            name: name.to_string(),
            text: Box::new(text),
            library: Box::new(library),
            nom: Box::new(nom),
            hand: None,
        }
    }

    fn by_hand(mut self, hand: impl Fn(&[u8]) -> Outcome + 'static) -> Workload {
        self.hand = Some(Box::new(hand));
        self
    }

    /// The workloads of a text that arrives whole, and in chunks of three sizes.
    fn in_chunks(
        what: &str,
        text: fn(usize) -> Vec<u8>,
        library: InChunks,
        nom: InChunks,
        hand: InChunks,
    ) -> impl Iterator<Item = Workload> + '_ {
        CHUNKS.into_iter().map(move |(how, chunk)| {
            Workload::new(
                &format!("{what} by a machine, {how}"),
                text,
                move |text| library(chunk, text),
                move |text| nom(chunk, text),
            )
            .by_hand(move |text| hand(chunk, text))
        })
    }

    fn search(name: &str, literal: &'static [u8], every: usize, alone: usize) -> Workload {
        Workload::new(
            name,
            move |size| texts::marked(size, literal, every, alone),
            move |text| library::until(text, literal),
            move |text| by_nom::until(text, literal),
        )
    }
}

const CHUNKS: [(&str, usize); 4] = [
    ("whole", usize::MAX),
    ("chunks of 1,000", 1000),
    ("chunks of 16", 16),
    ("chunks of 1", 1),
];
const LONG: &[u8] = b"<!-- the end of the part that is hidden>";

fn of_whole_texts() -> Vec<Workload> {
    let mut all = vec![
        Workload::new("an INI document", texts::document, library::document, by_nom::document)
            .by_hand(by_hand::document),
        Workload::new("numbers into a list", texts::numbers, library::number_list, by_nom::number_list)
            .by_hand(by_hand::number_list),
        Workload::new("the sum of numbers", texts::numbers, library::number_sum, by_nom::number_sum)
            .by_hand(by_hand::number_sum),
        Workload::new(
            "the same in pieces of 4 KiB",
            texts::numbers,
            library::number_pieces,
            by_nom::number_pieces,
        ),
        Workload::new("rows of fields of text", texts::fields, library::rows, by_nom::rows),
        Workload::new("how many fields", texts::fields, library::fields, by_nom::fields),
        Workload::new("heads of requests", texts::heads, library::heads, by_nom::heads),
        Workload::new(
            "six keywords",
            |size| texts::keywords(size, false),
            library::keywords,
            by_nom::keywords,
        ),
        Workload::new(
            "six keywords in any case",
            |size| texts::keywords(size, true),
            library::any_case,
            by_nom::any_case,
        ),
        Workload::new("words of text", texts::words, library::words, by_nom::words),
        Workload::new("integers of 4 bytes", texts::bytes, library::integers, by_nom::integers)
            .by_hand(by_hand::integers),
        Workload::new("records with lengths", texts::records, library::records, by_nom::records)
            .by_hand(by_hand::records),
        Workload::new(
            "fields of bits",
            texts::bytes,
            library::words_of_bits,
            by_nom::words_of_bits,
        )
        .by_hand(by_hand::words_of_bits),
        Workload::new("an expression", texts::expression, library::expression, by_nom::expression)
            .by_hand(by_hand::expression),
        Workload::new(
            "names of headers by a table",
            texts::names,
            library::names_by_table,
            by_nom::names,
        )
        .by_hand(by_hand::names),
        Workload::new(
            "names of headers by ranges",
            texts::names,
            library::names_by_ranges,
            by_nom::names,
        )
        .by_hand(by_hand::names),
        Workload::new("values of JSON", texts::json, library::json, by_nom::json)
            .by_hand(by_hand::json),
        Workload::new("rows with quotes", texts::csv, library::csv, by_nom::csv)
            .by_hand(by_hand::csv),
        Workload::new("replies of Redis", texts::replies, library::replies, by_nom::replies)
            .by_hand(by_hand::replies),
        Workload::new("texts with escapes", texts::escapes, library::escapes, by_nom::escapes)
            .by_hand(by_hand::escapes),
        Workload::new(
            "fields of bits across bytes",
            texts::bytes,
            library::wide_words,
            by_nom::wide_words,
        )
        .by_hand(by_hand::wide_words),
        Workload::new(
            "the sum of numbers by an iterator",
            texts::numbers,
            library::number_items,
            by_nom::number_items,
        )
        .by_hand(by_hand::number_items),
        Workload::new(
            "lists of numbers in a list",
            texts::number_lists,
            library::number_lists,
            by_nom::number_lists,
        )
        .by_hand(by_hand::number_lists),
    ];
    let literals: [(&str, &'static [u8]); 4] =
        [("1 byte", b";"), ("2 bytes", b"--"), ("8 bytes", b"</title>"), ("40 bytes", LONG)];
    for (length, literal) in literals {
        for (how_often, every) in [("often", 32), ("rarely", 4096)] {
            let name = format!("up to {length}, {how_often}");
            all.push(Workload::search(&name, literal, every, 0));
            if literal.len() > 1 {
                let name = format!("{name}; its first byte often");
                all.push(Workload::search(&name, literal, every, 32));
            }
        }
    }
    all
}

fn of_chunks() -> Vec<Workload> {
    let mut all = Vec::new();
    all.extend(Workload::in_chunks(
        "heads",
        texts::heads,
        library::heads_in_chunks,
        by_nom::heads_in_chunks,
        by_hand::heads_in_chunks,
    ));
    all.extend(Workload::in_chunks(
        "frames",
        texts::frames,
        library::frames_in_chunks,
        by_nom::frames_in_chunks,
        by_hand::frames_in_chunks,
    ));
    all.extend(Workload::in_chunks(
        "lines",
        texts::csv,
        library::lines_in_chunks,
        by_nom::lines_in_chunks,
        by_hand::lines_in_chunks,
    ));
    all
}

const LISTS: [fn() -> Vec<Workload>; 2] = [of_whole_texts, of_chunks];

pub fn all() -> Vec<Workload> {
    LISTS.iter().flat_map(|list| list()).collect()
}

/// Returns the workload with this name. Only the lists up to its own are made, and they are not
/// freed: the instructions of the allocator depend on what was allocated before.
pub fn named(name: &str) -> Option<Workload> {
    LISTS.iter().find_map(|list| {
        let mut list = ManuallyDrop::new(list());
        let at = list.iter().position(|workload| workload.name == name)?;
        Some(list.swap_remove(at))
    })
}
