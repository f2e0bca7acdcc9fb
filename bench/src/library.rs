//! The workloads with the library: the exports of the crate `timed`.
use crate::outcome::Outcome;

type Text = unsafe extern "C" fn(*const u8, usize, *mut Outcome);
type Chunks = unsafe extern "C" fn(usize, *const u8, usize, *mut Outcome);

extern "C" {
    fn timed_document(text: *const u8, size: usize, out: *mut Outcome);
    fn timed_number_list(text: *const u8, size: usize, out: *mut Outcome);
    fn timed_number_sum(text: *const u8, size: usize, out: *mut Outcome);
    fn timed_number_pieces(text: *const u8, size: usize, out: *mut Outcome);
    fn timed_rows(text: *const u8, size: usize, out: *mut Outcome);
    fn timed_fields(text: *const u8, size: usize, out: *mut Outcome);
    fn timed_heads(text: *const u8, size: usize, out: *mut Outcome);
    fn timed_keywords(text: *const u8, size: usize, out: *mut Outcome);
    fn timed_any_case(text: *const u8, size: usize, out: *mut Outcome);
    fn timed_words(text: *const u8, size: usize, out: *mut Outcome);
    fn timed_integers(text: *const u8, size: usize, out: *mut Outcome);
    fn timed_records(text: *const u8, size: usize, out: *mut Outcome);
    fn timed_words_of_bits(text: *const u8, size: usize, out: *mut Outcome);
    fn timed_expression(text: *const u8, size: usize, out: *mut Outcome);
    fn timed_names_by_table(text: *const u8, size: usize, out: *mut Outcome);
    fn timed_names_by_ranges(text: *const u8, size: usize, out: *mut Outcome);
    fn timed_wide_words(text: *const u8, size: usize, out: *mut Outcome);
    fn timed_escapes(text: *const u8, size: usize, out: *mut Outcome);
    fn timed_json(text: *const u8, size: usize, out: *mut Outcome);
    fn timed_csv(text: *const u8, size: usize, out: *mut Outcome);
    fn timed_replies(text: *const u8, size: usize, out: *mut Outcome);
    fn timed_number_items(text: *const u8, size: usize, out: *mut Outcome);
    fn timed_number_lists(text: *const u8, size: usize, out: *mut Outcome);
    fn timed_heads_in_chunks(chunk: usize, text: *const u8, size: usize, out: *mut Outcome);
    fn timed_frames_in_chunks(chunk: usize, text: *const u8, size: usize, out: *mut Outcome);
    fn timed_lines_in_chunks(chunk: usize, text: *const u8, size: usize, out: *mut Outcome);
    fn timed_until(
        literal: *const u8,
        length: usize,
        text: *const u8,
        size: usize,
        out: *mut Outcome,
    );
}

fn call(export: Text, text: &[u8]) -> Outcome {
    let mut out = Outcome::default();
    // SAFETY: the exports have no `requires`, and both pointers are those of live borrows.
    unsafe { export(text.as_ptr(), text.len(), &mut out) };
    out
}

macro_rules! workloads {
    ($($name:ident = $export:ident;)*) => {
        $(pub fn $name(text: &[u8]) -> Outcome {
            call($export, text)
        })*
    };
}

workloads! {
    document = timed_document;
    number_list = timed_number_list;
    number_sum = timed_number_sum;
    number_pieces = timed_number_pieces;
    rows = timed_rows;
    fields = timed_fields;
    heads = timed_heads;
    keywords = timed_keywords;
    any_case = timed_any_case;
    words = timed_words;
    integers = timed_integers;
    records = timed_records;
    words_of_bits = timed_words_of_bits;
    expression = timed_expression;
    names_by_table = timed_names_by_table;
    names_by_ranges = timed_names_by_ranges;
    wide_words = timed_wide_words;
    escapes = timed_escapes;
    json = timed_json;
    csv = timed_csv;
    replies = timed_replies;
    number_items = timed_number_items;
    number_lists = timed_number_lists;
}

fn call_in_chunks(export: Chunks, chunk: usize, text: &[u8]) -> Outcome {
    let mut out = Outcome::default();
    // SAFETY: as in `call`.
    unsafe { export(chunk, text.as_ptr(), text.len(), &mut out) };
    out
}

pub fn heads_in_chunks(chunk: usize, text: &[u8]) -> Outcome {
    call_in_chunks(timed_heads_in_chunks, chunk, text)
}

pub fn frames_in_chunks(chunk: usize, text: &[u8]) -> Outcome {
    call_in_chunks(timed_frames_in_chunks, chunk, text)
}

pub fn lines_in_chunks(chunk: usize, text: &[u8]) -> Outcome {
    call_in_chunks(timed_lines_in_chunks, chunk, text)
}

pub fn until(text: &[u8], literal: &'static [u8]) -> Outcome {
    let mut out = Outcome::default();
    // SAFETY: as in `call`; the literal lives as long as the program.
    unsafe {
        timed_until(literal.as_ptr(), literal.len(), text.as_ptr(), text.len(), &mut out);
    }
    out
}
