//! CSV readers. Each field is counted; the sum is of the lengths of the fields, and 1 for each record.
use crate::text::{Outcome, Text};
use pergidau::csv::{record, Dialect, LineEnd};
use pergidau::Span;

/// Semicolons and single quotes.
const SEMICOLONS: Dialect = Dialect::standard().delimiter(b';').quote(b'\'').line_end(LineEnd::Either);

fn records_in(dialect: Dialect, text: &Text) -> Outcome {
    let (mut bytes, mut fields) = ([0; 256], [Span::default(); 16]);
    let (mut out, mut rest) = (Outcome::default(), text.bytes());
    while let Ok(record) = record(rest, dialect, &mut bytes, &mut fields) {
        record.fields().for_each(|it| out.add(it.len()));
        out.sum += 1;
        rest = record.rest();
    }
    out
}

pub fn records(text: &Text) -> Outcome {
    records_in(LineEnd::Lf.into(), text)
}

pub fn records_with_semicolons(text: &Text) -> Outcome {
    records_in(SEMICOLONS, text)
}

fn records_by_reader(reader: &csv::ReaderBuilder, text: &Text) -> Outcome {
    let mut reader = reader.from_reader(text.bytes());
    let (mut record, mut out) = (csv::ByteRecord::new(), Outcome::default());
    while reader.read_byte_record(&mut record).is_ok_and(|it| it) {
        record.iter().for_each(|it| out.add(it.len()));
        out.sum += 1;
    }
    out
}

pub fn records_by_csv(text: &Text) -> Outcome {
    let mut reader = csv::ReaderBuilder::new();
    reader.has_headers(false).terminator(csv::Terminator::Any(b'\n'));
    records_by_reader(&reader, text)
}

pub fn records_with_semicolons_by_csv(text: &Text) -> Outcome {
    let mut reader = csv::ReaderBuilder::new();
    reader.has_headers(false).delimiter(b';').quote(b'\'').terminator(csv::Terminator::CRLF);
    records_by_reader(&reader, text)
}
