//! Written records. The texts are those of Python's `csv.writer` with as few quotes as possible
//! (`QUOTE_MINIMAL`), which also leaves a field unquoted where the standard requires no quotes.
use format_csv_records::dialect::{Dialect, LineEnds};
use format_csv_records::read::read_record_into;
use format_csv_records::record::ByteRecord;
use format_csv_records::write::{WriteError, write_record};

const RECORDS: &[(&[&[u8]], &[u8])] = &[
    (&[b"a", b"b"], b"a,b\r\n"),
    (&[b""], b"\"\"\r\n"),
    (&[b"", b""], b",\r\n"),
    (&[b"say \"hi\"", b"x,y", b"\r\n"], b"\"say \"\"hi\"\"\",\"x,y\",\"\r\n\"\r\n"),
    (&[b"\""], b"\"\"\"\"\r\n"),
    (&[b"a b", b"'"], b"a b,'\r\n"),
];

#[test]
fn written_as_by_python_and_read_back(rt: HostRuntime) {
    let alloc = rt.alloc();
    for (fields, wanted) in RECORDS {
        let mut out = Vec::new(alloc);
        assert!(rt; write_record(Dialect::standard(), fields, &mut out).is_ok());
        assert_eq!(rt; out.as_slice(), *wanted);
        let mut record = ByteRecord::new(alloc);
        let mut input = out.as_slice();
        let told = read_record_into(Dialect::standard(), &mut record, &mut input);
        assert!(rt; told == Ok(true));
        assert!(rt; input.is_empty());
        assert_eq!(rt; record.len(), fields.len());
        for place in 0..fields.len() {
            assert!(rt; matches!(record.get(place), Some(field) if field == fields[place]));
        }
    }
}

#[test]
fn no_fields_are_no_record(rt: HostRuntime) {
    let mut out = Vec::new(rt.alloc());
    let none: [&[u8]; 0] = [];
    let told = write_record(Dialect::standard(), none.as_slice(), &mut out);
    assert!(rt; told == Err(WriteError::NoFields));
    assert!(rt; out.is_empty());
}

#[test]
fn line_ends_of_the_dialect(rt: HostRuntime) {
    let fields = [b"a".as_slice(), b"b;'".as_slice()];
    let ends = [
        (LineEnds::CrLf, b"a;'b;'''\r\n".as_slice()),
        (LineEnds::Either, b"a;'b;'''\r\n".as_slice()),
        (LineEnds::Lf, b"a;'b;'''\n".as_slice()),
    ];
    for (end, wanted) in ends {
        let mut out = Vec::new(rt.alloc());
        match Dialect::new(b';', b'\'', end) {
            Ok(dialect) => assert!(rt; write_record(dialect, fields.as_slice(), &mut out).is_ok()),
            Err(_) => assert!(rt; false),
        }
        assert_eq!(rt; out.as_slice(), wanted);
    }
}
