//! Tables of records of comma-separated values and of Redis commands that are written.
use pergidau::csv::{self, Dialect, LineEnd};
use pergidau::resp::{self, Protocol, Reply};
use pergidau::{Bytes, Error, RequiredSize, Span};

/// Fields, a dialect, and the record.
type Row = (Vec<&'static [u8]>, Dialect, &'static [u8]);

fn records() -> Vec<Row> {
    let standard = Dialect::standard();
    let semicolons = standard.delimiter(b';').quote(b'\'').line_end(LineEnd::Either);
    let tabs = standard.delimiter(b'\t').line_end(LineEnd::Lf);
    vec![
        (vec![b"a", b"bc", b""], standard, b"a,bc,\r\n"),
        (vec![b"a", b"b"], LineEnd::Lf.into(), b"a,b\n"),
        (vec![b""], standard, b"\"\"\r\n"),
        (vec![b"", b""], LineEnd::Either.into(), b",\r\n"),
        (vec![b"a,b", b"c\"d", b"\n"], LineEnd::Lf.into(), b"\"a,b\",\"c\"\"d\",\"\n\"\n"),
        (vec![b"a,\"b\"", b"c\td"], tabs, b"\"a,\"\"b\"\"\"\t\"c\td\"\n"),
        (vec![b"it's", b"a;b", b"\"\r"], semicolons, b"'it''s';'a;b';'\"\r'\r\n"),
    ]
}

#[test]
fn csv_records_are_written_into_buffers_of_each_size() {
    for (fields, dialect, want) in records() {
        let slices: Vec<Bytes> = fields.iter().map(Bytes::from).collect();
        for room in 0..want.len() + 3 {
            let mut buffer = vec![0xab; room];
            let written = csv::write_record(&slices, dialect, &mut buffer);
            if room < want.len() {
                let required = RequiredSize { entries: 0, bytes: want.len() };
                assert_eq!(written, Err(Error::BufferTooSmall(required)), "{want:?}");
                assert_eq!(buffer, vec![0xab; room], "{want:?}");
            } else {
                assert_eq!(written, Ok(want.len()), "{want:?}");
                assert_eq!(buffer[..want.len()], *want);
                assert_eq!(buffer[want.len()..], vec![0xab; room - want.len()]);
            }
        }
        let (mut text, mut places) = ([0; 64], [Span::default(); 4]);
        let record = csv::record(want, dialect, &mut text, &mut places).unwrap();
        assert_eq!(record.fields().collect::<Vec<_>>(), fields);
    }
}

#[test]
fn csv_records_are_appended() {
    let mut out = b"before".to_vec();
    let mut all = out.clone();
    for (fields, dialect, want) in records() {
        csv::append_record(&fields, dialect, &mut out).unwrap();
        all.extend(want);
        assert_eq!(out, all);
    }
    // More quotes than expected, so that the buffer grows twice.
    csv::append_record(&["\"".repeat(100)], LineEnd::Lf, &mut out).unwrap();
    assert_eq!(out.len(), all.len() + 203);
    let records: Result<Vec<_>, _> = csv::records(&out[all.len()..], LineEnd::Lf).collect();
    assert_eq!(records.unwrap(), [[vec![b'"'; 100]]]);
}

#[test]
fn csv_records_without_fields_or_a_dialect_are_not_written() {
    let mut out = b"before".to_vec();
    let none = Dialect::standard().quote(b',');
    for (fields, dialect, error) in [
        (&[][..], Dialect::standard(), Error::Invalid(None)),
        (&["a"][..], none, Error::InvalidDialect),
        (&[][..], none, Error::InvalidDialect),
    ] {
        assert_eq!(csv::append_record(fields, dialect, &mut out), Err(error));
        assert_eq!(out, b"before");
    }
}

#[test]
fn commands_are_written_into_buffers_of_each_size() {
    for (parts, want) in [
        (&["PING"][..], "*1\r\n$4\r\nPING\r\n"),
        (&["SET", "a", ""][..], "*3\r\n$3\r\nSET\r\n$1\r\na\r\n$0\r\n\r\n"),
        (&["ECHO", "0123456789"][..], "*2\r\n$4\r\nECHO\r\n$10\r\n0123456789\r\n"),
    ] {
        let slices: Vec<Bytes> = parts.iter().map(Bytes::from).collect();
        assert_eq!(format!("{:?}", slices[0]), format!("{:?}", parts[0].as_bytes()));
        for room in 0..want.len() + 3 {
            let mut buffer = vec![0xab; room];
            let written = resp::write_command(&slices, &mut buffer);
            if room < want.len() {
                let required = RequiredSize { entries: 0, bytes: want.len() };
                assert_eq!(written, Err(Error::BufferTooSmall(required)), "{want:?}");
                assert_eq!(buffer, vec![0xab; room], "{want:?}");
            } else {
                assert_eq!(written, Ok(want.len()), "{want:?}");
                assert_eq!(&buffer[..want.len()], want.as_bytes());
                assert_eq!(buffer[want.len()..], vec![0xab; room - want.len()]);
            }
        }
        let mut out = b"before".to_vec();
        resp::append_command(parts, &mut out).unwrap();
        assert_eq!(&out[..6], b"before");
        assert_eq!(&out[6..], want.as_bytes());
        let reply = resp::reply(&out[6..], Protocol::Resp2, 1);
        let Ok((Reply::Array(elements), b"")) = reply else { panic!("{want:?}") };
        let bulks: Vec<_> = parts.iter().map(|it| Ok(Reply::Bulk(it.as_bytes()))).collect();
        assert_eq!(elements.collect::<Vec<_>>(), bulks);
    }
}

#[test]
fn commands_without_parts_are_not_written() {
    let mut out = b"before".to_vec();
    assert_eq!(resp::append_command::<&str>(&[], &mut out), Err(Error::Invalid(None)));
    assert_eq!(out, b"before");
    assert_eq!(resp::write_command(&[], &mut out), Err(Error::Invalid(None)));
    assert_eq!(out, b"before");
}
