//! Tables of DNS messages, names and errors.
use pergidau::dns::{Data, DnsError, Header, Message, Name, Question, Record, Section};
use pergidau::Error;

/// The example of RFC 1035, section 4.1.4.
fn names_of_standard() -> Vec<u8> {
    let mut message = vec![0xff; 93];
    message[20..32].copy_from_slice(b"\x01F\x03ISI\x04ARPA\0");
    message[40..46].copy_from_slice(b"\x03FOO\xc0\x14");
    message[64..66].copy_from_slice(b"\xc0\x1a");
    message[92] = 0;
    message
}

#[test]
fn names() {
    let message = names_of_standard();
    for (offset, text, end) in
        [(20, "F.ISI.ARPA.", 32), (40, "FOO.F.ISI.ARPA.", 46), (64, "ARPA.", 66), (92, ".", 93)]
    {
        let (name, behind) = Name::at(&message, offset).unwrap();
        assert_eq!((name.to_string().as_str(), behind), (text, end));
        assert_eq!(name.labels().count(), text.matches('.').count() - usize::from(text == "."));
        assert_eq!(name.as_bytes().len(), if text == "." { 1 } else { text.len() + 1 });
        assert_eq!(name.as_bytes().last(), Some(&0));
    }
    let (name, _) = Name::at(b"\x06a.\\\"\x7f\0\x02;~\0", 0).unwrap();
    assert_eq!(name.to_string(), "a\\.\\\\\\\"\\127\\000.\\;~.");
    assert_eq!(format!("{name:?}"), format!("Name({name})"));
}

#[test]
fn long_names() {
    let mut message = Vec::new();
    for size in [63, 63, 63, 61] {
        message.push(size);
        message.extend(vec![b'a'; usize::from(size)]);
    }
    message.push(0);
    let (name, end) = Name::at(&message, 0).unwrap();
    assert_eq!((name.as_bytes(), end), (&message[..], 255));
    message.extend(b"\x01a\xc0\0");
    let too_long = Error::InvalidDns { offset: 0, reason: DnsError::TooLong };
    assert_eq!(Name::at(&message, 255), Err(too_long));
    assert_eq!(Name::at(&message, 257).map(|(_, end)| end), Ok(259));
}

#[test]
fn equal_names() {
    let message = b"\x01a\x01B\0\x01A\x01b\0\x02ab\0\x01a\0\x01@\0\x01`\0";
    let name = |offset| Name::at(message, offset).unwrap().0;
    assert!(name(0).eq_ignore_ascii_case(&name(5)) && name(0) != name(5));
    for (one, other) in [(0, 10), (0, 14), (0, 2), (17, 20)] {
        assert!(!name(one).eq_ignore_ascii_case(&name(other)), "{one} {other}");
    }
}

#[test]
fn errors() {
    let pointers: Vec<u8> = [0]
        .into_iter()
        .chain((0..128).flat_map(|number: u16| {
            let target = if number == 0 { 0 } else { 2 * number - 1 };
            [0xc0 | (target >> 8) as u8, target as u8]
        }))
        .collect();
    for (message, offset, reason, place, text) in [
        (&b"\x03co"[..], 0, DnsError::Incomplete, 0, "incomplete element at offset 0"),
        (b"\x01a\x40", 0, DnsError::Reserved, 2, "reserved label type at offset 2"),
        (
            b"\x01a\xc0\0",
            0,
            DnsError::NotPrior,
            2,
            "compression pointer without a prior target at offset 2",
        ),
        (&pointers, 255, DnsError::TooManyPointers, 1, "too many compression pointers at offset 1"),
        (
            b"\0",
            usize::MAX,
            DnsError::Incomplete,
            usize::MAX,
            "incomplete element at offset 18446744073709551615",
        ),
    ] {
        let error = Name::at(message, offset).unwrap_err();
        assert_eq!(error, Error::InvalidDns { offset: place, reason });
        assert_eq!((error.offset(), error.to_string().as_str()), (Some(place), text));
        assert_eq!(Question::at(message, offset), Err(error));
        assert_eq!(Record::at(message, offset), Err(error));
    }
    assert_eq!(Name::at(&pointers, 253).map(|(_, end)| end), Ok(255));
    assert_eq!(DnsError::TooLong.to_string(), "name too long");
    assert_eq!(Message::new(b"\0\0\0\0\0\0\0\0\0\0\0"), Err(Error::Invalid(None)));
}

#[test]
fn headers() {
    let message = Message::new(b"\xff\xfe\x7a\x55\x01\0\x02\0\x03\0\x04\0rest").unwrap();
    let header = Header {
        id: 0xfffe,
        opcode: 15,
        response_code: 5,
        reserved: 5,
        is_truncated: true,
        question_count: 256,
        answer_count: 512,
        authority_count: 768,
        additional_count: 1024,
        ..Header::default()
    };
    assert_eq!(*message.header(), header);
}

/// The record of a type and a class with these data, after a name at offset 0.
fn record_of(record_type: u16, class: u16, data: &[u8]) -> Vec<u8> {
    let mut message = b"\x01a\0\xc0\0".to_vec();
    message.extend(record_type.to_be_bytes());
    message.extend(class.to_be_bytes());
    message.extend(b"\0\x01\x02\x03");
    message.extend((data.len() as u16).to_be_bytes());
    message.extend(data);
    message.extend(b"rest");
    message
}

#[test]
fn data() {
    let (a, _) = Name::at(b"\x01a\0", 0).unwrap();
    let (b, _) = Name::at(b"\x01b\x01a\0", 0).unwrap();
    let address = *b"\x20\x01\x0d\xb8\0\0\0\0\0\0\0\0\0\0\0\x01";
    let zone = b"\xc0\0\x01b\xc0\0\0\0\0\x01\0\0\x02\0\0\x03\0\0\x04\0\0\0\xff\xff\xff\xff";
    for (record_type, class, bytes, wanted) in [
        (1, 1, &b"\xc0\0\x02\x01"[..], Data::A([192, 0, 2, 1])),
        (1, 3, b"\xc0\0\x02\x01", Data::Other(b"\xc0\0\x02\x01")),
        (28, 1, &address, Data::Aaaa(address)),
        (28, 4, &address, Data::Other(&address)),
        (2, 1, b"\xc0\0", Data::Ns(a)),
        (5, 1, b"\x01b\xc0\0", Data::Cname(b)),
        (12, 3, b"\x01a\0", Data::Ptr(a)),
        (15, 1, b"\x01\x02\x01b\xc0\0", Data::Mx { preference: 258, exchange: b }),
        (
            33,
            1,
            b"\x01\x02\x03\x04\x05\x06\xc0\0",
            Data::Srv { priority: 258, weight: 772, port: 1286, target: a },
        ),
        (33, 2, b"\x01", Data::Other(b"\x01")),
        (
            6,
            1,
            zone,
            Data::Soa {
                primary: a,
                mailbox: b,
                serial: 1,
                refresh: 0x200,
                retry: 0x30000,
                expire: 0x4000000,
                minimum: u32::MAX,
            },
        ),
        (2, 254, b"", Data::Other(b"")),
        (2, 255, b"", Data::Other(b"")),
        (41, 4096, b"ab", Data::Other(b"ab")),
    ] {
        let message = record_of(record_type, class, bytes);
        let record = Record::at(&message, 3).unwrap();
        assert_eq!((record.record_type(), record.class()), (record_type, class));
        assert_eq!((record.time_to_live(), record.data_bytes()), (0x10203, bytes));
        assert_eq!((record.name(), record.end()), (Ok(a), message.len() - 4));
        assert_eq!(record.data(), Ok(wanted));
    }
    let message = record_of(16, 1, b"\x02ab\0\x01c");
    let Ok(Data::Txt(strings)) = Record::at(&message, 3).unwrap().data() else { panic!() };
    assert_eq!(strings.collect::<Vec<_>>(), [&b"ab"[..], b"", b"c"]);
    let message = record_of(1, 1, b"\xc0\0\x02\x01\0");
    let trailing = Error::InvalidDns { offset: 19, reason: DnsError::Trailing };
    assert_eq!(Record::at(&message, 3), Err(trailing));
    assert_eq!(trailing.to_string(), "unexpected trailing data at offset 19");
}

/// A response with two questions, and a record or two in each section.
const RESPONSE: &[u8] =
    b"\x12\x34\x81\x80\0\x02\0\x01\0\x02\0\x01\x03www\0\0\x01\0\x01\x03ftp\0\0\x02\0\x03\
    \xc0\x0c\0\x01\0\x01\0\0\0\0\0\x04\xc0\0\x02\x01\xc0\x15\0\x02\0\x01\0\0\0\0\0\x02\xc0\x0c\
    \0\0\x05\0\x01\0\0\0\0\0\x01\0\0\0\x29\x10\0\0\0\0\0\0\0";

#[test]
fn messages() {
    let message = Message::new(RESPONSE).unwrap();
    let questions: Vec<_> = message.questions().map(Result::unwrap).collect();
    assert_eq!(questions.len(), 2);
    assert_eq!(questions[0].name().unwrap().to_string(), "www.");
    assert_eq!(questions[1].name().unwrap().to_string(), "ftp.");
    assert_eq!((questions[1].record_type(), questions[1].class(), questions[1].end()), (2, 3, 30));
    let records: Vec<_> = message.records().map(Result::unwrap).collect();
    let sections = [Section::Answer, Section::Authority, Section::Authority, Section::Additional];
    assert!(records.iter().map(|(section, _)| *section).eq(sections));
    assert!(records.iter().map(|(_, record)| record.record_type()).eq([1, 2, 5, 41]));
    let names = records.iter().map(|(_, record)| record.name().unwrap().to_string());
    assert!(names.eq(["www.", "ftp.", ".", "."]));
    assert_eq!(records[3].1.end(), RESPONSE.len());
}

/// Each shorter message has an error, after the entries that are complete, and then no more.
#[test]
fn cut_messages() {
    let ends = [21, 30, 46, 60, 72, 83];
    assert_eq!(ends[5], RESPONSE.len());
    for length in 12..RESPONSE.len() {
        let message = Message::new(&RESPONSE[..length]).unwrap();
        let complete = ends.iter().filter(|end| **end <= length).count();
        let records: Vec<_> = message.records().collect();
        assert_eq!(records.len(), complete.max(2) - 2 + 1);
        assert!(records.iter().rev().skip(1).all(Result::is_ok));
        let error = records.last().unwrap().unwrap_err();
        assert!(matches!(error, Error::InvalidDns { reason: DnsError::Incomplete, .. }));
        let questions: Vec<_> = message.questions().collect();
        assert_eq!(questions.len(), (complete + 1).min(2));
        assert_eq!(questions.iter().filter(|question| question.is_ok()).count(), complete.min(2));
        assert!(complete >= 2 || questions[complete] == Err(error));
    }
}
