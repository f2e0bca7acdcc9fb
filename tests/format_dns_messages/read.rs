//! Messages, by hand from RFC 1035 (section 4.1).
use format_dns::data::Data;
use format_dns::fault::{PartError, MessageError, Section};
use format_dns::message::read_message;

/// A response about the mail of `ISI.ARPA`: one question, two answer records, a name server, and
/// the address of a mail exchange. Each name but the first ends in a pointer.
const MESSAGE: &[u8] = b"\xbe\xef\x81\x80\0\x01\0\x02\0\x01\0\x01\
\x03ISI\x04ARPA\0\0\x0f\0\x01\
\xc0\x0c\0\x0f\0\x01\0\0\x0e\x10\0\x06\0\x0a\x01F\xc0\x0c\
\xc0\x0c\0\x0f\0\x01\0\0\x0e\x10\0\x08\0\x14\x03FOO\xc0\x28\
\xc0\x10\0\x02\0\x01\0\0\x0e\x10\0\x02\xc0\x28\
\xc0\x28\0\x01\0\x01\0\0\x0e\x10\0\x04\x0a\x01\0\x34";

/// So many bytes of the message, and which entry is not there, where.
const CUTS: &[(usize, Section, usize, usize)] = &[
    (0, Section::Header, 0, 0),
    (11, Section::Header, 0, 0),
    (12, Section::Question, 0, 12),
    (25, Section::Question, 0, 22),
    (26, Section::Answer, 0, 26),
    (43, Section::Answer, 0, 38),
    (44, Section::Answer, 1, 44),
    (64, Section::Authority, 0, 64),
    (78, Section::Additional, 0, 78),
    (93, Section::Additional, 0, 90),
];

/// The offset of a changed byte of the message, its new value, and the invalid entry with its
/// error.
const CHANGES: &[(usize, u8, Section, usize, PartError)] = &[
    // The header counts another question: the first answer is also read as a name, a type and a
    // class. The first byte of its time to live is then the root, and a length of 18112 precedes
    // offset 43.
    (5, 2, Section::Answer, 0, PartError::Ends(43)),
    // The question is not counted, so it is read as a record: with one octet of a mail exchange.
    (5, 0, Section::Answer, 0, PartError::Ends(32)),
    // The header counts one more answer, or one more record of a later section: records of all
    // sections have the same form, so the last one is missing.
    (7, 3, Section::Additional, 0, PartError::Ends(94)),
    (9, 2, Section::Additional, 0, PartError::Ends(94)),
    (11, 2, Section::Additional, 1, PartError::Ends(94)),
    (10, 1, Section::Additional, 1, PartError::Ends(94)),
    // The name of the second answer leads to itself.
    (45, 44, Section::Answer, 1, PartError::NotPrior(44)),
    // The data of the name server have an octet that is none of a name.
    (75, 3, Section::Authority, 0, PartError::Trailing(78)),
    (78, 128, Section::Additional, 0, PartError::Reserved(78)),
];

#[test]
fn read_message_of_a_server(rt: HostRuntime) {
    match read_message(rt.alloc(), 2, MESSAGE) {
        Ok(message) => {
            assert_eq!(rt; message.header.id, 0xbeef);
            assert!(rt; message.header.is_response);
            assert_eq!(rt; message.questions.list.len(), 1);
            assert_eq!(rt; message.questions.list[0].kind, 15);
            assert_eq!(rt; message.answers.list.len(), 2);
            assert_eq!(rt; message.answers.list[1].behind, 64);
            assert_eq!(rt; message.authority.list.len(), 1);
            assert_eq!(rt; message.authority.list[0].kind, 2);
            assert_eq!(rt; message.additional.list.len(), 1);
            match &message.additional.list[0].data {
                Data::Ipv4(address) => assert_eq!(rt; address.octets(), [10, 1, 0, 52]),
                _ => assert!(rt; false),
            }
            assert_eq!(rt; message.behind(), 94);
        }
        Err(fault) => assert!(rt; false, "{fault}"),
    }
    let deeper = read_message(rt.alloc(), 1, MESSAGE);
    let why = PartError::TooMany(42);
    let fault = MessageError { section: Section::Answer, entry: 1, why };
    assert!(rt; matches!(deeper, Err(got) if got == fault));
}

#[test]
fn read_message_before_more(rt: HostRuntime) {
    let mut bytes = Vec::new(rt.alloc());
    assert!(rt; bytes.extend_from_slice(MESSAGE).is_ok());
    assert!(rt; bytes.extend_from_slice(b"\xff\xff\xff").is_ok());
    let read = read_message(rt.alloc(), 2, &bytes);
    assert!(rt; matches!(read, Ok(message) if message.behind() == 94));
    let none = read_message(rt.alloc(), 0, b"\0\0\0\0\0\0\0\0\0\0\0\0\xff");
    assert!(rt; matches!(none, Ok(message) if message.behind() == 12));
}

#[test]
fn read_message_cut_off(rt: HostRuntime) {
    for (size, section, entry, place) in CUTS {
        match read_message(rt.alloc(), 2, &MESSAGE[..*size]) {
            Ok(_) => assert!(rt; false, "{size}"),
            Err(fault) => {
                assert_eq!(rt; (fault.section, fault.entry), (*section, *entry), "{size}");
                assert_eq!(rt; fault.why, PartError::Ends(*place), "{size}");
            }
        }
    }
}

#[test]
fn read_message_changed(rt: HostRuntime) {
    for (at, byte, section, entry, why) in CHANGES {
        let mut bytes = Vec::new(rt.alloc());
        assert!(rt; bytes.extend_from_slice(MESSAGE).is_ok());
        bytes[*at] = *byte;
        match read_message(rt.alloc(), 2, &bytes) {
            Ok(_) => assert!(rt; false, "{at}"),
            Err(fault) => {
                assert_eq!(rt; (fault.section, fault.entry), (*section, *entry), "{at}");
                assert_eq!(rt; fault.why, *why, "{at}");
            }
        }
    }
}
