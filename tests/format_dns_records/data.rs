//! Records of each type, from RFC 1035 (sections 3.3, 3.4 and 4.1.4), RFC 3596 and RFC 2782 by hand.
use format_dns::data::Data;
use format_dns::fault::PartError;
use format_dns::record::{Record, read_record};
use std::alloc::{Allocator, Global};
use std::process::Abort;

/// `a.b` at 0; then records at 5.
const NAME: &[u8] = b"\x01a\x01b\0";

/// The bytes after the name of a record, and the record as text: its type, class, time to live and
/// data.
const ROWS: &[(&[u8], &str)] = &[
    (b"\0\x01\0\x01\0\0\x0e\x10\0\x04\xc0\0\x02\x01", "1 1 3600 192 0 2 1"),
    (
        b"\0\x1c\0\x01\xff\xff\xff\xff\0\x10\x20\x01\x0d\xb8\0\0\0\0\0\0\0\0\0\x05\xfe\xdc",
        "28 1 4294967295 8193 3512 0 0 0 0 5 65244",
    ),
    // A pointer, a label and a pointer, and a name without pointers.
    (b"\0\x02\0\x01\0\0\0\x01\0\x02\xc0\0", "2 1 1 a.b."),
    (b"\0\x05\0\x01\0\0\0\x01\0\x04\x01c\xc0\x02", "5 1 1 c.b."),
    (b"\0\x0c\0\x03\0\0\0\x01\0\x03\x01c\0", "12 3 1 c."),
    (b"\0\x02\0\x01\0\0\0\x01\0\x01\0", "2 1 1 ."),
    (b"\0\x0f\0\x01\0\0\0\x02\0\x04\x01\x02\xc0\0", "15 1 2 258 a.b."),
    (b"\0\x10\0\x01\0\0\0\0\0\x01\0", "16 1 0 []"),
    (b"\0\x10\0\x01\0\0\0\0\0\x06\x02ab\0\x01c", "16 1 0 [97, 98] [] [99]"),
    (
        b"\0\x06\0\x01\0\0\0\x01\0\x18\xc0\0\xc0\x02\0\0\0\x01\0\0\0\x02\0\0\x01\0\0\x01\0\0\x80\0\0\0",
        "6 1 1 a.b. b. 1 2 256 65536 2147483648",
    ),
    (b"\0\x21\0\x01\0\0\0\x01\0\x08\0\x01\x01\0\x14\xe9\xc0\0", "33 1 1 1 256 5353 a.b."),
    // Types that are not read, and types of the Internet in another class.
    (b"\0\x0a\0\x01\0\0\0\0\0\0", "10 1 0 []"),
    (b"\0\x29\x10\0\0\0\x80\0\0\x03abc", "41 4096 32768 [97, 98, 99]"),
    (b"\0\x01\0\x03\0\0\0\0\0\x02\xc0\0", "1 3 0 [192, 0]"),
    (b"\0\x1c\0\x04\0\0\0\0\0\0", "28 4 0 []"),
    (b"\0\x21\0\xff\0\0\0\0\0\0", "33 255 0 []"),
    // No data, in the classes NONE and ANY (RFC 2136, sections 2.4.1 to 2.4.3 and 2.5.2).
    (b"\0\x0f\0\xff\0\0\0\0\0\0", "15 255 0 []"),
    (b"\0\x06\0\xfe\0\0\0\0\0\0", "6 254 0 []"),
    (b"\0\x02\0\xff\0\0\0\0\0\0", "2 255 0 []"),
    (b"\0\x10\0\xfe\0\0\0\0\0\0", "16 254 0 []"),
    // A mail exchange that is to be deleted (section 2.5.4).
    (b"\0\x0f\0\xfe\0\0\0\0\0\x04\0\x0a\xc0\0", "15 254 0 10 a.b."),
];

/// The bytes after the name of an invalid record, and its error. The name is at offset 5 and ends
/// at 7; the data are at 17.
const FAULTS: &[(&[u8], PartError)] = &[
    // Fewer octets than a type has, and more.
    (b"\0\x01\0\x01\0\0\0\0\0\x03\x01\x02\x03", PartError::Ends(17)),
    (b"\0\x01\0\x01\0\0\0\0\0\x05\x01\x02\x03\x04\x05", PartError::Trailing(21)),
    (b"\0\x01\0\x01\0\0\0\0\0\0", PartError::Ends(17)),
    (b"\0\x1c\0\x01\0\0\0\0\0\x04\x01\x02\x03\x04", PartError::Ends(17)),
    (b"\0\x1c\0\x01\0\0\0\0\0\x11\0\0\0\0\0\0\0\0\0\0\0\0\0\0\0\0\0", PartError::Trailing(33)),
    (b"\0\x02\0\x01\0\0\0\0\0\x03\xc0\0\0", PartError::Trailing(19)),
    (b"\0\x02\0\x01\0\0\0\0\0\x01\xc0\0", PartError::Ends(17)),
    (b"\0\x02\0\x01\0\0\0\0\0\x02\x01c\0", PartError::Ends(19)),
    (b"\0\x05\0\x01\0\0\0\0\0\0\0", PartError::Ends(17)),
    (b"\0\x0c\0\x01\0\0\0\0\0\x02\xc0\x11", PartError::NotPrior(17)),
    (b"\0\x0c\0\x01\0\0\0\0\0\x01\x80", PartError::Reserved(17)),
    (b"\0\x0c\0\x01\0\0\0\0\0\x02\xc0\x05", PartError::TooMany(5)),
    (b"\0\x0f\0\x01\0\0\0\0\0\x01\0", PartError::Ends(17)),
    (b"\0\x0f\0\x01\0\0\0\0\0\x02\0\x01\0", PartError::Ends(19)),
    (b"\0\x0f\0\x01\0\0\0\0\0\x04\0\x01\0\0", PartError::Trailing(20)),
    // No character string, a truncated one, and two.
    (b"\0\x10\0\x01\0\0\0\0\0\0", PartError::Ends(17)),
    (b"\0\x10\0\x01\0\0\0\0\0\x02\x02ab", PartError::Ends(17)),
    (b"\0\x10\0\x01\0\0\0\0\0\x04\x01a\x02b", PartError::Ends(19)),
    (
        b"\0\x06\0\x01\0\0\0\0\0\x15\0\0\0\0\0\x01\0\0\0\x02\0\0\x01\0\0\x01\0\0\x80\0\0",
        PartError::Ends(19),
    ),
    (
        b"\0\x06\0\x01\0\0\0\0\0\x17\0\0\0\0\0\x01\0\0\0\x02\0\0\x01\0\0\x01\0\0\x80\0\0\0\0",
        PartError::Trailing(39),
    ),
    (b"\0\x06\0\x01\0\0\0\0\0\x01\0\0", PartError::Ends(18)),
    (b"\0\x06\0\x01\0\0\0\0\0\0\0\0", PartError::Ends(17)),
    (b"\0\x21\0\x01\0\0\0\0\0\x05\0\0\0\0\0", PartError::Ends(17)),
    (b"\0\x21\0\x01\0\0\0\0\0\x06\0\0\0\0\0\0", PartError::Ends(23)),
    (b"\0\x21\0\x01\0\0\0\0\0\x08\0\0\0\0\0\0\0\0", PartError::Trailing(24)),
    // No data, in the class before those that may have none; and some, but too few.
    (b"\0\x0f\0\xfd\0\0\0\0\0\0", PartError::Ends(17)),
    (b"\0\x0f\0\xff\0\0\0\0\0\x01\0", PartError::Ends(17)),
    // The message ends in the fields, and in the data.
    (b"", PartError::Ends(7)),
    (b"\0\x01\0\x01\0\0\0\0\0", PartError::Ends(7)),
    (b"\0\x01\0\x01\0\0\0\0\0\x01", PartError::Ends(17)),
    (b"\0\x63\0\x01\0\0\0\0\xff\xffabc", PartError::Ends(17)),
];

/// Data as text: numbers, names, and octets.
fn written<'m, A: Allocator>(rt: &impl Abort, data: &Data<'m, A>, heap: Global) -> String<Global> {
    let text = match data {
        Data::Ipv4(address) => {
            let [a, b, c, d] = address.octets();
            format!(in heap; "{a} {b} {c} {d}")
        }
        Data::Ipv6(address) => {
            let [a, b, c, d, e, f, g, h] = address.segments();
            format!(in heap; "{a} {b} {c} {d} {e} {f} {g} {h}")
        }
        Data::Name(name) => format!(in heap; "{}", name),
        Data::MailExchange(mail) => format!(in heap; "{} {}", mail.preference, mail.exchange),
        Data::Text(strings) => match strings.as_slice() {
            [only] => format!(in heap; "{:?}", *only),
            [first, second, third] => format!(in heap; "{:?} {:?} {:?}", *first, *second, *third),
            _ => format!(in heap; "strings"),
        },
        Data::StartOfAuthority(zone) => format!(
            in heap; "{} {} {} {} {} {} {}", zone.primary, zone.mailbox, zone.serial, zone.refresh,
            zone.retry, zone.expire, zone.minimum
        ),
        Data::Service(service) => format!(
            in heap; "{} {} {} {}", service.priority, service.weight, service.port, service.target
        ),
        Data::Other(octets) => format!(in heap; "{:?}", *octets),
    };
    text.expect(rt, "memory")
}

/// A message of the name and a record of it by a pointer.
fn message_of(rt: &impl Abort, heap: Global, behind: &[u8]) -> Vec<u8, Global> {
    let mut message = Vec::new(heap);
    assert!(rt; message.extend_from_slice(NAME).is_ok());
    assert!(rt; message.extend_from_slice(b"\xc0\0").is_ok());
    assert!(rt; message.extend_from_slice(behind).is_ok());
    message
}

fn check(rt: &impl Abort, heap: Global, message: &[u8], wants: &str) {
    match read_record(heap, 1, message, 5) {
        Ok(record) => {
            let data = written(rt, &record.data, heap);
            let said = format!(in heap; "{} {} {} {}", record.kind, record.class,
                record.time_to_live, data);
            assert!(rt; matches!(said, Ok(said) if said.as_str() == wants), "{wants}");
            assert_eq!(rt; record.name.labels.len(), 2);
            assert_eq!(rt; record.name.behind, 7);
            assert_eq!(rt; record.behind, message.len());
        }
        Err(fault) => assert!(rt; false, "{wants}: {fault:?}"),
    }
}

#[test]
fn records_of_each_type(rt: HostRuntime) {
    for (behind, wants) in ROWS {
        let message = message_of(&rt, rt.alloc(), behind);
        check(&rt, rt.alloc(), &message, wants);
    }
}

/// The error of an invalid record.
fn fault_of<'m, A: Allocator>(read: Result<Record<'m, A>, PartError>) -> Option<PartError> {
    match read {
        Ok(_) => None,
        Err(fault) => Some(fault),
    }
}

#[test]
fn records_that_are_not_there(rt: HostRuntime) {
    for (behind, fault) in FAULTS {
        let message = message_of(&rt, rt.alloc(), behind);
        let got = fault_of(read_record(rt.alloc(), 1, &message, 5));
        assert_eq!(rt; got, Some(*fault), "{behind:?}");
    }
}

/// Cut anywhere no record is there: in its name, in the fields, or in the data.
#[test]
fn records_cut_off(rt: HostRuntime) {
    for (behind, wants) in ROWS {
        let message = message_of(&rt, rt.alloc(), behind);
        for size in 0..message.len() {
            let got = fault_of(read_record(rt.alloc(), 1, &message[..size], 5));
            let place = match size {
                0..=6 => 5,
                7..=16 => 7,
                _ => 17,
            };
            assert_eq!(rt; got, Some(PartError::Ends(place)), "{wants} {size}");
        }
    }
}
