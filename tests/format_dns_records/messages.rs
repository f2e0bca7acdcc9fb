//! The records of a message, by hand from RFC 1035 (sections 4.1 and 4.1.4).
use format_dns::data::Data;
use format_dns::fault::PartError;
use format_dns::record::read_records;

/// A response about the mail of `ISI.ARPA`: one question, two answer records, a name server, and
/// the address of a mail exchange. Each name but the first ends in a pointer.
const MESSAGE: &[u8] = b"\xbe\xef\x81\x80\0\x01\0\x02\0\x01\0\x01\
\x03ISI\x04ARPA\0\0\x0f\0\x01\
\xc0\x0c\0\x0f\0\x01\0\0\x0e\x10\0\x06\0\x0a\x01F\xc0\x0c\
\xc0\x0c\0\x0f\0\x01\0\0\x0e\x10\0\x08\0\x14\x03FOO\xc0\x28\
\xc0\x10\0\x02\0\x01\0\0\x0e\x10\0\x02\xc0\x28\
\xc0\x28\0\x01\0\x01\0\0\x0e\x10\0\x04\x0a\x01\0\x34";

/// Where each of its records begins, and where the last ends.
const PLACES: &[usize] = &[26, 44, 64, 78, 94];

#[test]
fn records_of_a_message(rt: HostRuntime) {
    match read_records(rt.alloc(), 2, MESSAGE, 26, 4) {
        Ok(records) => {
            match &records.list[1].data {
                Data::MailExchange(mail) => {
                    assert_eq!(rt; mail.preference, 20);
                    assert_eq!(rt; mail.exchange.labels.len(), 4);
                    assert_eq!(rt; mail.exchange.labels[0], b"FOO".as_slice());
                    assert_eq!(rt; mail.exchange.labels[3], b"ARPA".as_slice());
                }
                _ => assert!(rt; false),
            }
            match &records.list[3].data {
                Data::Ipv4(address) => assert_eq!(rt; address.octets(), [10, 1, 0, 52]),
                _ => assert!(rt; false),
            }
        }
        Err(fault) => assert!(rt; false, "{fault:?}"),
    }
}

#[test]
fn records_in_order(rt: HostRuntime) {
    for count in 0..=4u16 {
        match read_records(rt.alloc(), 2, MESSAGE, 26, count) {
            Ok(records) => {
                assert_eq!(rt; records.list.len(), usize::from(count));
                assert_eq!(rt; records.behind, PLACES[usize::from(count)]);
                for (record, place) in records.list.iter().zip(PLACES.iter().skip(1)) {
                    assert_eq!(rt; record.behind, *place);
                }
            }
            Err(fault) => assert!(rt; false, "{fault:?}"),
        }
    }
    let more = read_records(rt.alloc(), 2, MESSAGE, 26, 5);
    assert!(rt; matches!(more, Err(PartError::Ends(94))));
    let deeper = read_records(rt.alloc(), 1, MESSAGE, 26, 2);
    assert!(rt; matches!(deeper, Err(PartError::TooMany(42))));
}

/// Any proper prefix lacks the last one, and its error is within the prefix.
#[test]
fn records_cut_off(rt: HostRuntime) {
    for size in 26..MESSAGE.len() {
        match read_records(rt.alloc(), 2, &MESSAGE[..size], 26, 4) {
            Ok(_) => assert!(rt; false, "{size}"),
            Err(PartError::Ends(place)) => assert!(rt; place <= size, "{size}"),
            Err(fault) => assert!(rt; false, "{size}: {fault:?}"),
        }
    }
}
