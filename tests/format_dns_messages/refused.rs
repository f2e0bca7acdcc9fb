//! Allocation failures, and errors as text.
use format_dns::fault::{PartError, MessageError, Section};
use format_dns::message::read_message;
use std::alloc::Global;
use test_support::refusing::Refusing;

/// Two entries in each section, and the names are `a`.
const MESSAGE: &[u8] = b"\0\0\0\0\0\x02\0\x02\0\x02\0\x02\
\x01a\0\0\x10\0\x01\
\xc0\x0c\0\x01\0\x01\
\xc0\x0c\0\x10\0\x01\0\0\0\0\0\x02\x01a\
\xc0\x0c\0\x01\0\x01\0\0\0\0\0\x04\x7f\0\0\x01\
\xc0\x0c\0\x02\0\x01\0\0\0\0\0\x02\xc0\x0c\
\xc0\x0c\0\x02\0\x01\0\0\0\0\0\x02\xc0\x0c\
\xc0\x0c\0\x01\0\x01\0\0\0\0\0\x04\x7f\0\0\x01\
\xc0\x0c\0\x01\0\x01\0\0\0\0\0\x04\x7f\0\0\x01";

/// Returns the number of entries of the message before that of the error.
fn entries_before(fault: MessageError) -> usize {
    let sections = match fault.section {
        Section::Header => 9,
        Section::Question => 0,
        Section::Answer => 1,
        Section::Authority => 2,
        Section::Additional => 3,
    };
    2 * sections + fault.entry
}

/// Each entry allocates; the error names the first entry whose allocation failed.
#[test]
fn read_message_refused_memory(rt: HostRuntime) {
    let mut met = true;
    let mut n = 0u64;
    let mut before = 0;
    while met {
        let heap: Refusing<Global> = Refusing::once(rt.alloc(), n);
        let read = read_message(&heap, 1, MESSAGE);
        met = heap.met();
        match read {
            Ok(_) => assert!(rt; !met, "{n}"),
            Err(fault) => {
                let now = entries_before(fault);
                assert!(rt; met && fault.why == PartError::NoMemory && fault.entry < 2, "{n}");
                assert!(rt; now == before || now == before + 1, "{n} {now}");
                before = now;
            }
        }
        n += 1;
    }
    assert_eq!(rt; before, 7);
}

/// A header that counts 65,535 entries in each section does not allocate.
#[test]
fn read_message_that_counts_too_many(rt: HostRuntime) {
    let header = b"\0\0\0\0\xff\xff\xff\xff\xff\xff\xff\xff".as_slice();
    let heap: Refusing<Global> = Refusing::once(rt.alloc(), 0);
    let read = read_message(&heap, 127, header);
    let why = PartError::Ends(12);
    let fault = MessageError { section: Section::Question, entry: 0, why };
    assert!(rt; matches!(read, Err(got) if got == fault));
    assert!(rt; !heap.met());
}

const SAID: &[(MessageError, &str)] = &[
    (
        MessageError { section: Section::Header, entry: 0, why: PartError::Ends(0) },
        "entry 0 of the header section: incomplete element at offset 0",
    ),
    (
        MessageError { section: Section::Question, entry: 1, why: PartError::TooLong(12) },
        "entry 1 of the question section: name too long at offset 12",
    ),
    (
        MessageError { section: Section::Answer, entry: 2, why: PartError::TooMany(42) },
        "entry 2 of the answer section: too many compression pointers at offset 42",
    ),
    (
        MessageError { section: Section::Authority, entry: 0, why: PartError::NotPrior(9) },
        "entry 0 of the authority section: compression pointer without a prior target at offset 9",
    ),
    (
        MessageError { section: Section::Additional, entry: 3, why: PartError::Reserved(78) },
        "entry 3 of the additional section: reserved label type at offset 78",
    ),
    (
        MessageError { section: Section::Answer, entry: 0, why: PartError::Trailing(30) },
        "entry 0 of the answer section: unexpected trailing data at offset 30",
    ),
    (
        MessageError { section: Section::Answer, entry: 0, why: PartError::NoMemory },
        "entry 0 of the answer section: out of memory",
    ),
];

#[test]
fn faults_as_text(rt: HostRuntime) {
    for (fault, text) in SAID {
        let said = format!(in rt.alloc(); "{fault}");
        assert!(rt; matches!(said, Ok(said) if said.as_str() == *text), "{text}");
    }
}
