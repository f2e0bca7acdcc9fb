//! Questions, from RFC 1035 (sections 4.1.2 and 4.1.4) by hand.
use format_dns::fault::PartError;
use format_dns::question::read_questions;

/// The name, the type and the class of a question, and the offset after it.
type Row = (&'static str, u16, u16, usize);

/// Three questions from place 12 on: `a.com` for A, `b.com` by a pointer to `com` for MX, and the
/// root for NS in the class CH.
const MESSAGE: &[u8] = b"\x12\x34\x01\0\0\x03\0\0\0\0\0\0\
\x01a\x03com\0\0\x01\0\x01\
\x01b\xc0\x0e\0\x0f\0\x01\
\0\0\x02\0\x03";

const ROWS: &[Row] = &[
    ("a.com.", 1, 1, 23),
    ("b.com.", 15, 1, 31),
    (".", 2, 3, 36),
];

/// The length of a prefix of the message, the number of questions to read, and the error.
const FAULTS: &[(usize, u16, PartError)] = &[
    // The fourth question, which is wholly missing.
    (36, 4, PartError::Ends(36)),
    // Cut in the class, in the type and in the name of the third, and in the pointer of the second.
    (35, 3, PartError::Ends(32)),
    (33, 3, PartError::Ends(32)),
    (32, 3, PartError::Ends(32)),
    (31, 3, PartError::Ends(31)),
    (26, 3, PartError::Ends(25)),
    (25, 2, PartError::Ends(25)),
    (22, 1, PartError::Ends(19)),
    (11, 1, PartError::Ends(12)),
    (36, 65535, PartError::Ends(36)),
];

#[test]
fn questions_in_order(rt: HostRuntime) {
    for count in 0..=3u16 {
        match read_questions(rt.alloc(), 1, MESSAGE, 12, count) {
            Ok(questions) => {
                assert_eq!(rt; questions.list.len(), usize::from(count));
                let mut behind = 12;
                for (question, row) in questions.list.iter().zip(ROWS) {
                    let said = format!(in rt.alloc(); "{}", question.name);
                    assert!(rt; matches!(said, Ok(said) if said.as_str() == row.0), "{}", row.0);
                    assert_eq!(rt; (question.kind, question.class), (row.1, row.2));
                    assert_eq!(rt; question.behind, row.3);
                    behind = row.3;
                }
                assert_eq!(rt; questions.behind, behind);
            }
            Err(fault) => assert!(rt; false, "{count}: {fault:?}"),
        }
    }
}

#[test]
fn questions_that_are_not_there(rt: HostRuntime) {
    for (size, count, fault) in FAULTS {
        match read_questions(rt.alloc(), 1, &MESSAGE[..*size], 12, *count) {
            Ok(questions) => assert!(rt; false, "{size} {count}: {}", questions.behind),
            Err(got) => assert_eq!(rt; got, *fault, "{size} {count}"),
        }
    }
    let deeper = read_questions(rt.alloc(), 0, MESSAGE, 12, 2);
    assert!(rt; matches!(deeper, Err(PartError::TooMany(25))));
}
