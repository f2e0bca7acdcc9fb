//! Whole parses that recover from many errors.
use crate::common::counting;
use std::alloc::Global;
use std::cell::Cell;
use std::test::Fail;
use test_support::rows::Modal;
use winnow_ascii::ascii::impls::Digit1;
use winnow_core::parser::Parser;
use winnow_recovery::parser::{RecoverableParser, RecoveringParser};
use winnow_token::token::take_while;

/// A parser that fails at each of many words is tried once a word, and once more.
#[test]
fn retry_after_of_many(rt: HostRuntime) -> Result<(), Fail> {
    let count = 1 << 13;
    let mut text = String::new(rt.alloc());
    for _ in 0..count {
        text.push_str("ab,")?;
    }
    text.push('1')?;
    let (tries, skips) = (Cell::new(0), Cell::new(0));
    let skip = (take_while(1.., ('a', 'b')), ',').void();
    let mut parser = counting(Digit1, &tries).retry_after(counting(skip, &skips));
    match RecoverableParser::<&str, &str, Modal, Modal, Global>::recoverable_parse(
        &mut parser,
        rt.alloc(),
        text.as_str(),
    ) {
        Ok((back, output, errors)) => {
            assert_eq!(rt; back.len(), text.len(), "the text comes back");
            assert_eq!(rt; (output, errors.len()), (Some("1"), count), "the last word");
        }
        Err(_) => assert!(rt; false, "there is memory"),
    }
    assert_eq!(rt;
        (tries.get(), skips.get()),
        (count + 1, count),
        "tries and skips"
    );
    Ok(())
}
