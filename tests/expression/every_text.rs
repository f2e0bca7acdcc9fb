//! All texts of up to seven items over three tables, compared with a search of their trees.
use crate::grammar::Operator::{Left, Neither, Postfix, Prefix, Right};
use crate::grammar::{Table, read};
use crate::search::{reading_of, search};
use std::alloc::Global;
use std::process::Abort;
use test_support::outcomes::Kind::Backtrack;

/// The most items of a text.
const LONGEST: usize = 7;

/// Checks that an expression returns the only tree of its items that respects precedence. If there
/// is none, it must backtrack where the items end. The characters are a digit and the table's.
fn reads_the_one_tree(
    rt: &impl Abort,
    alloc: Global,
    table: Table,
    symbols: &[u8; 4],
    level: i64,
) {
    for length in 1..LONGEST + 1 {
        for number in 0..1usize << (2 * length) {
            let mut bytes = [0u8; LONGEST];
            for i in 0..length {
                bytes[i] = symbols[(number >> (2 * i)) & 3];
            }
            let Ok(text) = std::str::from_utf8(&bytes[..length]) else {
                continue;
            };
            let reading = reading_of(table, text);
            let Ok(found) = search(alloc, &reading, i128::from(level)) else {
                continue;
            };
            let (answer, rest) = read::<&str, _>(alloc, table, level, text);
            assert!(rt; found.count < 2, "{text:?} has {} trees", found.count);
            if found.count == 1 {
                assert_eq!(rt; answer, Ok(found.shape), "{text:?}");
                assert_eq!(rt; rest.len(), length - found.items, "{text:?}");
            } else {
                assert_eq!(rt; answer.map(|_| ()), Err(Backtrack), "{text:?}");
                assert_eq!(rt; rest.len(), length - reading.len(), "{text:?}");
            }
        }
    }
}

#[test]
fn expression_of_each_text_with_prefixes_and_postfixes(rt: HostRuntime) {
    let table: Table = &[Prefix('-', 3), Left('-', 5), Neither('=', 5), Postfix('!', 4)];
    reads_the_one_tree(&rt, rt.alloc(), table, b"1-=!", 0);
}

#[test]
fn expression_of_each_text_with_infixes(rt: HostRuntime) {
    let table: Table = &[Right('^', 5), Neither('=', 5), Left('&', 3)];
    reads_the_one_tree(&rt, rt.alloc(), table, b"1^=&", 3);
}

#[test]
fn expression_of_each_text_with_a_weak_prefix(rt: HostRuntime) {
    let table: Table = &[Prefix('-', 2), Neither('=', 2), Right('-', 4), Left('*', 2)];
    reads_the_one_tree(&rt, rt.alloc(), table, b"1-=*", 1);
}
