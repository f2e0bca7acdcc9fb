//! Trees by maximum nesting depth.
use std::alloc::Global;
use std::fmt::Debug;
use std::process::Abort;
use examples::nested::{Tree, read_tree};

/// A text, a nesting depth, and the result: the numbers in order, the greatest number of open
/// brackets, and the rest.
const ROWS: &[(&[u8], usize, Option<(&[u32], usize, &[u8])>)] = &[
    (b"12", 0, Some((&[12], 0, b""))),
    (b"12,3", 5, Some((&[12], 0, b",3"))),
    (b"0x", 0, Some((&[0], 0, b"x"))),
    (b"4294967295", 0, Some((&[4294967295], 0, b""))),
    (b"4294967296", 0, None),
    (b"", 3, None),
    (b"x", 3, None),
    (b"[]", 0, None),
    (b"[]", 1, Some((&[], 1, b""))),
    (b"[]]", 1, Some((&[], 1, b"]"))),
    (b"[1]", 1, Some((&[1], 1, b""))),
    (b"[1,2,3] ", 1, Some((&[1, 2, 3], 1, b" "))),
    (b"[1,[2,3],[]];", 2, Some((&[1, 2, 3], 2, b";"))),
    (b"[1,[2,3],[]]", 1, None),
    (b"[[[7]]]", 3, Some((&[7], 3, b""))),
    (b"[[[7]]]", 2, None),
    (b"[[[7]]]", 9, Some((&[7], 3, b""))),
    (b"[1,]", 3, None),
    (b"[,1]", 3, None),
    (b"[1", 3, None),
    (b"[1 ]", 3, None),
    (b"[1;2]", 3, None),
    (b"]", 3, None),
];

fn same<T: PartialEq + Debug + Drop>(rt: &impl Abort, row: &[u8], got: T, want: T) {
    assert_eq!(rt; got, want, "{row:?}");
}

/// Appends the numbers of `tree` to `numbers`, and returns the greatest number of open brackets.
fn gather(tree: &Tree<Global>, numbers: &mut Vec<u32>) -> Result<usize, std::alloc::AllocError> {
    match tree {
        Tree::Leaf(number) => {
            if numbers.push(*number).is_err() {
                return Err(std::alloc::AllocError);
            }
            Ok(0)
        }
        Tree::Branch(list) => {
            let mut most = 0;
            for inner in list {
                most = std::cmp::max(most, gather(inner, numbers)?);
            }
            Ok(most + 1)
        }
    }
}

#[test]
fn read_tree_by_level(rt: HostRuntime) {
    for (text, level, want) in ROWS {
        let mut input = *text;
        let mut numbers = Vec::new(rt.alloc());
        match (read_tree(rt.alloc(), *level, &mut input), want) {
            (Ok(tree), Some((all, depth, rest))) => {
                same(&rt, text, gather(&tree, &mut numbers), Ok(*depth));
                same(&rt, text, numbers.as_slice(), *all);
                same(&rt, text, input, *rest);
            }
            (got, want) => same(&rt, text, got.is_ok(), want.is_some()),
        }
    }
}
