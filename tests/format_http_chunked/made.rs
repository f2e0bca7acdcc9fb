//! Bodies that are made by a fixed seed, with the content that they are made of, in random pieces.
use crate::bodies::decode;
use format_http_chunked::decoder::SAFE_LIMITS;
use std::alloc::{AllocError, Allocator};
use std::process::Abort;

/// Numbers that look random, always the same ones.
#[derive(Drop)]
struct Numbers {
    state: u64,
}

impl Numbers {
    /// The next number below this one.
    fn below(&mut self, end: u64) -> u64 {
        self.state = self.state.wrapping_mul(6364136223846793005).wrapping_add(1442695040888963407);
        (self.state >> 33) % end
    }
}

/// Size lines after the digits, by the grammar of extensions.
const EXTENSIONS: &[&[u8]] = &[
    b"\r\n", b"\r\n", b"\r\n", b";a\r\n", b" ; a = b\r\n", b";a=\"\\\"\";b\r\n", b"\t;~=\"0;\"\r\n",
    b";q=\"\"\r\n",
];

/// A body, and its content.
#[derive(Drop)]
struct Made<A: Allocator> {
    text: Vec<u8, A>,
    content: Vec<u8, A>,
}

fn add_chunk<A: Allocator>(
    numbers: &mut Numbers,
    size: u64,
    made: &mut Made<A>,
) -> Result<(), AllocError> {
    let digits = b"0123456789abcdef0123456789ABCDEF";
    let case = numbers.below(2) * 16;
    for _ in 0..numbers.below(3) {
        made.text.extend_from_slice(b"0")?;
    }
    if size > 15 {
        made.text.extend_from_slice(&[digits[(size / 16 + case) as usize % 32]])?;
    }
    made.text.extend_from_slice(&[digits[(size % 16 + case) as usize % 32]])?;
    made.text.extend_from_slice(EXTENSIONS[numbers.below(8) as usize % 8])?;
    for _ in 0..size {
        let byte = [b"\r\n0;a\xff"[numbers.below(6) as usize % 6]];
        made.text.extend_from_slice(&byte)?;
        made.content.extend_from_slice(&byte)?;
    }
    Ok(())
}

fn make<A: Allocator + Copy>(alloc: A, numbers: &mut Numbers) -> Result<Made<A>, AllocError> {
    let mut made = Made { text: Vec::new(alloc), content: Vec::new(alloc) };
    for _ in 0..numbers.below(5) {
        let size = numbers.below(40) + 1;
        add_chunk(numbers, size, &mut made)?;
        made.text.extend_from_slice(b"\r\n")?;
    }
    add_chunk(numbers, 0, &mut made)?;
    made.text.extend_from_slice(b"\r\n")?;
    Ok(made)
}

fn check<A: Allocator + Copy>(
    rt: &impl Abort,
    alloc: A,
    numbers: &mut Numbers,
) -> Result<(), AllocError> {
    let made = make(alloc, numbers)?;
    let text = made.text.as_slice();
    let second = numbers.below(text.len() as u64 + 1) as usize;
    let first = numbers.below(second as u64 + 1) as usize;
    let pieces = [&text[..first], &text[first..second], &text[second..]];
    let decoded = decode(alloc, SAFE_LIMITS, &pieces)?;
    assert!(rt; decoded.ended, "{text:?}");
    assert_eq!(rt; decoded.content.as_slice(), made.content.as_slice(), "{text:?}");
    assert_eq!(rt; decoded.taken, text.len(), "{text:?}");
    Ok(())
}

#[test]
fn advance_of_made_bodies(rt: HostRuntime) {
    let mut numbers = Numbers { state: 9112 };
    for _ in 0..2000 {
        let answer = check(&rt, rt.alloc(), &mut numbers);
        assert!(rt; answer.is_ok(), "memory");
    }
}
