//! Compositions and inputs made at random.
use crate::closures::LENGTHS;
use crate::random::Random;
use crate::tree::{Bounds, Into, Leaf, One, Three, Tree, Two};
use std::alloc::Global;
use std::test::Fail;

/// The bytes of which inputs are.
const ALPHABET: &'static [u8] = b"aAb012,-\r\n";

const SETS: [&'static [u8]; 6] = [b"a", b"ab", b"01", b"b,", b"aAb012", b"\r\n-"];

const TEXTS: [&'static str; 6] = ["a", "ab", "aa", ",", "-1", "\r\n"];

/// A generator of compositions and inputs.
#[derive(Clone, Copy)]
pub(crate) struct Generator {
    pub(crate) random: Random,
    pub(crate) alloc: Global,
}

impl Generator {
    /// Some bounds.
    fn bounds(&mut self) -> Bounds {
        let least = self.random.one_of(&[0, 0, 1, 1, 2]);
        let more = self.random.one_of(&[None, None, Some(0), Some(1), Some(2)]);
        let greatest = more.map(|more: usize| least + more);
        Bounds { least, greatest }
    }

    fn into(&mut self) -> Into {
        self.random.one_of(&[Into::List, Into::List, Into::Count, Into::Nothing])
    }

    /// A leaf.
    fn leaf(&mut self) -> Leaf {
        let set = self.random.one_of(&SETS);
        let text = self.random.one_of(&TEXTS);
        let byte = self.random.one_of(ALPHABET);
        let bounds = self.bounds();
        match self.random.below(28) {
            0 | 1 | 2 => Leaf::Byte(byte),
            3 | 4 => Leaf::Text(text),
            5 => Leaf::Caseless(text),
            6 => Leaf::LineEnding,
            7 | 8 => Leaf::Any,
            9 => Leaf::OneOf(set),
            10 => Leaf::NoneOf(set),
            11 => Leaf::Take(bounds.least),
            12 | 13 => Leaf::TakeWhile(bounds, set),
            14 => Leaf::TakeTill(bounds, set),
            15 => Leaf::TakeUntil(bounds, text),
            16 => Leaf::Alpha1,
            17 => Leaf::Digit0,
            18 => Leaf::TillLineEnding,
            19 => Leaf::DecUint,
            20 => Leaf::DecInt,
            21 => Leaf::HexUint,
            22 => Leaf::BeU16,
            23 => Leaf::LeI16,
            24 => Leaf::LengthTake,
            25 => self.random.one_of(&[Leaf::Rest, Leaf::RestLen]),
            26 => Leaf::Eof,
            _ => self.random.one_of(&[Leaf::Empty, Leaf::Fail]),
        }
    }

    /// A leaf that takes tokens.
    fn consuming_leaf(&mut self) -> Leaf {
        let leaf = self.leaf();
        if leaf.consumes() { leaf } else { Leaf::Any }
    }

    /// A composition that is at most so deep.
    pub(crate) fn tree(&mut self, depth: usize) -> Result<Tree, Fail> {
        let choice = self.random.below(10);
        if depth == 0 || choice == 0 {
            return Ok(Tree::Leaf(self.leaf()));
        }
        match choice {
            1 | 2 | 3 | 4 => {
                let kind = self.one();
                let part = self.part(depth - 1, kind.wants_tokens())?;
                Ok(Tree::One(kind, self.alloc, part))
            }
            5 | 6 | 7 => {
                let kind = self.two();
                let first = self.part(depth - 1, matches!(kind, Two::RepeatTill(_)))?;
                let second = self.part(depth - 1, matches!(kind, Two::Separated(_, _)))?;
                Ok(Tree::Two(kind, self.alloc, first, second))
            }
            _ => {
                let kinds = [
                    Three::Sequence,
                    Three::Delimited,
                    Three::SeparatedPair,
                    Three::Choice,
                ];
                let kind = self.random.one_of(&kinds);
                let first = self.part(depth - 1, false)?;
                let second = self.part(depth - 1, false)?;
                let third = self.part(depth - 1, false)?;
                Ok(Tree::Three(kind, first, second, third))
            }
        }
    }

    /// Makes a part; one that always consumes tokens if `wants_tokens`.
    fn part(&mut self, depth: usize, wants_tokens: bool) -> Result<Box<Tree>, Fail> {
        let part = self.tree(depth)?;
        if wants_tokens && !part.consumes() {
            let token = Box::new(self.alloc, Tree::Leaf(self.consuming_leaf()))?;
            let behind = Box::new(self.alloc, part)?;
            let tree = Tree::Two(Two::Preceded, self.alloc, token, behind);
            return Ok(Box::new(self.alloc, tree)?);
        }
        Ok(Box::new(self.alloc, part)?)
    }

    fn one(&mut self) -> One {
        let bounds = self.bounds();
        match self.random.below(19) {
            0 | 1 => One::Opt,
            2 => One::Cond(self.random.below(3) > 0),
            3 => One::Peek,
            4 => One::Not,
            5 => One::Take,
            6 => One::WithTaken,
            7 => One::Map,
            8 => One::Value,
            9 => One::Void,
            10 => One::Verify,
            11 => One::VerifyMap,
            12 => One::FlatMap,
            13 | 14 | 15 => One::Repeat(self.into(), bounds),
            16 => One::Fold(bounds),
            17 => One::LengthAndThen,
            _ => One::LengthRepeat,
        }
    }

    fn two(&mut self) -> Two {
        let bounds = self.bounds();
        match self.random.below(12) {
            0 | 1 | 2 => Two::Sequence,
            3 => Two::Preceded,
            4 => Two::Terminated,
            5 | 6 | 7 => Two::Choice,
            8 => Two::AndThen,
            9 | 10 => Two::Separated(self.into(), bounds),
            _ => Two::RepeatTill(bounds),
        }
    }
}

impl Generator {
    /// Some bytes.
    fn bytes(&mut self, to: &mut Vec<u8>, most: usize) -> Result<(), Fail> {
        for _ in 0..self.random.below(most + 1) {
            to.push(self.random.one_of(ALPHABET))?;
        }
        Ok(())
    }

    /// Makes an input for a composition: random bytes, or a text that it may match followed by
    /// random bytes.
    pub(crate) fn input(&mut self, tree: &Tree) -> Result<Vec<u8>, Fail> {
        let mut input = Vec::new(self.alloc);
        if self.random.below(3) == 0 {
            self.bytes(&mut input, 5)?;
        } else {
            self.write(tree, &mut input)?;
            self.bytes(&mut input, 2)?;
        }
        Ok(input)
    }

    /// Writes what a leaf may read.
    fn write_leaf(&mut self, leaf: Leaf, to: &mut Vec<u8>) -> Result<(), Fail> {
        let text = match leaf {
            Leaf::Byte(byte) => return Ok(to.push(byte)?),
            Leaf::Text(text) | Leaf::Caseless(text) => text.as_bytes(),
            Leaf::LineEnding => self.random.one_of(&[b"\n".as_slice(), b"\r\n"]),
            Leaf::OneOf(set) => return Ok(to.push(self.random.one_of(set))?),
            Leaf::TakeWhile(bounds, set) => {
                for _ in 0..bounds.least + self.random.below(3) {
                    to.push(self.random.one_of(set))?;
                }
                return Ok(());
            }
            Leaf::TakeUntil(_, text) => {
                self.bytes(to, 2)?;
                text.as_bytes()
            }
            Leaf::Alpha1 => self.random.one_of(&[b"a".as_slice(), b"bA"]),
            Leaf::Digit0 => self.random.one_of(&[b"".as_slice(), b"01"]),
            Leaf::DecUint => self.random.one_of(&[b"0".as_slice(), b"255", b"256", b"10"]),
            Leaf::DecInt => self.random.one_of(&[b"-128".as_slice(), b"128", b"+1", b"-0"]),
            Leaf::HexUint => self.random.one_of(&[b"aF".as_slice(), b"0", b"1b2"]),
            Leaf::LengthTake => self.random.one_of(&[b"0".as_slice(), b"1a", b"2,,", b"2a"]),
            Leaf::Eof | Leaf::Empty | Leaf::Fail | Leaf::RestLen => b"",
            _ => return self.bytes(to, 2),
        };
        Ok(to.extend_from_slice(text)?)
    }

    /// Writes what a composition may read.
    fn write(&mut self, tree: &Tree, to: &mut Vec<u8>) -> Result<(), Fail> {
        match tree {
            Tree::Leaf(leaf) => self.write_leaf(*leaf, to),
            Tree::One(kind, _, part) => match kind {
                One::Peek | One::Not => Ok(()),
                One::Repeat(_, bounds) | One::Fold(bounds) => {
                    for _ in 0..bounds.least + self.random.below(2) {
                        self.write(part, to)?;
                    }
                    Ok(())
                }
                One::LengthAndThen | One::LengthRepeat => {
                    to.push(self.random.one_of(LENGTHS))?;
                    self.write(part, to)
                }
                _ => self.write(part, to),
            },
            Tree::Two(kind, _, first, second) => match kind {
                Two::Choice => {
                    let branch = if self.random.below(2) == 0 { first } else { second };
                    self.write(branch, to)
                }
                Two::AndThen => self.write(first, to),
                Two::Separated(_, _) => {
                    self.write(first, to)?;
                    self.write(second, to)?;
                    self.write(first, to)
                }
                _ => {
                    self.write(first, to)?;
                    self.write(second, to)
                }
            },
            Tree::Three(Three::Choice, first, second, third) => match self.random.below(3) {
                0 => self.write(first, to),
                1 => self.write(second, to),
                _ => self.write(third, to),
            },
            Tree::Three(_, first, second, third) => {
                self.write(first, to)?;
                self.write(second, to)?;
                self.write(third, to)
            }
        }
    }
}
