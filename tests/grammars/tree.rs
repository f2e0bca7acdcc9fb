//! Compositions as values.
use std::alloc::Global;
use std::fmt::{self, Debug, Formatter, Write};

/// How many: at least so many, and at most so many where there is a most.
#[derive(Clone, Copy, Debug)]
pub(crate) struct Bounds {
    pub(crate) least: usize,
    pub(crate) greatest: Option<usize>,
}

impl Bounds {
    /// At least `least`.
    pub(crate) fn from(least: usize) -> Bounds {
        Bounds {
            least,
            greatest: None,
        }
    }

    /// Whether a number is no more than the greatest.
    pub(crate) fn is_within(self, count: usize) -> bool {
        match self.greatest {
            Some(greatest) => count <= greatest,
            None => true,
        }
    }

    /// Whether a number is between both.
    pub(crate) fn has(self, count: usize) -> bool {
        self.least <= count && self.is_within(count)
    }
}

/// A parser that has no other one in it.
#[derive(Clone, Copy, Debug)]
pub(crate) enum Leaf {
    Byte(u8),
    Text(&'static str),
    Caseless(&'static str),
    LineEnding,
    Any,
    OneOf(&'static [u8]),
    NoneOf(&'static [u8]),
    Take(usize),
    TakeWhile(Bounds, &'static [u8]),
    TakeTill(Bounds, &'static [u8]),
    TakeUntil(Bounds, &'static str),
    Alpha1,
    Digit0,
    TillLineEnding,
    DecUint,
    DecInt,
    HexUint,
    BeU16,
    LeI16,
    LengthTake,
    Rest,
    RestLen,
    Eof,
    Empty,
    Fail,
}

/// The accumulators of a repetition.
#[derive(Clone, Copy, Debug)]
pub(crate) enum Into {
    List,
    Count,
    Nothing,
}

/// The combinators of one parser.
#[derive(Clone, Copy, Debug)]
pub(crate) enum One {
    Opt,
    Cond(bool),
    Peek,
    Not,
    Take,
    WithTaken,
    Map,
    Value,
    Void,
    Verify,
    VerifyMap,
    FlatMap,
    Repeat(Into, Bounds),
    Fold(Bounds),
    LengthAndThen,
    LengthRepeat,
}

/// The combinators of two parsers.
#[derive(Clone, Copy, Debug)]
pub(crate) enum Two {
    Sequence,
    Preceded,
    Terminated,
    Choice,
    AndThen,
    Separated(Into, Bounds),
    RepeatTill(Bounds),
}

/// The combinators of three parsers.
#[derive(Clone, Copy, Debug)]
pub(crate) enum Three {
    Sequence,
    Delimited,
    SeparatedPair,
    Choice,
}

/// A composition, with the allocator for its lists.
#[derive(Drop)]
pub(crate) enum Tree {
    Leaf(Leaf),
    One(One, Global, Box<Tree>),
    Two(Two, Global, Box<Tree>, Box<Tree>),
    Three(Three, Box<Tree>, Box<Tree>, Box<Tree>),
}

impl Debug for Tree {
    fn fmt<W: Write>(&self, f: &mut Formatter<W>) -> fmt::Result {
        match self {
            Tree::Leaf(leaf) => write!(f, "{leaf:?}"),
            Tree::One(kind, _, part) => write!(f, "{kind:?}({part:?})"),
            Tree::Two(kind, _, first, second) => write!(f, "{kind:?}({first:?}, {second:?})"),
            Tree::Three(kind, first, second, third) => {
                write!(f, "{kind:?}({first:?}, {second:?}, {third:?})")
            }
        }
    }
}

impl One {
    /// Whether its part is to take tokens.
    pub(crate) fn wants_tokens(self) -> bool {
        matches!(self, One::Repeat(_, _) | One::Fold(_) | One::LengthRepeat)
    }
}

impl Leaf {
    /// Returns whether every match consumes tokens.
    pub(crate) fn consumes(self) -> bool {
        match self {
            Leaf::Text(text) | Leaf::Caseless(text) => text.len() > 0,
            Leaf::Take(count) => count > 0,
            Leaf::TakeWhile(bounds, _) | Leaf::TakeTill(bounds, _) => bounds.least > 0,
            Leaf::TakeUntil(bounds, _) => bounds.least > 0,
            Leaf::Byte(_) | Leaf::LineEnding | Leaf::Any | Leaf::OneOf(_) | Leaf::NoneOf(_) => true,
            Leaf::Alpha1 | Leaf::DecUint | Leaf::DecInt | Leaf::HexUint => true,
            Leaf::BeU16 | Leaf::LeI16 | Leaf::LengthTake => true,
            Leaf::Digit0 | Leaf::TillLineEnding | Leaf::Rest | Leaf::RestLen => false,
            Leaf::Eof | Leaf::Empty | Leaf::Fail => false,
        }
    }

    /// Returns whether every result other than `Incomplete` stays the same with more input.
    pub(crate) fn is_stable(self) -> bool {
        !matches!(self, Leaf::Rest | Leaf::RestLen | Leaf::Eof)
    }
}

impl Tree {
    /// Returns whether every match consumes tokens.
    pub(crate) fn consumes(&self) -> bool {
        match self {
            Tree::Leaf(leaf) => leaf.consumes(),
            Tree::One(kind, _, part) => match kind {
                One::Opt | One::Cond(_) | One::Peek | One::Not => false,
                One::Repeat(_, bounds) | One::Fold(bounds) => bounds.least > 0 && part.consumes(),
                One::LengthAndThen | One::LengthRepeat => true,
                _ => part.consumes(),
            },
            Tree::Two(kind, _, first, second) => match kind {
                Two::Sequence | Two::Preceded | Two::Terminated => {
                    first.consumes() || second.consumes()
                }
                Two::Choice => first.consumes() && second.consumes(),
                Two::AndThen => first.consumes(),
                Two::Separated(_, bounds) => bounds.least > 0 && first.consumes(),
                Two::RepeatTill(_) => second.consumes(),
            },
            Tree::Three(kind, first, second, third) => match kind {
                Three::Choice => first.consumes() && second.consumes() && third.consumes(),
                _ => first.consumes() || second.consumes() || third.consumes(),
            },
        }
    }

    /// Returns whether every result other than `Incomplete` stays the same with more input.
    pub(crate) fn is_stable(&self) -> bool {
        match self {
            Tree::Leaf(leaf) => leaf.is_stable(),
            Tree::One(_, _, part) => part.is_stable(),
            Tree::Two(_, _, first, second) => first.is_stable() && second.is_stable(),
            Tree::Three(_, first, second, third) => {
                first.is_stable() && second.is_stable() && third.is_stable()
            }
        }
    }
}
