//! A search of all trees over the items of a text, by the conditions under which a tree respects
//! precedence.
use crate::grammar::{Operator, Table};
use crate::shape::Shape;
use std::alloc::{AllocError, Allocator};

/// An item of a text.
#[derive(Clone, Copy, PartialEq)]
pub(crate) enum Item {
    Operand(char),
    Prefix(char, i128),
    Postfix(char, i128),
    /// The left power, the right power, and whether it is a `Neither`.
    Infix(char, i128, i128, bool),
}

/// A tree; its operands are indices into the list of all trees.
#[derive(Clone, Copy)]
enum Tree {
    Leaf(char),
    Before(char, i128, usize),
    Behind(char, i128, usize),
    Between(char, i128, i128, bool, usize, usize),
}

/// The most items of a text.
const MOST: usize = 8;

/// The items of a text, and whether they end where an operator is allowed. Otherwise they end where
/// an operand is missing.
#[derive(Clone, Copy)]
pub(crate) struct Reading {
    items: [Item; MOST],
    len: usize,
    ends_well: bool,
}

fn is_prefix(table: Table, symbol: char) -> Option<Item> {
    for operator in table {
        if let Operator::Prefix(own, power) = *operator {
            if own == symbol {
                return Some(Item::Prefix(symbol, i128::from(power)));
            }
        }
    }
    None
}

fn is_postfix(table: Table, symbol: char) -> Option<Item> {
    for operator in table {
        if let Operator::Postfix(own, power) = *operator {
            if own == symbol {
                return Some(Item::Postfix(symbol, i128::from(power)));
            }
        }
    }
    None
}

fn is_infix(table: Table, symbol: char) -> Option<Item> {
    for operator in table {
        let (own, left, right, is_neither) = match *operator {
            Operator::Left(own, power) => (own, power, i128::from(power) + 1, false),
            Operator::Right(own, power) => (own, power, i128::from(power), false),
            Operator::Neither(own, power) => (own, power, i128::from(power) + 1, true),
            Operator::Prefix(own, power) | Operator::Postfix(own, power) => {
                ('\0', power, i128::from(power), false)
            }
        };
        if own == symbol {
            return Some(Item::Infix(symbol, i128::from(left), right, is_neither));
        }
    }
    None
}

/// Reads the items of a text, each of one character.
pub(crate) fn reading_of(table: Table, text: &str) -> Reading {
    let mut reading = Reading {
        items: [Item::Operand('\0'); MOST],
        len: 0,
        ends_well: false,
    };
    let mut wants_operand = true;
    for symbol in text.chars() {
        let item = if wants_operand {
            if symbol.is_ascii_digit() {
                wants_operand = false;
                Some(Item::Operand(symbol))
            } else {
                is_prefix(table, symbol)
            }
        } else if let Some(item) = is_postfix(table, symbol) {
            Some(item)
        } else if let Some(item) = is_infix(table, symbol) {
            wants_operand = true;
            Some(item)
        } else {
            None
        };
        let Some(item) = item else {
            reading.ends_well = !wants_operand;
            return reading;
        };
        if reading.len < MOST {
            reading.items[reading.len] = item;
            reading.len += 1;
        }
    }
    reading.ends_well = !wants_operand;
    reading
}

/// The result of the search: the number of trees that respect precedence, and the last of them with
/// its number of items.
#[derive(Clone, Copy)]
pub(crate) struct Found {
    pub(crate) count: usize,
    pub(crate) shape: Shape,
    pub(crate) items: usize,
}

/// The trees of a search.
#[derive(Drop)]
struct Search<A: Allocator> {
    reading: Reading,
    trees: Vec<Tree, A>,
}

/// Searches the trees over each prefix of the items.
pub(crate) fn search<A: Allocator + Copy>(
    alloc: A,
    reading: &Reading,
    level: i128,
) -> Result<Found, AllocError> {
    let mut found = Found {
        count: 0,
        shape: Shape::of(""),
        items: 0,
    };
    let mut search = Search {
        reading: *reading,
        trees: Vec::new(alloc),
    };
    for end in 1..reading.len + 1 {
        if end == reading.len && !reading.ends_well {
            continue;
        }
        let next = if end < reading.len { Some(reading.items[end]) } else { None };
        let roots = search.over(alloc, 0, end)?;
        for root in &roots {
            if search.keeps(*root, level, next) {
                found.count += 1;
                found.shape = search.shape(*root);
                found.items = end;
            }
        }
    }
    Ok(found)
}

impl<A: Allocator + Copy> Search<A> {
    /// Adds a tree.
    fn add(&mut self, tree: Tree, to: &mut Vec<usize, A>) -> Result<(), AllocError> {
        let at = self.trees.len();
        match self.trees.push(tree) {
            Ok(()) => {}
            Err(_) => return Err(AllocError),
        }
        match to.push(at) {
            Ok(()) => Ok(()),
            Err(_) => Err(AllocError),
        }
    }

    /// All trees whose items in order are those of a part.
    fn over(&mut self, alloc: A, start: usize, end: usize) -> Result<Vec<usize, A>, AllocError> {
        let mut roots = Vec::new(alloc);
        if start >= end {
            return Ok(roots);
        }
        if let Item::Operand(symbol) = self.reading.items[start] {
            if start + 1 == end {
                self.add(Tree::Leaf(symbol), &mut roots)?;
            }
        }
        if let Item::Prefix(symbol, power) = self.reading.items[start] {
            for right in &self.over(alloc, start + 1, end)? {
                self.add(Tree::Before(symbol, power, *right), &mut roots)?;
            }
        }
        if let Item::Postfix(symbol, power) = self.reading.items[end - 1] {
            for left in &self.over(alloc, start, end - 1)? {
                self.add(Tree::Behind(symbol, power, *left), &mut roots)?;
            }
        }
        for middle in start + 1..end {
            if let Item::Infix(symbol, power, right_power, is_neither) = self.reading.items[middle] {
                let lefts = self.over(alloc, start, middle)?;
                let rights = self.over(alloc, middle + 1, end)?;
                for left in &lefts {
                    for right in &rights {
                        let tree =
                            Tree::Between(symbol, power, right_power, is_neither, *left, *right);
                        self.add(tree, &mut roots)?;
                    }
                }
            }
        }
        Ok(roots)
    }

    /// The power of the topmost infix on the left edge, if that is a neither.
    fn top_neither(&self, tree: usize) -> Option<i128> {
        match self.trees[tree] {
            Tree::Leaf(_) | Tree::Before(_, _, _) => None,
            Tree::Behind(_, _, left) => self.top_neither(left),
            Tree::Between(_, power, _, is_neither, _, _) => {
                if is_neither { Some(power) } else { None }
            }
        }
    }

    /// Whether each operator on the left edge reaches a number.
    fn reaches(&self, tree: usize, number: i128) -> bool {
        match self.trees[tree] {
            Tree::Leaf(_) | Tree::Before(_, _, _) => true,
            Tree::Behind(_, power, left) => power >= number && self.reaches(left, number),
            Tree::Between(_, power, _, _, left, _) => power >= number && self.reaches(left, number),
        }
    }

    /// Whether a power reaches no right power on the right edge.
    fn is_above(&self, tree: usize, power: i128) -> bool {
        match self.trees[tree] {
            Tree::Leaf(_) | Tree::Behind(_, _, _) => true,
            Tree::Before(_, own, right) => power < own && self.is_above(right, power),
            Tree::Between(_, _, own, _, _, right) => power < own && self.is_above(right, power),
        }
    }

    /// Whether the conditions hold at each operator within.
    fn binds(&self, tree: usize) -> bool {
        match self.trees[tree] {
            Tree::Leaf(_) => true,
            Tree::Before(_, power, right) => self.binds(right) && self.reaches(right, power),
            Tree::Behind(_, power, left) => self.binds(left) && self.is_above(left, power),
            Tree::Between(_, power, right_power, _, left, right) => {
                self.binds(left)
                    && self.binds(right)
                    && self.is_above(left, power)
                    && self.top_neither(left) != Some(power)
                    && self.reaches(right, right_power)
            }
        }
    }

    /// Whether the innermost operand on the right edge whose power is reached has a neither of that
    /// power on top; none where no operand's power is reached.
    fn meets(&self, tree: usize, power: i128) -> Option<bool> {
        let (own, right) = match self.trees[tree] {
            Tree::Leaf(_) | Tree::Behind(_, _, _) => return None,
            Tree::Before(_, own, right) => (own, right),
            Tree::Between(_, _, own, _, _, right) => (own, right),
        };
        match self.meets(right, power) {
            Some(met) => Some(met),
            None => {
                if power >= own { Some(self.top_neither(right) == Some(power)) } else { None }
            }
        }
    }

    /// Whether a tree may end before what is read next.
    fn ends(&self, tree: usize, level: i128, next: Option<Item>) -> bool {
        let (power, is_infix) = match next {
            None | Some(Item::Operand(_)) | Some(Item::Prefix(_, _)) => return true,
            Some(Item::Postfix(_, power)) => (power, false),
            Some(Item::Infix(_, power, _, _)) => (power, true),
        };
        if power < level && self.is_above(tree, power) {
            return true;
        }
        if !is_infix {
            return false;
        }
        match self.meets(tree, power) {
            Some(met) => met,
            None => power >= level && self.top_neither(tree) == Some(power),
        }
    }

    /// Returns whether a tree respects precedence at a level.
    fn keeps(&self, tree: usize, level: i128, next: Option<Item>) -> bool {
        self.binds(tree) && self.reaches(tree, level) && self.ends(tree, level, next)
    }

    /// How a tree is written.
    fn shape(&self, tree: usize) -> Shape {
        match self.trees[tree] {
            Tree::Leaf(symbol) => Shape::leaf(symbol),
            Tree::Before(symbol, _, right) => Shape::before(symbol, &self.shape(right)),
            Tree::Behind(symbol, _, left) => Shape::behind(symbol, &self.shape(left)),
            Tree::Between(symbol, _, _, _, left, right) => {
                Shape::between(symbol, &self.shape(left), &self.shape(right))
            }
        }
    }
}

impl Reading {
    /// How many items it has.
    pub(crate) fn len(&self) -> usize {
        self.len
    }
}
