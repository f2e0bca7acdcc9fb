//! Grammars of repetitions and separated lists.
use crate::closures::folded;
use crate::shown::Shown;
use crate::standing::{Found, Standing, both, one_alone, standing};
use crate::tree::{Bounds, Into, Tree};

/// The outputs of consecutive items.
#[derive(Clone, Copy)]
pub(crate) struct Row {
    count: usize,
    list: Shown,
    /// The value that they are folded into.
    pub(crate) folded: Shown,
    /// How many tokens they take.
    pub(crate) taken: usize,
}

impl Row {
    /// No outputs.
    fn none() -> Row {
        Row {
            count: 0,
            list: Shown::list(&[]),
            folded: Shown::unit(),
            taken: 0,
        }
    }

    /// Appends an output.
    fn and(self, more: Standing) -> Row {
        Row {
            count: self.count + 1,
            list: self.list.and(more.output),
            folded: folded(self.folded, more.output),
            taken: self.taken + more.taken,
        }
    }

    /// Returns the value of an accumulator of the outputs.
    pub(crate) fn held(self, into: Into) -> Shown {
        match into {
            Into::List => self.list,
            Into::Count => Shown::count(self.count),
            Into::Nothing => Shown::unit(),
        }
    }
}

/// The next item of a row. It must consume tokens.
#[derive(Clone, Copy)]
pub(crate) enum Step<'t> {
    /// The tree.
    Item(&'t Tree),
    /// The first tree, then the second, with the second's output.
    Behind(&'t Tree, &'t Tree),
    /// The first tree, if the second does not match.
    Turn(&'t Tree, &'t Tree),
}

impl Step<'_> {
    /// Returns the match of the item at the start of `tokens`.
    fn standing(self, tokens: &[u8]) -> Found<Standing> {
        match self {
            Step::Item(tree) => standing(tree, tokens),
            Step::Behind(first, second) => both(first, second, tokens, |_, output| output),
            Step::Turn(item, till) => match standing(till, tokens)? {
                None => standing(item, tokens),
                Some(_) => Ok(None),
            },
        }
    }

    /// Each row that goes on with this one is passed to `found`, this one first.
    fn each(
        self,
        begun: Row,
        tokens: &[u8],
        mut found: impl FnMut(Row) -> Found<Row>,
    ) -> Found<Row> {
        let (mut one, mut row) = (None, begun);
        loop {
            one = one_alone(one, found(row)?)?;
            match self.standing(&tokens[row.taken..])? {
                Some(more) => row = row.and(more),
                None => return Ok(one),
            }
        }
    }

    /// Returns `Some` if the row cannot be continued: it has the greatest number of items, or no
    /// further item matches.
    fn stops(self, bounds: Bounds, row: Row, tokens: &[u8]) -> Found<()> {
        let is_full = bounds.greatest == Some(row.count);
        let is_below = bounds.is_within(row.count) && !is_full;
        let none_stands = self.standing(&tokens[row.taken..])?.is_none();
        Ok(if is_full || (is_below && none_stands) { Some(()) } else { None })
    }

    /// Returns the row if it has enough items and cannot be continued.
    fn within(self, bounds: Bounds, row: Row, tokens: &[u8]) -> Found<Row> {
        let stops = self.stops(bounds, row, tokens)?.is_some();
        Ok(if bounds.least <= row.count && stops { Some(row) } else { None })
    }
}

/// Matches as many consecutive items as possible, within the bounds.
pub(crate) fn many(item: &Tree, bounds: Bounds, tokens: &[u8]) -> Found<Row> {
    let step = Step::Item(item);
    step.each(Row::none(), tokens, |row| step.within(bounds, row, tokens))
}

/// Matches as many elements as possible, with a separator between each two, within the bounds.
pub(crate) fn parted(
    (element, separator): (&Tree, &Tree),
    bounds: Bounds,
    tokens: &[u8],
) -> Found<Row> {
    let none = Step::Item(element).within(bounds, Row::none(), tokens)?;
    let Some(first) = standing(element, tokens)? else {
        return Ok(none);
    };
    let link = Step::Behind(separator, element);
    let begun = Row::none().and(first);
    let some = link.each(begun, tokens, |row| link.within(bounds, row, tokens))?;
    one_alone(none, some)
}

/// Matches exactly `count` consecutive items.
pub(crate) fn times(item: &Tree, count: usize, tokens: &[u8]) -> Found<Row> {
    Step::Item(item).each(Row::none(), tokens, |row| Ok(if row.count == count {
        Some(row)
    } else {
        None
    }))
}

/// Matches the least number of items, then items up to the first match of the terminator, at most
/// the greatest number in all.
pub(crate) fn up_to((item, till): (&Tree, &Tree), bounds: Bounds, tokens: &[u8]) -> Found<Row> {
    Step::Item(item).each(Row::none(), tokens, |first| {
        if first.count != bounds.least {
            return Ok(None);
        }
        Step::Turn(item, till).each(first, tokens, |row| {
            let is_end = standing(till, &tokens[row.taken..])?.is_some();
            Ok(if is_end && bounds.is_within(row.count) { Some(row) } else { None })
        })
    })
}
