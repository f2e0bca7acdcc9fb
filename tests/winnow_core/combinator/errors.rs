//! Adapters that change the error.
use std::alloc::Global;
use std::fmt::Debug;
use std::process::Abort;
use stream_errors::context_error::ContextError;
use stream_errors::empty::EmptyError;
use stream_errors::mode::ErrMode;
use stream_errors::parser_error::ParserError;
use streams::needed::Needed;
use streams::partial::Partial;
use test_support::outcomes::Kind::{self, Backtrack, Cut, Incomplete, Memory};
use test_support::outcomes::{kind_of, outcome_of};
use test_support::placed::Placed;
use test_support::refusing::Refusing;
use test_support::rows::{Modal, answers_on_cut, same, slices_each};
use winnow_ascii::ascii::impls::{Alpha1, Digit1};
use winnow_comb::combinator;
use winnow_core::combinator::impls::{CompleteErr, ErrInto};
use winnow_core::parser::Parser;

/// A need of more input is none any more, and the input stays there.
#[test]
fn complete_err(rt: HostRuntime) {
    let mut digits: CompleteErr<Digit1, Partial<&str>, &str, Modal> = Digit1.complete_err();
    for row in [("12", Err(Backtrack), "12"), ("12;", Ok("12"), ";")] {
        let name = "complete_err";
        answers_on_cut::<Partial<&str>, &str, Modal, _>(&rt, name, &mut digits, row);
    }
}

/// A plain error becomes a cut. The closure is called only if its parser fails.
#[test]
fn map_err(rt: HostRuntime) {
    let cuts = Digit1.map_err(|error: EmptyError| ErrMode::Cut(error));
    let rows = [("ab", Err(Cut), "ab"), ("1b", Ok("1"), "b")];
    slices_each::<&str, Modal, _>(&rt, "map_err", cuts, &rows);
    let mut calls = 0u8;
    let second = Digit1.map_err(move |error: EmptyError| {
        calls += 1;
        if calls == 2 {
            ErrMode::Cut(error)
        } else {
            ErrMode::Backtrack(error)
        }
    });
    let rows = [
        ("a", Err(Backtrack), "a"),
        ("1", Ok("1"), ""),
        ("a", Err(Cut), "a"),
        ("a", Err(Backtrack), "a"),
    ];
    slices_each::<&str, Modal, _>(&rt, "map_err, its calls", second, &rows);
}

/// An error that is converted to its own type stays.
#[test]
fn err_into(rt: HostRuntime) {
    let kept: ErrInto<_, &str, &str, Modal, Modal> = combinator::cut_err(Digit1).err_into();
    slices_each::<&str, Modal, _>(&rt, "err_into", kept, &[("ab", Err(Cut), "ab")]);
    let kept: ErrInto<Digit1, &str, &str, Modal, Modal> = Digit1.err_into();
    slices_each::<&str, Modal, _>(&rt, "err_into", kept, &[("1b", Ok("1"), "b")]);
}

/// Errors with a mode that keep contexts.
type WithContexts<C> = ErrMode<ContextError<C, Global>>;

/// A run on a text fails so and leaves so, and its error keeps these contexts, the innermost first.
fn keeps<C, P>(
    rt: &impl Abort,
    name: &str,
    mut parser: P,
    text: &'static str,
    want: (Kind, &[C]),
    rest: &'static str,
)
where
    C: PartialEq + Debug + Drop,
    P: Parser<&'static str, &'static str, WithContexts<C>> + Drop,
{
    let mut input = text;
    match parser.parse_next(&mut input) {
        Ok(_) => assert!(rt; false, "{name} at {text:?} is no error"),
        Err(error) => {
            let kind = kind_of::<&str, _>(&error);
            match ParserError::<&str>::into_inner(error) {
                Ok(inner) => same(rt, name, text, (kind, inner.context()), want),
                Err(_) => assert!(rt; false, "{name} at {text:?} is incomplete"),
            }
        }
    }
    same(rt, name, text, input, rest);
}

#[test]
fn context(rt: HostRuntime) {
    let name = "context";
    let digits = Digit1.context(rt.alloc(), 'n');
    keeps(&rt, name, digits, "a", (Backtrack, &['n']), "a");
    let digits = Digit1.context(rt.alloc(), 'n');
    slices_each::<&str, WithContexts<char>, _>(&rt, name, digits, &[("1", Ok("1"), "")]);
    let digits = combinator::cut_err(Digit1)
        .context(rt.alloc(), 'n')
        .context(rt.alloc(), 'm');
    keeps(&rt, "two contexts", digits, "a", (Cut, &['n', 'm']), "a");
}

/// The contexts that a closure gives.
#[test]
fn context_with(rt: HostRuntime) {
    let name = "context_with";
    let digits = Digit1.context_with(rt.alloc(), || ["n"].into_iter());
    keeps(&rt, name, digits, "a", (Backtrack, &["n"]), "a");
    let digits = Digit1.context_with(rt.alloc(), || ["n", "m"].into_iter());
    keeps(&rt, name, digits, "a", (Backtrack, &["n", "m"]), "a");
}

/// The error of a run on a text has its last context from a parser that began at this rest.
fn begins<O, P>(rt: &impl Abort, name: &str, mut parser: P, text: &'static str, begun: &str)
where
    O: Drop,
    P: Parser<&'static str, O, ErrMode<Placed>> + Drop,
{
    let mut input = text;
    match parser.parse_next(&mut input) {
        Err(ErrMode::Backtrack(error) | ErrMode::Cut(error)) => {
            same(rt, name, text, error.begun, Some(begun));
        }
        _ => assert!(rt; false, "{name} at {text:?} is no error"),
    }
}

/// A context is added with the start of its parser, not with the position of the error.
#[test]
fn context_begins_with_its_parser(rt: HostRuntime) {
    let name = "context";
    let word = || (Alpha1, Digit1).context(rt.alloc(), 'n');
    begins(&rt, name, word(), "ab;", "ab;");
    begins(&rt, name, ('(', word()), "(ab;", "ab;");
    begins(&rt, name, ('(', word()).context(rt.alloc(), 'm'), "(ab;", "(ab;");
    begins(&rt, name, combinator::cut_err(word()), "ab;", "ab;");
    let cut = combinator::cut_err((Alpha1, Digit1));
    begins(&rt, name, ('(', cut.context(rt.alloc(), 'n')), "(ab;", "ab;");
}

#[test]
fn context_with_begins_with_its_parser(rt: HostRuntime) {
    let name = "context_with";
    let one = (Alpha1, Digit1).context_with(rt.alloc(), || ['n'].into_iter());
    begins(&rt, name, ('(', one), "(ab;", "ab;");
    let two = (Alpha1, Digit1).context_with(rt.alloc(), || ['n', 'm'].into_iter());
    begins(&rt, name, ('(', two), "(ab;", "ab;");
}

/// The list of contexts cannot grow, and then it can. A run that succeeds keeps nothing.
#[test]
fn context_without_memory(rt: HostRuntime) {
    type Invalid<'h> = ErrMode<ContextError<&'static str, &'h Refusing<Global>>>;
    let heap = Refusing::once(rt.alloc(), 0);
    let mut digits = Digit1.context(&heap, "n");
    let got = outcome_of::<&str, &str, Invalid<'_>, _>(&mut digits, "1");
    same(&rt, "context", "1", got, (Ok("1"), ""));
    assert!(rt; !heap.met(), "a run that succeeds asks for no memory");
    let (answer, _) = outcome_of::<&str, &str, Invalid<'_>, _>(&mut digits, "a");
    same(&rt, "context, refused memory", "a", answer, Err(Memory));
    assert!(rt; heap.met(), "a context asks for memory");
    let got = outcome_of::<&str, &str, Invalid<'_>, _>(&mut digits, "a");
    same(&rt, "context, with memory", "a", got, (Err(Backtrack), "a"));
}

/// Likewise for the contexts of a closure.
#[test]
fn context_with_without_memory(rt: HostRuntime) {
    type Invalid<'h> = ErrMode<ContextError<&'static str, &'h Refusing<Global>>>;
    let name = "context_with";
    let heap = Refusing::once(rt.alloc(), 0);
    let mut digits = Digit1.context_with(&heap, || ["n", "m"].into_iter());
    let got = outcome_of::<&str, &str, Invalid<'_>, _>(&mut digits, "1");
    same(&rt, name, "1", got, (Ok("1"), ""));
    assert!(rt; !heap.met(), "a run that succeeds asks for no memory");
    let (answer, _) = outcome_of::<&str, &str, Invalid<'_>, _>(&mut digits, "a");
    same(
        &rt,
        "context_with, refused memory",
        "a",
        answer,
        Err(Memory),
    );
    assert!(rt; heap.met(), "contexts ask for memory");
    let got = outcome_of::<&str, &str, Invalid<'_>, _>(&mut digits, "a");
    same(
        &rt,
        "context_with, with memory",
        "a",
        got,
        (Err(Backtrack), "a"),
    );
}

/// Contexts that are lists, under errors with a mode.
type Lists<'h> = ErrMode<ContextError<Vec<u8, &'h Refusing<Global>>, Global>>;

/// The first clone of a context fails to allocate, the next one succeeds. A successful call clones
/// nothing.
#[test]
fn context_whose_clone_is_refused(rt: HostRuntime) {
    let name = "context, a list";
    let heap = Refusing::once(rt.alloc(), 1);
    let mut list = Vec::new(&heap);
    assert!(rt; list.push(7u8).is_ok(), "the list");
    let mut digits = Digit1.context(rt.alloc(), list);
    let got = outcome_of::<&str, &str, Lists<'_>, _>(&mut digits, "1;");
    same(&rt, name, "1;", got, (Ok("1"), ";"));
    assert!(rt; !heap.met(), "a run that succeeds clones nothing");
    let (answer, _) = outcome_of::<&str, &str, Lists<'_>, _>(&mut digits, "a");
    same(&rt, "context, its clone refused", "a", answer, Err(Memory));
    assert!(rt; heap.met(), "the clone asks for memory");
    let got = outcome_of::<&str, &str, Lists<'_>, _>(&mut digits, "a");
    same(
        &rt,
        "context, its clone granted",
        "a",
        got,
        (Err(Backtrack), "a"),
    );
}

/// An incomplete error stays incomplete. It would be out of memory only if a clone were made and
/// failed to allocate.
#[test]
fn context_of_an_incomplete_error(rt: HostRuntime) {
    let want = (Err(Incomplete(Needed::new(1))), Partial::new("12"));
    let mut digits = Digit1.context(rt.alloc(), 'n');
    let got = outcome_of::<_, &str, WithContexts<char>, _>(&mut digits, Partial::new("12"));
    same(&rt, "context", "12, cut", got, want);
    let mut digits = Digit1.context_with(rt.alloc(), || ['n', 'm'].into_iter());
    let got = outcome_of::<_, &str, WithContexts<char>, _>(&mut digits, Partial::new("12"));
    same(&rt, "context_with", "12, cut", got, want);
    let heap = Refusing::always_from(rt.alloc(), 1);
    let mut list = Vec::new(&heap);
    assert!(rt; list.push(7u8).is_ok(), "the list");
    let mut digits = Digit1.context(rt.alloc(), list);
    let got = outcome_of::<_, &str, Lists<'_>, _>(&mut digits, Partial::new("12"));
    if heap.met() {
        same(
            &rt,
            "context, its clone refused",
            "12, cut",
            got.0,
            Err(Memory),
        );
    } else {
        same(&rt, "context, a list", "12, cut", got, want);
    }
}
