//! Compositions made at random, compared with their grammars.
use crate::begun::is_begun;
use crate::generator::Generator;
use crate::leaves::Bytes;
use crate::random::Random;
use crate::shown::Shown;
use crate::standing::{Found, Standing, standing};
use crate::tree::Tree;
use std::alloc::Global;
use std::process::Abort;
use std::test::Fail;
use streams::partial::Partial;
use test_support::outcomes::Kind::{self, Backtrack, Incomplete};
use test_support::outcomes::outcome_of;
use test_support::rows::Modal;

/// How many compositions each of the ten tests makes.
const COMPOSITIONS: usize = 1_000;

/// The number of inputs for each composition. A stable one also runs on every prefix of the first
/// of them.
const INPUTS: usize = 6;

/// The counts of a test.
#[derive(Clone, Copy, Debug, Default)]
struct Ran {
    compositions: usize,
    inputs: usize,
    inputs_read: usize,
    cut_inputs_settled: usize,
}

/// Returns the output and the number of consumed tokens, or the kind of the error.
fn answer<'i, I: Bytes<'i>>(tree: &mut Tree, input: I) -> Result<Standing, Kind> {
    let before = input.eof_offset();
    let (answer, rest) = outcome_of::<I, Shown, Modal, _>(tree, input);
    match answer {
        Ok(output) => Ok(Standing {
            output,
            taken: before - rest.eof_offset(),
        }),
        Err(kind) => Err(kind),
    }
}

/// Returns the expected result on complete input.
fn answer_by(found: Option<Standing>) -> Result<Standing, Kind> {
    match found {
        Some(standing) => Ok(standing),
        None => Err(Backtrack),
    }
}

/// Checks that on every prefix as partial input the result is `Incomplete` if and only if the
/// tokens are incomplete, and that every other result is that of each longer input. Returns the
/// number of these other results.
fn agrees_when_cut(
    rt: &impl Abort,
    alloc: Global,
    tree: &mut Tree,
    tokens: &[u8],
) -> Result<usize, Fail> {
    let mut wants = Vec::new(alloc);
    for length in 0..tokens.len() + 1 {
        wants.push(answer_by(standing(tree, &tokens[..length])?))?;
    }
    let mut settled = 0;
    for first in 0..tokens.len() + 1 {
        let got = answer(tree, Partial::new(&tokens[..first]));
        let asks = matches!(got, Err(Incomplete(_)));
        let wanted = is_begun(tree, &tokens[..first])?;
        assert!(rt; asks == wanted, "{tree:?} at the first {first} of {tokens:?}, cut: {got:?}");
        if !asks {
            settled += 1;
            let is_so = wants[first..].iter().all(|want| *want == got);
            assert!(rt; is_so, "{tree:?} at the first {first} of {tokens:?}, cut: {got:?}");
        }
    }
    Ok(settled)
}

/// Checks that each composition made from a seed returns the output of its grammar, and backtracks
/// if there is no match.
fn agree(rt: &impl Abort, alloc: Global, seed: u64, depth: usize) -> Result<Ran, Fail> {
    let random = Random(seed);
    let mut generator = Generator { random, alloc };
    let mut ran = Ran::default();
    for _ in 0..COMPOSITIONS {
        let mut tree = generator.tree(depth)?;
        ran.compositions += 1;
        for number in 0..INPUTS {
            let input = generator.input(&tree)?;
            let tokens = input.as_slice();
            let got = answer(&mut tree, tokens);
            let want = answer_by(standing(&tree, tokens)?);
            assert!(rt; got == want, "{tree:?} at {tokens:?}: {got:?}, and not {want:?}");
            ran.inputs += 1;
            if want.is_ok() {
                ran.inputs_read += 1;
            }
            if number == 0 && tree.is_stable() {
                ran.cut_inputs_settled += agrees_when_cut(rt, alloc, &mut tree, tokens)?;
            }
        }
    }
    assert!(rt; ran.inputs_read > COMPOSITIONS, "{ran:?}");
    assert!(rt; ran.cut_inputs_settled > COMPOSITIONS, "{ran:?}");
    Ok(ran)
}

#[test]
fn first_thousand(rt: HostRuntime) -> Result<(), Fail> {
    let ran = agree(&rt, rt.alloc(), 0x9E37_79B9_7F4A_7C15, 1)?;
    Ok(println!(rt; "{ran:?}")?)
}

#[test]
fn second_thousand(rt: HostRuntime) -> Result<(), Fail> {
    let ran = agree(&rt, rt.alloc(), 0xD1B5_4A32_D192_ED03, 2)?;
    Ok(println!(rt; "{ran:?}")?)
}

#[test]
fn third_thousand(rt: HostRuntime) -> Result<(), Fail> {
    let ran = agree(&rt, rt.alloc(), 0xA076_1D64_78BD_642F, 2)?;
    Ok(println!(rt; "{ran:?}")?)
}

#[test]
fn fourth_thousand(rt: HostRuntime) -> Result<(), Fail> {
    let ran = agree(&rt, rt.alloc(), 0xE703_7ED1_A0B4_28DB, 2)?;
    Ok(println!(rt; "{ran:?}")?)
}

#[test]
fn fifth_thousand(rt: HostRuntime) -> Result<(), Fail> {
    let ran = agree(&rt, rt.alloc(), 0x8EBC_6AF0_9C88_C6E3, 3)?;
    Ok(println!(rt; "{ran:?}")?)
}

#[test]
fn sixth_thousand(rt: HostRuntime) -> Result<(), Fail> {
    let ran = agree(&rt, rt.alloc(), 0x5899_65CC_7537_4CC3, 3)?;
    Ok(println!(rt; "{ran:?}")?)
}

#[test]
fn seventh_thousand(rt: HostRuntime) -> Result<(), Fail> {
    let ran = agree(&rt, rt.alloc(), 0x1D8E_4E27_C47D_124F, 3)?;
    Ok(println!(rt; "{ran:?}")?)
}

#[test]
fn eighth_thousand(rt: HostRuntime) -> Result<(), Fail> {
    let ran = agree(&rt, rt.alloc(), 0xEB44_ACCA_B455_D165, 3)?;
    Ok(println!(rt; "{ran:?}")?)
}

#[test]
fn ninth_thousand(rt: HostRuntime) -> Result<(), Fail> {
    let ran = agree(&rt, rt.alloc(), 0x2545_F491_4F6C_DD1D, 3)?;
    Ok(println!(rt; "{ran:?}")?)
}

#[test]
fn tenth_thousand(rt: HostRuntime) -> Result<(), Fail> {
    let ran = agree(&rt, rt.alloc(), 0xBF58_476D_1CE4_E5B9, 3)?;
    Ok(println!(rt; "{ran:?}")?)
}
