//! The readers of `peers/`, by libraries of C and C++.
use crate::text::{Outcome, Text};
use std::os::raw::c_char;

macro_rules! peers {
    ($($name:ident),* $(,)?) => {
        mod linked {
            use super::{c_char, Outcome};

            extern "C" {
                pub fn requests_so_far(requests: &mut u64, bytes: &mut u64) -> i32;
                $(pub fn $name(text: *const c_char, length: usize, out: &mut Outcome);)*
            }
        }

        $(pub fn $name(text: &Text) -> Outcome {
            let mut out = Outcome::default();
            // SAFETY: the text is a live borrow that is only read, and it is followed by `PADDING`
            // bytes.
            unsafe { linked::$name(text.padded().as_ptr().cast(), text.bytes().len(), &mut out) };
            out
        })*
    };
}

peers!(
    body_by_http_parser,
    check_by_rapidjson,
    check_by_simdjson,
    decoded_by_rapidjson,
    decoded_by_simdjson,
    decoded_by_tomlplusplus,
    decoded_on_demand_by_simdjson,
    document_by_tomlplusplus,
    heads_by_http_parser,
    heads_in_pieces_by_http_parser,
    pairs_by_inih,
    records_by_libcsv,
    records_with_semicolons_by_libcsv,
    replies_by_hiredis,
    replies_in_pieces_by_hiredis,
    replies_told_by_hiredis,
    replies_told_in_pieces_by_hiredis,
    values_by_cjson,
    values_by_rapidjson,
    values_by_simdjson,
    values_on_demand_by_simdjson,
);

/// Returns the number of allocations and of allocated bytes, if they are counted.
pub fn requests_so_far() -> Option<(u64, u64)> {
    let (mut requests, mut bytes) = (0, 0);
    // SAFETY: both pointers are those of live variables, and nothing else is written.
    let counted = unsafe { linked::requests_so_far(&mut requests, &mut bytes) };
    (counted != 0).then_some((requests, bytes))
}
