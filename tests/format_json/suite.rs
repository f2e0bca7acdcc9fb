//! The cases of JSONTestSuite (Nicolas Seriot, "Parsing JSON is a Minefield"), by their names:
//! texts that every parser must accept, texts that it must reject, and texts that are left open.
//! The offset of an error is that of the first byte that cannot continue a JSON text, as found by a
//! recursive descent parser in Python. If the text is not UTF-8, it is the offset that Python's
//! decoder reports.
use crate::rejected::REJECTED;
use format_json::{JsonError, SAFE_DEPTH, from_bytes};
use std::alloc::Global;

/// The result for a text.
#[derive(Clone, Copy, Debug, PartialEq, Eq, Drop)]
pub(crate) enum Answer {
    /// A value.
    Read,
    /// A place where something else is expected.
    Unexpected(usize),
    /// The end of the text.
    End(usize),
    /// The offset of the first byte that is not UTF-8.
    NotUtf8(usize),
    /// Anything else.
    Other,
}

/// The texts that are read.
const READ: &[(&str, &[u8])] = &[
    ("y_array_arraysWithSpaces", b"[[]   ]"),
    ("y_array_empty-string", b"[\"\"]"),
    ("y_array_empty", b"[]"),
    ("y_array_ending_with_newline", b"[\"a\"]"),
    ("y_array_false", b"[false]"),
    ("y_array_heterogeneous", b"[null, 1, \"1\", {}]"),
    ("y_array_null", b"[null]"),
    ("y_array_with_1_and_newline", b"[1\n]"),
    ("y_array_with_leading_space", b" [1]"),
    ("y_array_with_several_null", b"[1,null,null,null,2]"),
    ("y_array_with_trailing_space", b"[2] "),
    ("y_number", b"[123e65]"),
    ("y_number_0e+1", b"[0e+1]"),
    ("y_number_0e1", b"[0e1]"),
    ("y_number_after_space", b"[ 4]"),
    (
        "y_number_double_close_to_zero",
        b"[-0.000000000000000000000000000000000000000000000000000000000000000000000000000001]",
    ),
    ("y_number_int_with_exp", b"[20e1]"),
    ("y_number_minus_zero", b"[-0]"),
    ("y_number_negative_int", b"[-123]"),
    ("y_number_negative_one", b"[-1]"),
    ("y_number_negative_zero", b"[-0]"),
    ("y_number_real_capital_e", b"[1E22]"),
    ("y_number_real_capital_e_neg_exp", b"[1E-2]"),
    ("y_number_real_capital_e_pos_exp", b"[1E+2]"),
    ("y_number_real_exponent", b"[123e45]"),
    ("y_number_real_fraction_exponent", b"[123.456e78]"),
    ("y_number_real_neg_exp", b"[1e-2]"),
    ("y_number_real_pos_exponent", b"[1e+2]"),
    ("y_number_simple_int", b"[123]"),
    ("y_number_simple_real", b"[123.456789]"),
    ("y_object", b"{\"asd\":\"sdf\", \"dfg\":\"fgh\"}"),
    ("y_object_basic", b"{\"asd\":\"sdf\"}"),
    ("y_object_duplicated_key", b"{\"a\":\"b\",\"a\":\"c\"}"),
    ("y_object_duplicated_key_and_value", b"{\"a\":\"b\",\"a\":\"b\"}"),
    ("y_object_empty", b"{}"),
    ("y_object_empty_key", b"{\"\":0}"),
    ("y_object_escaped_null_in_key", b"{\"foo\\u0000bar\": 42}"),
    ("y_object_extreme_numbers", b"{ \"min\": -1.0e+28, \"max\": 1.0e+28 }"),
    (
        "y_object_long_strings",
        b"{\"x\":[{\"id\": \"xxxxxxxxxxxxxxxx\"}], \"id\": \"xxxxxxxxxxxxxxxx\"}",
    ),
    ("y_object_simple", b"{\"a\":[]}"),
    (
        "y_object_string_unicode",
        b"{\"title\":\"\\u041f\\u043e\\u043b\\u0442\\u043e\\u0440\\u0430\" }",
    ),
    ("y_object_with_newlines", b"{\n\"a\": \"b\"\n}"),
    ("y_string_1_2_3_bytes_UTF-8_sequences", b"[\"\\u0060\\u012a\\u12AB\"]"),
    ("y_string_accepted_surrogate_pair", b"[\"\\uD801\\udc37\"]"),
    ("y_string_accepted_surrogate_pairs", b"[\"\\ud83d\\ude39\\ud83d\\udc8d\"]"),
    ("y_string_allowed_escapes", b"[\"\\\"\\\\\\/\\b\\f\\n\\r\\t\"]"),
    ("y_string_backslash_and_u_escaped_zero", b"[\"\\\\u0000\"]"),
    ("y_string_backslash_doublequotes", b"[\"\\\"\"]"),
    ("y_string_comments", b"[\"a/*b*/c/*d//e\"]"),
    ("y_string_double_escape_a", b"[\"\\\\a\"]"),
    ("y_string_double_escape_n", b"[\"\\\\n\"]"),
    ("y_string_escaped_control_character", b"[\"\\u0012\"]"),
    ("y_string_escaped_noncharacter", b"[\"\\uFFFF\"]"),
    ("y_string_in_array", b"[\"asd\"]"),
    ("y_string_in_array_with_leading_space", b"[ \"asd\"]"),
    ("y_string_last_surrogates_1_and_2", b"[\"\\uDBFF\\uDFFF\"]"),
    ("y_string_nbsp_uescaped", b"[\"new\\u00A0line\"]"),
    ("y_string_nonCharacterInUTF-8_U+10FFFF", b"[\"\xf4\x8f\xbf\xbf\"]"),
    ("y_string_nonCharacterInUTF-8_U+FFFF", b"[\"\xef\xbf\xbf\"]"),
    ("y_string_null_escape", b"[\"\\u0000\"]"),
    ("y_string_one-byte-utf-8", b"[\"\\u002c\"]"),
    ("y_string_pi", b"[\"\xcf\x80\"]"),
    ("y_string_reservedCharacterInUTF-8_U+1BFFF", b"[\"\xf0\x9b\xbf\xbf\"]"),
    ("y_string_simple_ascii", b"[\"asd \"]"),
    ("y_string_space", b"\" \""),
    ("y_string_surrogates_U+1D11E_MUSICAL_SYMBOL_G_CLEF", b"[\"\\uD834\\uDd1e\"]"),
    ("y_string_three-byte-utf-8", b"[\"\\u0821\"]"),
    ("y_string_two-byte-utf-8", b"[\"\\u0123\"]"),
    ("y_string_u+2028_line_sep", b"[\"\xe2\x80\xa8\"]"),
    ("y_string_u+2029_par_sep", b"[\"\xe2\x80\xa9\"]"),
    ("y_string_uEscape", b"[\"\\u0061\\u30af\\u30EA\\u30b9\"]"),
    ("y_string_uescaped_newline", b"[\"new\\u000Aline\"]"),
    ("y_string_unescaped_char_delete", b"[\"\x7f\"]"),
    ("y_string_unicode", b"[\"\\uA66D\"]"),
    ("y_string_unicodeEscapedBackslash", b"[\"\\u005C\"]"),
    ("y_string_unicode_2", b"[\"\xe2\x8d\x82\xe3\x88\xb4\xe2\x8d\x82\"]"),
    ("y_string_unicode_U+10FFFE_nonchar", b"[\"\\uDBFF\\uDFFE\"]"),
    ("y_string_unicode_U+1FFFE_nonchar", b"[\"\\uD83F\\uDFFE\"]"),
    ("y_string_unicode_U+200B_ZERO_WIDTH_SPACE", b"[\"\\u200B\"]"),
    ("y_string_unicode_U+2064_invisible_plus", b"[\"\\u2064\"]"),
    ("y_string_unicode_U+FDD0_nonchar", b"[\"\\uFDD0\"]"),
    ("y_string_unicode_U+FFFE_nonchar", b"[\"\\uFFFE\"]"),
    ("y_string_unicode_escaped_double_quote", b"[\"\\u0022\"]"),
    ("y_string_utf8", b"[\"\xe2\x82\xac\xf0\x9d\x84\x9e\"]"),
    ("y_string_with_del_character", b"[\"a\x7fa\"]"),
    ("y_structure_lonely_false", b"false"),
    ("y_structure_lonely_int", b"42"),
    ("y_structure_lonely_negative_real", b"-0.1"),
    ("y_structure_lonely_null", b"null"),
    ("y_structure_lonely_string", b"\"asd\""),
    ("y_structure_lonely_true", b"true"),
    ("y_structure_string_empty", b"\"\""),
    ("y_structure_trailing_newline", b"[\"a\"]\n"),
    ("y_structure_true_in_array", b"[true]"),
    ("y_structure_whitespace_array", b" [] "),
    ("i_number_double_huge_neg_exp", b"[123.456e-789]"),
    ("i_number_huge_exp", b"[0.4e00669999999999999999999999999999999969999999006]"),
    ("i_number_neg_int_huge_exp", b"[-1e+9999]"),
    ("i_number_pos_double_huge_exp", b"[1.5e+9999]"),
    ("i_number_real_neg_overflow", b"[-123123e100000]"),
    ("i_number_real_pos_overflow", b"[123123e100000]"),
    ("i_number_real_underflow", b"[123e-10000000]"),
    ("i_number_too_big_neg_int", b"[-123123123123123123123123123123]"),
    ("i_number_too_big_pos_int", b"[100000000000000000000]"),
    ("i_number_very_big_negative_int", b"[-237462374673276894279832749832423479823246327846]"),
];

/// The result for a text at the safe level.
fn answer(alloc: Global, bytes: &[u8]) -> Answer {
    match from_bytes(alloc, SAFE_DEPTH, bytes) {
        Ok(_) => Answer::Read,
        Err(JsonError::Unexpected { at, .. }) => Answer::Unexpected(at.offset),
        Err(JsonError::End { at, .. }) => Answer::End(at.offset),
        Err(JsonError::NotUtf8 { at }) => Answer::NotUtf8(at.offset),
        Err(_) => Answer::Other,
    }
}

#[test]
fn texts_that_are_read(rt: HostRuntime) {
    for row in READ {
        let (name, text) = *row;
        assert_eq!(rt; answer(rt.alloc(), text), Answer::Read, "{name}");
    }
}

#[test]
fn texts_that_are_rejected(rt: HostRuntime) {
    for row in REJECTED {
        let (name, text, want) = *row;
        assert_eq!(rt; answer(rt.alloc(), text), want, "{name}");
    }
}

/// Repeats `first` `level` times, then `last` as often.
fn nested(alloc: Global, first: &str, last: &str, level: usize) -> Option<String<Global>> {
    let mut text = String::new(alloc);
    for _ in 0..level {
        text.push_str(first).ok()?;
    }
    for _ in 0..level {
        text.push_str(last).ok()?;
    }
    Some(text)
}

#[test]
fn texts_that_nest_deep(rt: HostRuntime) {
    // n_structure_100000_opening_arrays, n_structure_open_array_object and
    // i_structure_500_nested_arrays
    let rows = [
        ("[", "", 100_000, SAFE_DEPTH),
        ("[{\"\":", "", 50_000, 5 * (SAFE_DEPTH / 2)),
        ("[", "]", 500, SAFE_DEPTH),
    ];
    for row in rows {
        let (first, last, level, place) = row;
        let Some(text) = nested(rt.alloc(), first, last, level) else {
            return;
        };
        let fault = from_bytes(rt.alloc(), SAFE_DEPTH, text.as_bytes());
        let Err(JsonError::TooDeep { at, level }) = fault else {
            return assert!(rt; false, "{first:?}");
        };
        assert_eq!(rt; (at.offset, level), (place, SAFE_DEPTH));
    }
    let Some(text) = nested(rt.alloc(), "[", "]", 500) else {
        return;
    };
    assert!(rt; from_bytes(rt.alloc(), 500, text.as_bytes()).is_ok());
}
